/* A terminal viewer of the reversing bench: loads a module, reads commands, shows each answer and the listing after it with each control as a
 * term and the checkpoints that each process has passed, and marks what changed. In a term X0 is a variable, a5 an atom, <1> a pid and f2 a
 * function.
 *
 *     viewer MODULE [P H W] < commands
 *
 * MODULE is a file of words in hex, split by spaces or lines; from # to the end of a line is a comment. */
#include "bench.h"

#include <ctype.h>
#include <stdio.h>
#include <stdlib.h>
#include <string.h>

enum { MODULE_ROOM = 513, LISTING_ROOM = 1 << 17, LINE_ROOM = 64, TRUE_WORD = BENCH_ATOM << 24 };

/* Of the store's layout (docs/LAYOUT.md): where the blocks of the places begin, a slot's head, and the kind of a slot that is a check. */
enum { BLOCKS = 516, SLOT_HEAD = 8, KIND_CHECK = 6 };

static const char *const answers[] = {
    "done", "bad module", "bad sizes", "no process", "finished", "waiting", "stuck", "wrong command", "place taken", "too large",
    "history full", "no message", "nothing to undo", "held", "no checkpoint", "not a state", "no room", "bad line",
};

static const char help[] =
    "step=P        one step of process P\n"
    "spawn=P,F     P spawns into place F\n"
    "deliver=S,K   message S.K comes to its target's queue\n"
    "back=P        undoes P's newest entry\n"
    "undeliver=P   P's newest queued message goes back into flight\n"
    "rollback=P,T  undoes P's newest passing of checkpoint T and all that depends on it\n"
    "?             this help      q  ends\n";

/* ---- a control as a term, for people */

struct row {
    uint32_t words[256];
    size_t count, at;
};

static void show_term(struct row *r);

/* n terms, with what stands before, between and behind them. */
static void show_between(struct row *r, const char *before_all, unsigned n, const char *between, const char *behind)
{
    fputs(before_all, stdout);
    for (unsigned i = 0; i < n; i++) {
        if (i > 0)
            fputs(between, stdout);
        show_term(r);
    }
    fputs(behind, stdout);
}

/* Truth is atom 0, falsity atom 1. */
static void show_atom(unsigned k)
{
    if (k <= 1)
        fputs(k == 0 ? "true" : "false", stdout);
    else
        printf("a%u", k);
}

/* n clauses: pattern, guard, body; the guard `true` is left out. */
static void show_clauses(struct row *r, unsigned n)
{
    for (unsigned i = 0; i < n && r->at < r->count; i++) {
        r->at++;
        fputs(i > 0 ? "; " : " ", stdout);
        show_term(r);
        if (r->at < r->count && r->words[r->at] == TRUE_WORD) {
            r->at++;
        } else {
            fputs(" when ", stdout);
            show_term(r);
        }
        fputs(" -> ", stdout);
        show_term(r);
    }
    fputs(" end", stdout);
}

/* An integer's payload, as two's complement. */
static void show_integer(struct row *r)
{
    if (r->at < r->count) {
        uint32_t payload = r->words[r->at++];
        printf("%lld", payload < 0x80000000u ? (long long)payload : (long long)payload - 0x100000000ll);
    }
}

static void show_term(struct row *r)
{
    static const char *const operators[] = {"+", "-", "*", "div", "rem", "=:=", "=/=", "<", "=<"};
    char name[24];
    if (r->at >= r->count) {
        putchar('?');
        return;
    }
    uint32_t word = r->words[r->at++];
    unsigned n = BENCH_N(word), k = BENCH_K(word);
    switch (BENCH_TAG(word)) {
    case BENCH_VARIABLE: printf("X%u", k); break;
    case BENCH_ATOM: show_atom(k); break;
    case BENCH_INTEGER: show_integer(r); break;
    case BENCH_PID: printf("<%u>", k); break;
    case BENCH_NIL: fputs("[]", stdout); break;
    case BENCH_CONS: show_between(r, "[", 2, "|", "]"); break;
    case BENCH_TUPLE: show_between(r, "{", n, ", ", "}"); break;
    case BENCH_CALL:
        snprintf(name, sizeof name, " %s ", k < sizeof operators / sizeof *operators ? operators[k] : "?");
        show_between(r, "(", 2, name, ")");
        break;
    case BENCH_APPLY:
        snprintf(name, sizeof name, "f%u(", k);
        show_between(r, name, n, ", ", ")");
        break;
    case BENCH_CASE:
        show_between(r, "case ", 1, "", " of");
        show_clauses(r, n);
        break;
    case BENCH_LET:
        snprintf(name, sizeof name, "let X%u = ", k);
        show_between(r, name, 2, " in ", "");
        break;
    case BENCH_RECEIVE:
        fputs("receive", stdout);
        show_clauses(r, n);
        break;
    case BENCH_SPAWN:
        snprintf(name, sizeof name, "spawn f%u(", k);
        show_between(r, name, n, ", ", ")");
        break;
    case BENCH_SEND: show_between(r, "(", 2, " ! ", ")"); break;
    case BENCH_SELF: fputs("self()", stdout); break;
    case BENCH_CHECK: printf("check %u", k); break;
    default: printf("?%08X", (unsigned)word); break;
    }
}

/* The term that the words of a listing's line say: eight hexadecimal digits each, split by single spaces. */
static void show_control(const char *hex, size_t len)
{
    struct row r = {.count = 0, .at = 0};
    for (size_t at = 0; at + 8 <= len && r.count < sizeof r.words / sizeof *r.words; at += 9) {
        char digits[9] = "";
        memcpy(digits, hex + at, 8);
        r.words[r.count++] = (uint32_t)strtoul(digits, NULL, 16);
    }
    fputs("         ", stdout);
    show_term(&r);
    putchar('\n');
}

/* ---- listings */

/* The listing of a store. */
struct listing {
    char text[LISTING_ROOM];
    size_t len;
};

static uint32_t store_words[BENCH_NEEDED(16, 64, 255)];
static struct listing now, before;

/* An answer by number and name, with the position of a bad module and the count of an accepted rollback. */
static void say(const char *what, uint64_t r, int rollback)
{
    uint32_t number = BENCH_NUMBER(r);
    printf("%s%u %s", what, number, number < sizeof answers / sizeof *answers ? answers[number] : "?");
    if (number == BENCH_BAD_MODULE)
        printf(", at word %u", BENCH_VALUE(r));
    if (number == BENCH_DONE && rollback)
        printf(", undone %u", BENCH_VALUE(r));
    putchar('\n');
}

/* The checkpoints that stand in a place's history, oldest first. */
static void show_checks(unsigned long place)
{
    size_t places = store_words[0], entries = store_words[1], slot = SLOT_HEAD + store_words[2] + places * entries;
    const uint32_t *block = store_words + BLOCKS + place * (entries + 1) * slot;
    int any = 0;
    for (size_t i = 1; place < places && i <= entries; i++) {
        if (block[i * slot] != KIND_CHECK)
            continue;
        printf(any ? " %u" : "         checkpoints passed: %u", (unsigned)block[i * slot + 2]);
        any = 1;
    }
    if (any)
        putchar('\n');
}

/* Words of a module file; MODULE_ROOM of them stand for too many. Returns -1 where something is no word. */
static long read_module(FILE *f, uint32_t *words)
{
    long count = 0;
    int c = getc(f);
    while (c != EOF) {
        char digits[9];
        size_t n = 0;
        if (c == '#') {
            while (c != EOF && c != '\n')
                c = getc(f);
            continue;
        }
        if (isspace(c)) {
            c = getc(f);
            continue;
        }
        while (isxdigit(c) && n < sizeof digits - 1) {
            digits[n++] = (char)c;
            c = getc(f);
        }
        if (n == 0 || (c != EOF && !isspace(c) && c != '#'))
            return -1;
        digits[n] = '\0';
        if (count < MODULE_ROOM)
            words[count++] = (uint32_t)strtoul(digits, NULL, 16);
    }
    return count;
}

static void list(const uint32_t *store, size_t len)
{
    uint64_t r = bench_listing(store, len, (uint8_t *)now.text, sizeof now.text);
    now.len = BENCH_NUMBER(r) == BENCH_DONE ? BENCH_VALUE(r) : 0;
    if (now.len == 0)
        say("listing: ", r, 0);
}

/* The value of a key below a pid, as the line that holds it; NULL where there is none. A line is told by its pid and its key. */
static const char *same_line(const struct listing *l, const char *pid, size_t pid_len, const char *line, size_t key_len)
{
    int inside = pid_len == 0;
    for (const char *at = l->text, *end = l->text + l->len; at < end;) {
        const char *stop = memchr(at, '\n', (size_t)(end - at));
        size_t len = stop == NULL ? (size_t)(end - at) : (size_t)(stop - at) + 1;
        if (len >= 4 && memcmp(at, "pid=", 4) == 0)
            inside = len == pid_len && memcmp(at, pid, len) == 0;
        if (len >= 7 && memcmp(at, "flight=", 7) == 0)
            inside = 1;
        if (inside && len >= key_len && memcmp(at, line, key_len) == 0)
            return at;
        at += len;
    }
    return NULL;
}

/* Each line of the listing, with a mark where it is new or differs from the listing before. */
static void show(void)
{
    const char *pid = NULL;
    size_t pid_len = 0;
    for (const char *at = now.text, *end = now.text + now.len; at < end;) {
        const char *stop = memchr(at, '\n', (size_t)(end - at));
        size_t len = stop == NULL ? (size_t)(end - at) : (size_t)(stop - at) + 1;
        const char *equals = memchr(at, '=', len);
        size_t key_len = equals == NULL ? len : (size_t)(equals - at) + 1;
        if (len >= 4 && memcmp(at, "pid=", 4) == 0) {
            pid = at;
            pid_len = len;
        } else if (len >= 7 && memcmp(at, "flight=", 7) == 0) {
            pid_len = 0;
        }
        const char *old = same_line(&before, pid, pid_len, at, at == pid ? len : key_len);
        size_t left = old == NULL ? 0 : before.len - (size_t)(old - before.text);
        putchar(old != NULL && left >= len && memcmp(old, at, len) == 0 ? ' ' : '*');
        putchar(' ');
        fwrite(at, 1, len, stdout);
        if (len > 6 && memcmp(at, "words=", 6) == 0) {
            show_control(at + 6, len - 7);
            show_checks(strtoul(pid + 4, NULL, 10));
        }
        at += len;
    }
    before = now;
}

/* A line of any length, without its LF; what does not fit is left out but makes it longer than any good line. 0 at the end of input. */
static int read_line(char *line, size_t *len)
{
    int c = getchar();
    if (c == EOF)
        return 0;
    for (*len = 0; c != EOF && c != '\n'; c = getchar())
        if (*len < LINE_ROOM)
            line[(*len)++] = (char)c;
    return 1;
}

static int size_of(const char *text, uint32_t *out)
{
    char *end;
    unsigned long n = strtoul(text, &end, 10);
    *out = (uint32_t)n;
    return *text != '\0' && *end == '\0' && n <= 0xFFFFFFFFul;
}

static int usage(void)
{
    fputs("usage: viewer MODULE [P H W]\n"
          "  MODULE  a file of words in hex, split by spaces or lines; # starts a comment\n"
          "  P H W   process places (1 to 16), history entries of each (1 to 64), words of an expression (16 to 255); else 4 16 64\n",
          stderr);
    return 2;
}

int main(int argc, char **argv)
{
    uint32_t module[MODULE_ROOM], places = 4, entries = 16, words = 64;
    if (argc != 2 && argc != 5)
        return usage();
    if (argc == 5 && !(size_of(argv[2], &places) && size_of(argv[3], &entries) && size_of(argv[4], &words)))
        return usage();
    FILE *f = fopen(argv[1], "r");
    if (f == NULL) {
        perror(argv[1]);
        return 1;
    }
    long count = read_module(f, module);
    fclose(f);
    if (count < 0) {
        fprintf(stderr, "%s: not a file of words in hex\n", argv[1]);
        return 1;
    }
    size_t len = sizeof store_words / sizeof *store_words;
    uint64_t r = bench_load(module, (size_t)count, places, entries, words, store_words, len);
    say("load: ", r, 0);
    if (BENCH_NUMBER(r) != BENCH_DONE)
        return 1;
    puts("(a line of ? shows the commands, q ends; * marks what changed)");
    list(store_words, len);
    show();
    char line[LINE_ROOM];
    for (size_t n; read_line(line, &n);) {
        if (n == 1 && line[0] == 'q')
            break;
        if (n == 1 && line[0] == '?') {
            fputs(help, stdout);
            continue;
        }
        printf("\n> %.*s\n", (int)n, line);
        say("", bench_line(store_words, len, (const uint8_t *)line, n), n > 9 && memcmp(line, "rollback=", 9) == 0);
        list(store_words, len);
        show();
    }
    return 0;
}
