/* How much stack a step takes, and how long, with a comparison of two large values and without one. Each call runs on a stack of its own that was
 * filled with one byte before; what is no longer that byte was used. */
#define _XOPEN_SOURCE 700
#include <stdint.h>
#include <stdio.h>
#include <string.h>
#include <time.h>
#include <ucontext.h>

#include "../viewer/bench.h"

/* A store with one place and room for the longest controls; the words of a value; the runs of which the least time is taken. */
enum { PLACES = 1, ENTRIES = 4, WORDS = 255, STORE = BENCH_NEEDED(PLACES, ENTRIES, WORDS), MODULE = 512, VALUE = 120, RUNS = 20000 };
enum { STACK = 1 << 20, PAINT = 0xA5 };

#define WORD(tag, n, k) ((uint32_t)(tag) << 24 | (uint32_t)(n) << 16 | (uint32_t)(k))

static unsigned char stack[STACK] __attribute__((aligned(64)));
static uint32_t store[STORE], before[STORE];
static uint64_t answer;
static ucontext_t here, there;

/* Two kinds of values: tuples of one as deep as they go, and pairs of a counter and the rest. */
static uint32_t *nested(uint32_t *to)
{
    for (int i = 1; i < VALUE; i++) *to++ = WORD(BENCH_TUPLE, 1, 0);
    *to++ = WORD(BENCH_ATOM, 0, 5);
    return to;
}

static uint32_t *counters(uint32_t *to)
{
    for (int i = 3; i < VALUE; i += 3) {
        *to++ = WORD(BENCH_TUPLE, 2, 0);
        *to++ = WORD(BENCH_INTEGER, 0, 0);
        *to++ = 900;
    }
    *to++ = WORD(BENCH_TUPLE, 1, 0);
    *to++ = WORD(BENCH_INTEGER, 0, 0);
    *to++ = 900;
    return to;
}

/* A control: a head over two such values and, for a tuple of three, a check. */
struct control {
    const char *name;
    uint32_t head;
    uint32_t *(*value)(uint32_t *);
};

static size_t module(uint32_t *row, const struct control *c)
{
    uint32_t *to = row;
    *to++ = WORD(BENCH_FUNCTION, 0, 0);
    *to++ = c->head;
    to = c->value(c->value(to));
    if (BENCH_TAG(c->head) == BENCH_TUPLE) *to++ = WORD(BENCH_CHECK, 0, 1);
    return (size_t)(to - row);
}

static void step(void)
{
    answer = bench_step(store, STORE, 0);
}

static size_t stack_of_step(void)
{
    memset(stack, PAINT, STACK);
    getcontext(&there);
    there.uc_stack.ss_sp = stack;
    there.uc_stack.ss_size = STACK;
    there.uc_link = &here;
    makecontext(&there, step, 0);
    swapcontext(&here, &there);
    size_t untouched = 0;
    while (untouched < STACK && stack[untouched] == PAINT) untouched++;
    return STACK - untouched;
}

static double least_time(void)
{
    double least = 1e9;
    for (int i = 0; i < RUNS; i++) {
        struct timespec from, to;
        memcpy(store, before, sizeof store);
        clock_gettime(CLOCK_MONOTONIC, &from);
        step();
        clock_gettime(CLOCK_MONOTONIC, &to);
        double us = (double)(to.tv_sec - from.tv_sec) * 1e6 + (double)(to.tv_nsec - from.tv_nsec) / 1e3;
        if (us < least) least = us;
    }
    return least;
}

/* Loads, enters the function, and measures the step that the control then makes. */
static int measure(const struct control *c)
{
    uint32_t row[MODULE];
    size_t length = module(row, c);
    if (bench_load(row, length, PLACES, ENTRIES, WORDS, store, STORE) != BENCH_DONE) return 1;
    step();
    if (answer != BENCH_DONE) return 1;
    memcpy(before, store, sizeof store);
    size_t used = stack_of_step();
    if (answer != BENCH_DONE) return 1;
    printf("%-36s %6zu bytes %8.2f us\n", c->name, used, least_time());
    return 0;
}

int main(void)
{
    const struct control controls[] = {
        {"=:=, 119 deep", WORD(BENCH_CALL, 2, 5), nested},
        {"=/=, 119 deep", WORD(BENCH_CALL, 2, 6), nested},
        {"=:=, 40 counters", WORD(BENCH_CALL, 2, 5), counters},
        {"check beside them, 119 deep", WORD(BENCH_TUPLE, 3, 0), nested},
        {"check beside them, 40 counters", WORD(BENCH_TUPLE, 3, 0), counters},
        {"let, 119 deep", WORD(BENCH_LET, 2, 0), nested},
        {"let, 40 counters", WORD(BENCH_LET, 2, 0), counters},
    };
    int failed = 0;
    for (size_t i = 0; i < sizeof controls / sizeof *controls; i++) failed |= measure(&controls[i]);
    return failed;
}
