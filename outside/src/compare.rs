//! The proved bench against this one: answers, every word of the store, and what must not be touched.
use crate::image::{self, decode, encode};
use crate::linked;
use crate::random::{self, Random};
use crate::state::*;

const GUARD: u32 = 0xA5A5_5A5A;
/// words behind the needed length, lent with the store, and words behind the lent slice
const PAST: usize = 3;

#[derive(Default)]
pub struct Tally {
    pub answers: [u64; 18],
    pub stores: u64,
    pub listings: u64,
    pub lines: u64,
    /// rollbacks at states after a load, and at sound states that no load need reach; how many of each were accepted and held
    pub rollbacks: [u64; 3],
    pub altered: [u64; 3],
}

impl Tally {
    fn note(&mut self, number: u32) {
        self.answers[number as usize] += 1;
    }

    fn note_rollback(counts: &mut [u64; 3], number: u32) {
        counts[0] += 1;
        counts[1] += u64::from(number == DONE);
        counts[2] += u64::from(number == HELD);
    }
}

/// One call on both, on copies of one store with guards behind it.
fn both(what: &str, store: &mut Vec<u32>, ours: impl Fn(&mut [u32]) -> (u32, u32), proved: impl Fn(&mut [u32]) -> (u32, u32)) -> (u32, u32) {
    let mut expected = store.clone();
    let want = ours(&mut expected);
    let len = store.len();
    let mut given = store.clone();
    given.extend([GUARD; PAST]);
    let got = proved(&mut given[..len]);
    if got != want || given[..len] != expected[..] || given[len..] != [GUARD; PAST] {
        let at = (0..len).find(|i| given[*i] != expected[*i]);
        panic!("{what}: expected {want:?}, got {got:?}, first different word {at:?}\nstore {store:?}");
    }
    *store = expected;
    want
}

fn text_of(random: &mut Random, c: Command) -> Vec<u8> {
    let text = match c {
        Command::Step(p) => format!("step={p}"),
        Command::Spawn(p, f) => format!("spawn={p},{f}"),
        Command::Deliver(s, k) => format!("deliver={s},{k}"),
        Command::Back(p) => format!("back={p}"),
        Command::Undeliver(p) => format!("undeliver={p}"),
        Command::Rollback(p, t) => format!("rollback={p},{t}"),
    };
    let mut bytes = text.into_bytes();
    if random.once_in(4) {
        let at = random.below(bytes.len());
        match random.below(4) {
            0 => bytes[at] = random.below(256) as u8,
            1 => bytes.insert(at, random.pick(b"0=,1 s")),
            2 => bytes.truncate(at),
            _ => bytes.extend(b"55"),
        }
    }
    bytes
}

fn compare_listing(random: &mut Random, store: &[u32], tally: &mut Tally) {
    let exact = decode(store).map_or(9, |s| s.listing().len());
    let len = random.pick(&[exact, exact.saturating_sub(1), exact + 40, 0]);
    let (mut a, mut b) = (vec![0xEE; len + PAST], vec![0xEE; len + PAST]);
    let want = image::listing(store, &mut a[..len]);
    let got = linked::listing(store, &mut b[..len]);
    assert!(want == got && a == b, "listing: expected {want:?}, got {got:?}");
    tally.note(want.0);
    tally.listings += 1;
}

/// A store with some words changed, and one command on it.
fn compare_damaged(random: &mut Random, store: &[u32], tally: &mut Tally) {
    let mut bad = store.to_vec();
    let needed = bad.len() - PAST;
    for _ in 0..1 + random.below(2) {
        let at = random.below(needed);
        let near = random.below(needed);
        bad[at] = random.pick(&[0, 1, 2, 3, 4, 5, 6, 7, bad[at].wrapping_add(1), bad[at].wrapping_sub(1), bad[at] ^ 1 << 16, bad[near], 65536, u32::MAX]);
    }
    if random.once_in(12) {
        bad.truncate(random.below(bad.len()));
    }
    let c = decode(&bad).map_or(Command::Step(0), |s| random::command(random, &s));
    let (number, _) = both("damaged", &mut bad, |s| image::call(s, c), |s| linked::call(s, c));
    tally.note(number);
    tally.stores += 1;
}

/// A sound state that a load need not reach: entries turned into checkpoints, children exchanged, controls before replaced; and a rollback there.
fn compare_altered(random: &mut Random, s: &State, past: usize, tally: &mut Tally) {
    let mut odd = s.clone();
    for _ in 0..1 + random.below(4) {
        random::alter(random, &mut odd);
    }
    let mut store = encode(&odd);
    store.extend(vec![7; past]);
    let Some(sound) = decode(&store) else { return };
    let c = random::rollback(random, &sound);
    let (number, _) = both("altered", &mut store, |s| image::call(s, c), |s| linked::call(s, c));
    tally.note(number);
    Tally::note_rollback(&mut tally.altered, number);
}

fn one_module(random: &mut Random, tally: &mut Tally) {
    let sizes = if random.once_in(12) { Sizes { places: random.below(18), entries: random.below(67), words: random.pick(&[0, 15, 16, 255, 256]) } } else { random::sizes(random) };
    let good = random::module(random);
    let words = if random.once_in(4) { random::damaged(random, &good) } else { good };
    let room = if sizes.good() { sizes.needed() } else { 600 };
    let room = if random.once_in(15) { room.saturating_sub(1) } else { room + PAST };
    let mut store: Vec<u32> = (0..room).map(|_| random.next() as u32).collect();
    let (p, h, w) = (sizes.places as u32, sizes.entries as u32, sizes.words as u32);
    let (number, _) = both("load", &mut store, |s| image::load(&words, p, h, w, s), |s| linked::load(&words, p, h, w, s));
    tally.note(number);
    if number != DONE {
        return;
    }
    for _ in 0..20 + random.below(60) {
        let s = decode(&store).expect("a sound state stays sound");
        assert!(encode(&s)[..] == store[..sizes.needed()], "one image");
        let c = random::command(random, &s);
        if random.once_in(3) {
            let text = text_of(random, c);
            let (number, _) = both("line", &mut store, |s| image::line(s, &text), |s| linked::line(s, &text));
            tally.note(number);
            tally.lines += 1;
        } else {
            let (number, _) = both("call", &mut store, |s| image::call(s, c), |s| linked::call(s, c));
            tally.note(number);
            if let Command::Rollback(_, _) = c {
                Tally::note_rollback(&mut tally.rollbacks, number);
            }
        }
        if random.once_in(2) {
            compare_altered(random, &s, PAST, tally);
        }
        if random.once_in(5) {
            compare_listing(random, &store, tally);
        }
        if random.once_in(3) {
            compare_damaged(random, &store, tally);
        }
    }
}

pub fn compare(seed: u64, modules: u64) -> Tally {
    let mut tally = Tally::default();
    for i in 0..modules {
        one_module(&mut Random::new(seed + i), &mut tally);
    }
    tally
}
