//! How long each call takes on a full store: in microseconds, as a ratio to this implementation, and to one plain pass over the needed words.
use crate::image::{self, decode, encode};
use crate::linked;
use crate::state::*;
use crate::term::*;
use std::hint::black_box;
use std::time::Instant;

const ROUNDS: usize = 15;

/// Process 0 spawns all others; each then passes a checkpoint, sends its peer a value and waits for one, again and again.
fn ring(places: usize, wide: usize) -> Vec<u32> {
    let value = (0..wide).fold(leaf(NIL, 0), |rest, i| node(CONS, 0, vec![leaf(ATOM, i as u32 % 256), rest]));
    let mut first = node(APPLY, 1, vec![leaf(OWN, 0)]);
    for v in (0..places as u32 - 1).rev() {
        let peer = if v == 0 { leaf(OWN, 0) } else { leaf(VARIABLE, v - 1) };
        first = node(LET, v, vec![node(SPAWN, 1, vec![peer]), if v + 2 == places as u32 { node(APPLY, 1, vec![leaf(VARIABLE, v)]) } else { first }]);
    }
    let again = node(CLAUSE, 0, vec![leaf(VARIABLE, 3), leaf(ATOM, 0), node(APPLY, 1, vec![leaf(VARIABLE, 0)])]);
    let wait = node(RECEIVE, 0, vec![again]);
    let send = node(LET, 2, vec![node(SEND, 0, vec![leaf(VARIABLE, 0), value]), wait]);
    let body = node(LET, 1, vec![leaf(CHECK, 7), send]);
    let mut words = node(FUNCTION, 0, vec![first]).words();
    words.extend(node(FUNCTION, 1, vec![body]).words());
    words
}

/// Steps, spawns and deliveries until no process goes on.
fn full(sizes: Sizes) -> State {
    let module = ring(sizes.places, (sizes.words / 2 - 12) / 2);
    let functions = check_module(&module).expect("a good module");
    let mut s = State::load(&module, functions, sizes);
    loop {
        let mut moved = false;
        for p in 0..sizes.places as u32 {
            let free = (0..sizes.places as u32).find(|f| s.pool[*f as usize].is_none()).unwrap_or(0);
            moved |= s.run(Command::Step(p)).0 == DONE || s.run(Command::Spawn(p, free)).0 == DONE;
        }
        for (name, target) in s.flight() {
            let few = s.pool[target].as_ref().is_some_and(|x| x.queue.len() < 4);
            moved |= few && s.run(Command::Deliver(name.sender as u32, name.count as u32)).0 == DONE;
        }
        if !moved {
            return s;
        }
    }
}

/// The least of several times of one call, each on a fresh copy of the store, in microseconds.
fn time<R>(store: &[u32], mut f: impl FnMut(&mut [u32]) -> R) -> f64 {
    let mut best = f64::MAX;
    for _ in 0..ROUNDS {
        let mut copy = store.to_vec();
        let start = Instant::now();
        black_box(f(black_box(&mut copy)));
        best = best.min(start.elapsed().as_secs_f64() * 1e6);
    }
    best
}

/// Each needed word read once and summed, compiled for the same processor as the library and as freely.
fn plain_pass(store: &[u32]) -> f64 {
    time(store, |s| s.iter().fold(0u32, |sum, w| sum.wrapping_add(*w)))
}

/// The state in which an undo has made room for the command.
fn room_for(s: &State, undo: impl Fn(u32) -> Command, again: impl Fn(u32) -> Command) -> (State, Command) {
    for p in 0..s.sizes.places as u32 {
        let mut after = s.clone();
        if after.run(undo(p)).0 == DONE && after.clone().run(again(p)).0 == DONE {
            return (after, again(p));
        }
    }
    (s.clone(), again(0))
}

fn accepted(s: &State, c: impl Fn(u32) -> Command) -> Command {
    (0..s.sizes.places as u32).map(&c).find(|c| s.clone().run(*c).0 == DONE).unwrap_or(c(0))
}

fn report(name: &str, proved: f64, ours: f64, pass: f64) {
    println!("  {name:<22} {proved:>10.1} us {:>8.2} x Rust {:>8.1} x pass", proved / ours, proved / pass);
}

fn calls(s: &State, pass: f64) {
    let newest = |s: &State, p: u32| s.pool[p as usize].as_ref().map(|x| x.queue.last().copied());
    let (stepped, step) = room_for(s, Command::Back, Command::Step);
    let undeliver = accepted(s, Command::Undeliver);
    let mut undelivered = s.clone();
    let Command::Undeliver(q) = undeliver else { unreachable!() };
    let name = newest(s, q).flatten().unwrap_or(Name { sender: 0, count: 0 });
    undelivered.run(undeliver);
    let rows = [
        ("step", stepped, step),
        ("spawn (refused: 7)", s.clone(), Command::Spawn(0, 1)),
        ("deliver", undelivered, Command::Deliver(name.sender as u32, name.count as u32)),
        ("back", s.clone(), accepted(s, Command::Back)),
        ("undeliver", s.clone(), undeliver),
        ("rollback", s.clone(), accepted(s, |p| Command::Rollback(p, 7))),
    ];
    for (name, state, c) in rows {
        let store = encode(&state);
        let proved = time(&store, |l| linked::call(l, c));
        let ours = time(&store, |l| image::call(l, c));
        let mut copy = store.clone();
        report(&format!("{name} -> {}", linked::call(&mut copy, c).0), proved, ours, pass);
    }
    let store = encode(s);
    let mut out = vec![0; 1 << 20];
    report("listing", time(&store, |l| linked::listing(l, &mut out)), time(&store, |l| image::listing(l, &mut out)), pass);
    let z = s.sizes;
    let (p, h, w) = (z.places as u32, z.entries as u32, z.words as u32);
    report("load", time(&store, |l| linked::load(&s.module, p, h, w, l)), time(&store, |l| image::load(&s.module, p, h, w, l)), pass);
}

/// Rollbacks of about so many events, each against `back` on the same store: a plain step of some process is made a checkpoint, which soundness allows.
fn rollbacks(s: &State) {
    let store = encode(s);
    let undo = accepted(s, Command::Back);
    let back = time(&store, |l| linked::call(l, undo));
    let mut seen: Vec<(u32, State, u32)> = Vec::new();
    for p in [s.sizes.places - 1, s.sizes.places / 2, 0] {
        let len = s.pool[p].as_ref().map_or(0, |x| x.history.len());
        for depth in [1, 2, 3, 4, 6, 8, 12, 16, 24, 32, 40, 48, 56, 64] {
            let mut odd = s.clone();
            let Some(e) = len.checked_sub(depth).and_then(|i| odd.pool[p].as_mut().map(|x| &mut x.history[i])) else { continue };
            if !matches!(e.kind, Kind::Seq | Kind::Own | Kind::Check { .. }) {
                continue;
            }
            e.kind = Kind::Check { number: 200 };
            let mut copy = encode(&odd);
            let (number, count) = linked::call(&mut copy, Command::Rollback(p as u32, 200));
            if number == DONE {
                seen.push((count, odd, p as u32));
            }
        }
    }
    for wanted in [1, 10, 100, 1000] {
        let Some((count, odd, p)) = seen.iter().min_by_key(|(count, _, _)| count.abs_diff(wanted)) else { continue };
        let store = encode(odd);
        let t = time(&store, |l| linked::call(l, Command::Rollback(*p, 200)));
        println!("  rollback of {count:>4} events {t:>10.1} us {:>8.2} x back", t / back);
    }
}

fn grows(what: &str, sizes: &[Sizes]) {
    println!("{what}:");
    for &z in sizes {
        let store = encode(&full(z));
        let c = Command::Undeliver(99);
        let t = time(&store, |l| linked::call(l, c));
        println!("  P {:>2} H {:>2} W {:>3}: {:>8} words, {t:>10.1} us, {:>6.1} ns a word", z.places, z.entries, z.words, store.len(), t * 1e3 / store.len() as f64);
    }
}

pub fn speed() {
    for (places, entries, words) in [(4, 16, 64), (16, 64, 255)] {
        let s = full(Sizes { places, entries, words });
        let store = encode(&s);
        assert!(decode(&store).is_some());
        let pass = plain_pass(&store);
        let entries_made: usize = s.pool.iter().flatten().map(|x| x.history.len()).sum();
        println!("P {places} H {entries} W {words}: {} words, {entries_made} entries, one plain pass {pass:.1} us", store.len());
        calls(&s, pass);
        rollbacks(&s);
    }
    let size = |places, entries, words| Sizes { places, entries, words };
    grows("how a refused call grows with P", &[size(2, 16, 64), size(4, 16, 64), size(8, 16, 64), size(16, 16, 64)]);
    grows("with H", &[size(4, 8, 64), size(4, 16, 64), size(4, 32, 64), size(4, 64, 64)]);
    grows("with W", &[size(4, 16, 32), size(4, 16, 64), size(4, 16, 128), size(4, 16, 255)]);
}
