//! The proved library's calls: a slice goes as its pointer and its length, an answer comes as value × 2^32 + number.
use crate::state::Command;

extern "C" {
    fn bench_load(module: *const u32, module_len: usize, places: u32, entries: u32, words: u32, store: *mut u32, store_len: usize) -> u64;
    fn bench_step(store: *mut u32, len: usize, p: u32) -> u64;
    fn bench_spawn(store: *mut u32, len: usize, p: u32, f: u32) -> u64;
    fn bench_deliver(store: *mut u32, len: usize, s: u32, k: u32) -> u64;
    fn bench_back(store: *mut u32, len: usize, p: u32) -> u64;
    fn bench_undeliver(store: *mut u32, len: usize, p: u32) -> u64;
    fn bench_rollback(store: *mut u32, len: usize, p: u32, t: u32) -> u64;
    fn bench_listing(store: *const u32, len: usize, out: *mut u8, out_len: usize) -> u64;
    fn bench_line(store: *mut u32, len: usize, text: *const u8, text_len: usize) -> u64;
}

// SAFETY, of every call below: a Rust slice is valid and aligned for its length and its pointer is never null, the slices of one call do not
// overlap since at most one of them is borrowed mutably, and the library's contracts ask nothing else.

fn parts(r: u64) -> (u32, u32) {
    (r as u32, (r >> 32) as u32)
}

pub fn load(module: &[u32], places: u32, entries: u32, words: u32, store: &mut [u32]) -> (u32, u32) {
    parts(unsafe { bench_load(module.as_ptr(), module.len(), places, entries, words, store.as_mut_ptr(), store.len()) })
}

pub fn call(store: &mut [u32], c: Command) -> (u32, u32) {
    let (at, len) = (store.as_mut_ptr(), store.len());
    parts(unsafe {
        match c {
            Command::Step(p) => bench_step(at, len, p),
            Command::Spawn(p, f) => bench_spawn(at, len, p, f),
            Command::Deliver(s, k) => bench_deliver(at, len, s, k),
            Command::Back(p) => bench_back(at, len, p),
            Command::Undeliver(p) => bench_undeliver(at, len, p),
            Command::Rollback(p, t) => bench_rollback(at, len, p, t),
        }
    })
}

pub fn line(store: &mut [u32], text: &[u8]) -> (u32, u32) {
    parts(unsafe { bench_line(store.as_mut_ptr(), store.len(), text.as_ptr(), text.len()) })
}

pub fn listing(store: &[u32], out: &mut [u8]) -> (u32, u32) {
    parts(unsafe { bench_listing(store.as_ptr(), store.len(), out.as_mut_ptr(), out.len()) })
}
