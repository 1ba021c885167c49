//! The reversing bench once more, written straight from its specification.
//!
//!     outside run P H W WORD.. < lines     what the program `bench` would print for these sizes and this module (words in hex)
//!     outside compare [SEED [MODULES]]     the proved library against this one on random modules, scripts and damaged stores
//!     outside speed                        each call's time, as a ratio to this one's and to one plain pass over the store
#[cfg(feature = "linked")]
mod compare;
mod image;
#[cfg(feature = "linked")]
mod linked;
#[cfg_attr(not(feature = "linked"), allow(dead_code))]
mod random;
#[cfg(feature = "linked")]
mod speed;
mod state;
mod step;
mod term;

use std::io::Read;

fn run(words: &[String]) -> Option<()> {
    let [p, h, w, module @ ..] = words else {
        return None;
    };
    let module: Vec<u32> = module.iter().map(|x| u32::from_str_radix(x, 16).ok()).collect::<Option<_>>()?;
    let sizes = state::Sizes { places: p.parse().ok()?, entries: h.parse().ok()?, words: w.parse().ok()? };
    let mut store = vec![0; sizes.needed()];
    image::load(&module, sizes.places as u32, sizes.entries as u32, sizes.words as u32, &mut store);
    let mut input = Vec::new();
    std::io::stdin().read_to_end(&mut input).ok()?;
    if input.last() == Some(&b'\n') {
        input.pop();
    } else if input.is_empty() {
        if let Some(s) = image::decode(&store) {
            print!("{}", s.listing());
        }
        return Some(());
    }
    for text in input.split(|b| *b == b'\n') {
        let (number, count) = image::line(&mut store, text);
        println!("answer={number}");
        if count > 0 {
            println!("undone={count}");
        }
    }
    if let Some(s) = image::decode(&store) {
        print!("{}", s.listing());
    }
    Some(())
}

#[cfg(feature = "linked")]
fn compared(words: &[String]) -> Option<()> {
    let seed = words.first().map_or(Some(1), |w| w.parse().ok())?;
    let modules = words.get(1).map_or(Some(2000), |w| w.parse().ok())?;
    let tally = compare::compare(seed, modules);
    println!("{modules} modules from seed {seed}: no difference");
    println!("damaged stores {}, listings {}, command lines {}", tally.stores, tally.listings, tally.lines);
    let [all, done, held] = tally.rollbacks;
    println!("rollbacks after a load {all}: {done} accepted, {held} held");
    let [all, done, held] = tally.altered;
    println!("rollbacks at altered sound states {all}: {done} accepted, {held} held");
    for (number, count) in tally.answers.iter().enumerate() {
        println!("answer {number:2}: {count}");
    }
    Some(())
}

fn main() {
    let words: Vec<String> = std::env::args().skip(1).collect();
    let done = match words.split_first() {
        Some((first, rest)) if first == "run" => run(rest),
        #[cfg(feature = "linked")]
        Some((first, rest)) if first == "compare" => compared(rest),
        #[cfg(feature = "linked")]
        Some((first, _)) if first == "speed" => Some(speed::speed()),
        _ => None,
    };
    if done.is_none() {
        eprintln!("usage: outside run P H W WORD.. | compare [SEED [MODULES]] | speed");
        std::process::exit(2);
    }
}
