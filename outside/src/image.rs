//! Stores: the words of a state by docs/LAYOUT.md, and the state of words where they begin with the image of a sound one.
use crate::state::*;
use crate::step::{work, Work};
use crate::term::*;

const HEAD: usize = 4;
const BLOCKS: usize = HEAD + LONGEST_MODULE;
const SLOT_HEAD: usize = 8;
const NAME_BASE: u32 = 65536;
const LIVE: u32 = 7;

impl Sizes {
    fn names(&self) -> usize {
        self.places * self.entries
    }

    fn slot(&self) -> usize {
        SLOT_HEAD + self.words + self.names()
    }

    fn block(&self) -> usize {
        (self.entries + 1) * self.slot()
    }

    pub fn needed(&self) -> usize {
        BLOCKS + self.places * self.block()
    }
}

fn write_slot(slot: &mut [u32], words: usize, kind: u32, number: usize, control: &[u32], names: &[Name]) {
    slot[0] = kind;
    slot[1] = control.len() as u32;
    slot[2] = number as u32;
    slot[4] = names.len() as u32;
    slot[SLOT_HEAD..SLOT_HEAD + control.len()].copy_from_slice(control);
    for (to, name) in slot[SLOT_HEAD + words..].iter_mut().zip(names) {
        *to = name.sender as u32 * NAME_BASE + name.count as u32;
    }
}

pub fn encode(s: &State) -> Vec<u32> {
    let z = s.sizes;
    let mut out = vec![0; z.needed()];
    out[..HEAD].copy_from_slice(&[z.places as u32, z.entries as u32, z.words as u32, s.module.len() as u32]);
    out[HEAD..HEAD + s.module.len()].copy_from_slice(&s.module);
    for (block, x) in out[BLOCKS..].chunks_mut(z.block()).zip(&s.pool) {
        let Some(x) = x else { continue };
        let (present, entries) = block.split_at_mut(z.slot());
        write_slot(present, z.words, LIVE, 0, &x.control, &x.queue);
        for (slot, e) in entries.chunks_mut(z.slot()).zip(&x.history) {
            let (kind, number, names) = match &e.kind {
                Kind::Seq => (1, 0, &[][..]),
                Kind::Send { .. } => (2, 0, &[][..]),
                Kind::Rec { place, before } => (3, *place, &before[..]),
                Kind::Spawn { child } => (4, *child, &[][..]),
                Kind::Own => (5, 0, &[][..]),
                Kind::Check { number } => (6, *number as usize, &[][..]),
            };
            write_slot(slot, z.words, kind, number, &e.before, names);
        }
    }
    out
}

fn zeros(words: &[u32]) -> bool {
    words.iter().all(|w| *w == 0)
}

struct Slot<'a> {
    kind: u32,
    number: u32,
    control: &'a [u32],
    names: Vec<Name>,
}

fn read_slot(slot: &[u32], z: Sizes) -> Option<Slot<'_>> {
    let (length, count) = (slot[1] as usize, slot[4] as usize);
    if length > z.words || count > z.names() || slot[3] != 0 || !zeros(&slot[5..8]) {
        return None;
    }
    let (control, names) = slot[SLOT_HEAD..].split_at(z.words);
    if !zeros(&control[length..]) || !zeros(&names[count..]) {
        return None;
    }
    let names = names[..count].iter().map(|w| Name { sender: (w / NAME_BASE) as usize, count: (w % NAME_BASE) as usize }).collect();
    Some(Slot { kind: slot[0], number: slot[2], control: &control[..length], names })
}

fn read_entry(slot: Slot, s: &State) -> Option<Entry> {
    let control = check_control(slot.control, s.sizes.places as u32, &s.functions)?;
    if slot.kind != 3 && !slot.names.is_empty() || matches!(slot.kind, 1 | 2 | 5) && slot.number != 0 {
        return None;
    }
    let kind = match slot.kind {
        1 => Kind::Seq,
        2 => match work(&s.functions, &control) {
            Work::Send { target, value, .. } => Kind::Send { target: target as usize, value: value.words() },
            _ => return None,
        },
        3 if (slot.number as usize) < slot.names.len() => Kind::Rec { place: slot.number as usize, before: slot.names },
        4 => Kind::Spawn { child: slot.number as usize },
        5 => Kind::Own,
        6 if slot.number <= 255 => Kind::Check { number: slot.number },
        _ => return None,
    };
    Some(Entry { kind, before: slot.control.to_vec() })
}

fn read_process(block: &[u32], s: &State) -> Option<Option<Process>> {
    let z = s.sizes;
    let (present, entries) = block.split_at(z.slot());
    if present[0] == 0 {
        return zeros(block).then_some(None);
    }
    let now = read_slot(present, z)?;
    if now.kind != LIVE || now.number != 0 {
        return None;
    }
    check_control(now.control, z.places as u32, &s.functions)?;
    let mut history = Vec::new();
    let mut slots = entries.chunks(z.slot());
    for slot in slots.by_ref() {
        if slot[0] == 0 {
            if !zeros(slot) {
                return None;
            }
            break;
        }
        history.push(read_entry(read_slot(slot, z)?, s)?);
    }
    slots.all(zeros).then(|| Some(Process { control: now.control.to_vec(), history, queue: now.names }))
}

/// The state whose image the words begin with, if it is a sound one.
pub fn decode(l: &[u32]) -> Option<State> {
    if l.len() < HEAD {
        return None;
    }
    let sizes = Sizes { places: l[0] as usize, entries: l[1] as usize, words: l[2] as usize };
    if !sizes.good() || l.len() < sizes.needed() || l[3] as usize > LONGEST_MODULE {
        return None;
    }
    let (module, padding) = l[HEAD..BLOCKS].split_at(l[3] as usize);
    if !zeros(padding) {
        return None;
    }
    let functions = check_module(module).ok()?;
    let mut s = State { module: module.to_vec(), functions, sizes, pool: Vec::new() };
    for block in l[BLOCKS..sizes.needed()].chunks(sizes.block()) {
        let x = read_process(block, &s)?;
        s.pool.push(x);
    }
    sound(&s).then_some(s)
}

fn begins(front: &[Name], queue: &[Name]) -> bool {
    queue.len() >= front.len() && queue[..front.len()] == *front
}

/// The clauses of soundness that speak of more than one slot.
fn sound(s: &State) -> bool {
    let mut born = vec![0; s.sizes.places];
    for e in s.pool.iter().flatten().flat_map(|x| &x.history) {
        if let Kind::Spawn { child } = e.kind {
            if child == 0 || child >= s.sizes.places || s.pool[child].is_none() {
                return false;
            }
            born[child] += 1;
        }
    }
    let births = s.pool[0].is_some() && (1..s.sizes.places).all(|q| born[q] == usize::from(s.pool[q].is_some()));
    let sends: Vec<Vec<usize>> = (0..s.sizes.places).map(|p| s.sends(p).iter().map(|(target, _)| *target).collect()).collect();
    let targets = sends.iter().flatten().all(|t| s.pool.get(*t).is_some_and(Option::is_some));
    births && targets && s.pool.iter().enumerate().all(|(t, x)| x.as_ref().is_none_or(|x| mail_sound(&sends, t, x)))
}

fn mail_sound(sends: &[Vec<usize>], t: usize, x: &Process) -> bool {
    let mut come = x.queue.clone();
    come.extend(State::taken(x));
    let sent = come.iter().all(|n| sends.get(n.sender).and_then(|targets| targets.get(n.count)) == Some(&t));
    let mut once = come.clone();
    once.sort();
    once.dedup();
    let mut front: Vec<Name> = Vec::new();
    for e in &x.history {
        if let Kind::Rec { place, before } = &e.kind {
            if !begins(&front, before) {
                return false;
            }
            front = [&before[..*place], &before[*place + 1..]].concat();
        }
    }
    sent && once.len() == come.len() && begins(&front, &x.queue)
}

// ---- the calls, on stores, as the bench has them

/// The answer's number and value; the store is written only where the command is accepted.
pub fn call(store: &mut [u32], c: Command) -> (u32, u32) {
    let Some(mut s) = decode(store) else {
        return (NOT_A_STATE, 0);
    };
    let answer = s.run(c);
    if answer.0 == DONE {
        let image = encode(&s);
        store[..image.len()].copy_from_slice(&image);
    }
    answer
}

pub fn load(module: &[u32], places: u32, entries: u32, words: u32, store: &mut [u32]) -> (u32, u32) {
    let sizes = Sizes { places: places as usize, entries: entries as usize, words: words as usize };
    if !sizes.good() || store.len() < sizes.needed() {
        return (BAD_SIZES, 0);
    }
    match check_module(module) {
        Err(at) => (BAD_MODULE, at as u32),
        Ok(functions) => {
            let image = encode(&State::load(module, functions, sizes));
            store[..image.len()].copy_from_slice(&image);
            (DONE, 0)
        }
    }
}

pub fn line(store: &mut [u32], text: &[u8]) -> (u32, u32) {
    parse(text).map_or((BAD_LINE, 0), |c| call(store, c))
}

pub fn listing(store: &[u32], out: &mut [u8]) -> (u32, u32) {
    let Some(s) = decode(store) else {
        return (NOT_A_STATE, 0);
    };
    let text = s.listing();
    if text.len() > out.len() {
        return (NO_ROOM, 0);
    }
    out[..text.len()].copy_from_slice(text.as_bytes());
    (DONE, text.len() as u32)
}
