//! States, commands, undoing, rollback, the listing and command lines, from 01's own words.
use crate::step::{take, with, work, Work};
use crate::term::*;
use std::collections::BTreeSet;

pub const DONE: u32 = 0;
pub const BAD_MODULE: u32 = 1;
pub const BAD_SIZES: u32 = 2;
pub const NO_PROCESS: u32 = 3;
pub const FINISHED: u32 = 4;
pub const WAITING: u32 = 5;
pub const STUCK: u32 = 6;
pub const WRONG_COMMAND: u32 = 7;
pub const PLACE_TAKEN: u32 = 8;
pub const TOO_LARGE: u32 = 9;
pub const HISTORY_FULL: u32 = 10;
pub const NO_MESSAGE: u32 = 11;
pub const NOTHING_TO_UNDO: u32 = 12;
pub const HELD: u32 = 13;
pub const NO_CHECKPOINT: u32 = 14;
pub const NOT_A_STATE: u32 = 15;
pub const NO_ROOM: u32 = 16;
pub const BAD_LINE: u32 = 17;

#[derive(Clone, Copy, PartialEq, Eq, PartialOrd, Ord, Debug)]
pub struct Name {
    pub sender: usize,
    pub count: usize,
}

#[derive(Clone, PartialEq, Debug)]
pub enum Kind {
    Seq,
    Send { target: usize, value: Vec<u32> },
    /// the place of its message in the queue before, and that queue
    Rec { place: usize, before: Vec<Name> },
    Spawn { child: usize },
    Own,
    Check { number: u32 },
}

#[derive(Clone, PartialEq, Debug)]
pub struct Entry {
    pub kind: Kind,
    pub before: Vec<u32>,
}

/// The history stands oldest first, and so does the queue.
#[derive(Clone, PartialEq, Debug)]
pub struct Process {
    pub control: Vec<u32>,
    pub history: Vec<Entry>,
    pub queue: Vec<Name>,
}

#[derive(Clone, Copy, PartialEq, Debug)]
pub struct Sizes {
    pub places: usize,
    pub entries: usize,
    pub words: usize,
}

impl Sizes {
    pub fn good(&self) -> bool {
        (1..=16).contains(&self.places) && (1..=64).contains(&self.entries) && (16..=255).contains(&self.words)
    }
}

#[derive(Clone, Debug)]
pub struct State {
    pub module: Vec<u32>,
    pub functions: Vec<Term>,
    pub sizes: Sizes,
    pub pool: Vec<Option<Process>>,
}

#[derive(Clone, Copy, PartialEq, Debug)]
pub enum Command {
    Step(u32),
    Spawn(u32, u32),
    Deliver(u32, u32),
    Back(u32),
    Undeliver(u32),
    Rollback(u32, u32),
}

fn left(place: usize, before: &[Name]) -> Vec<Name> {
    [&before[..place], &before[place + 1..]].concat()
}

impl State {
    pub fn load(module: &[u32], functions: Vec<Term>, sizes: Sizes) -> State {
        let mut pool = vec![None; sizes.places];
        pool[0] = Some(Process { control: vec![word(APPLY, 0, 0)], history: Vec::new(), queue: Vec::new() });
        State { module: module.to_vec(), functions, sizes, pool }
    }

    fn process(&self, p: u32) -> Option<&Process> {
        self.pool.get(p as usize)?.as_ref()
    }

    fn process_mut(&mut self, p: usize) -> &mut Process {
        self.pool[p].as_mut().expect("a process")
    }

    pub fn term(&self, row: &[u32]) -> Term {
        check_control(row, self.sizes.places as u32, &self.functions).expect("a control")
    }

    /// The sends of p: target and value, by count.
    pub fn sends(&self, p: usize) -> Vec<(usize, &Vec<u32>)> {
        let entries = self.pool.get(p).and_then(Option::as_ref).map_or(&[][..], |x| &x.history);
        entries.iter().filter_map(|e| if let Kind::Send { target, value } = &e.kind { Some((*target, value)) } else { None }).collect()
    }

    /// What the recs of a process took.
    pub fn taken(x: &Process) -> Vec<Name> {
        x.history.iter().filter_map(|e| if let Kind::Rec { place, before } = &e.kind { Some(before[*place]) } else { None }).collect()
    }

    fn has_come(&self, name: Name, target: usize) -> bool {
        self.pool[target].as_ref().is_some_and(|x| x.queue.contains(&name) || State::taken(x).contains(&name))
    }

    /// The messages in flight with their targets, by sender, then count.
    pub fn flight(&self) -> Vec<(Name, usize)> {
        let mut out = Vec::new();
        for sender in 0..self.sizes.places {
            for (count, (target, _)) in self.sends(sender).into_iter().enumerate() {
                let name = Name { sender, count };
                if !self.has_come(name, target) {
                    out.push((name, target));
                }
            }
        }
        out
    }

    fn newest_left(x: &Process) -> Vec<Name> {
        let recs = x.history.iter().rev().filter_map(|e| if let Kind::Rec { place, before } = &e.kind { Some(left(*place, before)) } else { None });
        recs.into_iter().next().unwrap_or_default()
    }

    /// p makes an entry: 9, then 10.
    fn enter(&mut self, p: usize, kind: Kind, next: Vec<u32>) -> u32 {
        let sizes = self.sizes;
        let x = self.process_mut(p);
        if next.len() > sizes.words {
            return TOO_LARGE;
        }
        if x.history.len() >= sizes.entries {
            return HISTORY_FULL;
        }
        let before = std::mem::replace(&mut x.control, next);
        x.history.push(Entry { kind, before });
        DONE
    }

    fn step(&mut self, p: u32) -> u32 {
        let Some(x) = self.process(p) else {
            return NO_PROCESS;
        };
        let at = p as usize;
        let control = self.term(&x.control);
        match work(&self.functions, &control) {
            Work::Finished => FINISHED,
            Work::Stuck => STUCK,
            Work::Seq(next) => self.enter(at, Kind::Seq, next.words()),
            Work::Send { target, value, next } => {
                if self.process(target).is_none() {
                    return STUCK;
                }
                self.enter(at, Kind::Send { target: target as usize, value: value.words() }, next.words())
            }
            Work::Receive => self.receive(at, &control),
            Work::Spawn { .. } => WRONG_COMMAND,
            Work::Own => self.enter(at, Kind::Own, with(&control, leaf(PID, p)).words()),
            Work::Check { number, next } => self.enter(at, Kind::Check { number }, next.words()),
        }
    }

    fn receive(&mut self, p: usize, control: &Term) -> u32 {
        let before = self.pool[p].as_ref().expect("a process").queue.clone();
        for (place, name) in before.iter().enumerate() {
            let row = self.sends(name.sender)[name.count].1;
            let value = value_of(row, self.sizes.places as u32);
            if let Some(next) = take(control, &value) {
                let rest = left(place, &before);
                let answer = self.enter(p, Kind::Rec { place, before: before.clone() }, next.words());
                if answer == DONE {
                    self.process_mut(p).queue = rest;
                }
                return answer;
            }
        }
        WAITING
    }

    fn spawn(&mut self, p: u32, f: u32) -> u32 {
        let Some(x) = self.process(p) else {
            return NO_PROCESS;
        };
        let control = self.term(&x.control);
        let first = match work(&self.functions, &control) {
            Work::Finished => return FINISHED,
            Work::Spawn { first } => first,
            _ => return WRONG_COMMAND,
        };
        if f as usize >= self.sizes.places || self.process(f).is_some() {
            return PLACE_TAKEN;
        }
        let answer = self.enter(p as usize, Kind::Spawn { child: f as usize }, with(&control, leaf(PID, f)).words());
        if answer == DONE {
            self.pool[f as usize] = Some(Process { control: first.words(), history: Vec::new(), queue: Vec::new() });
        }
        answer
    }

    fn deliver(&mut self, s: u32, k: u32) -> u32 {
        let name = Name { sender: s as usize, count: k as usize };
        match self.flight().into_iter().find(|(n, _)| *n == name) {
            None => NO_MESSAGE,
            Some((_, target)) => {
                self.process_mut(target).queue.push(name);
                DONE
            }
        }
    }

    fn back(&mut self, p: u32) -> u32 {
        let Some(x) = self.process(p) else {
            return NO_PROCESS;
        };
        let Some(newest) = x.history.last().cloned() else {
            return NOTHING_TO_UNDO;
        };
        let p = p as usize;
        match &newest.kind {
            Kind::Send { target, .. } => {
                let name = Name { sender: p, count: self.sends(p).len() - 1 };
                if self.has_come(name, *target) {
                    return HELD;
                }
            }
            Kind::Rec { place, before } => {
                if x.queue != left(*place, before) {
                    return HELD;
                }
                self.process_mut(p).queue = before.clone();
            }
            Kind::Spawn { child } => {
                let young = self.pool[*child].as_ref().expect("a child");
                if !young.history.is_empty() || !young.queue.is_empty() || self.flight().iter().any(|(_, t)| t == child) {
                    return HELD;
                }
                self.pool[*child] = None;
            }
            _ => {}
        }
        let x = self.process_mut(p);
        x.history.pop();
        x.control = newest.before;
        DONE
    }

    fn undeliver(&mut self, p: u32) -> u32 {
        let Some(x) = self.process(p) else {
            return NO_PROCESS;
        };
        if x.queue.is_empty() {
            return NOTHING_TO_UNDO;
        }
        if x.queue.len() <= State::newest_left(x).len() {
            return HELD;
        }
        self.process_mut(p as usize).queue.pop();
        DONE
    }

    /// The number, the count that a rollback adds, and the state after; a refusal leaves the state.
    pub fn run(&mut self, c: Command) -> (u32, u32) {
        match c {
            Command::Step(p) => (self.step(p), 0),
            Command::Spawn(p, f) => (self.spawn(p, f), 0),
            Command::Deliver(s, k) => (self.deliver(s, k), 0),
            Command::Back(p) => (self.back(p), 0),
            Command::Undeliver(p) => (self.undeliver(p), 0),
            Command::Rollback(p, t) => self.rollback(p, t),
        }
    }

    // ---- rollback

    /// Arrivals in order: by the first queue that shows them, then by place in it.
    fn arrivals(&self, q: usize) -> Vec<Name> {
        let Some(x) = &self.pool[q] else {
            return Vec::new();
        };
        let mut out: Vec<Name> = Vec::new();
        let recs = x.history.iter().filter_map(|e| if let Kind::Rec { before, .. } = &e.kind { Some(before) } else { None });
        for queue in recs.chain([&x.queue]) {
            for name in queue {
                if !out.contains(name) {
                    out.push(*name);
                }
            }
        }
        out
    }

    fn rollback(&mut self, p: u32, t: u32) -> (u32, u32) {
        let Some(x) = self.process(p) else {
            return (NO_PROCESS, 0);
        };
        let Some(i) = x.history.iter().rposition(|e| e.kind == Kind::Check { number: t }) else {
            return (NO_CHECKPOINT, 0);
        };
        let graph = Graph::of(self);
        let set = graph.with_dependents(Event::Entry(p as usize, i));
        let mut end = self.clone();
        let mut gone = 0;
        while gone < set.len() {
            let Some(next) = end.undo_in(&set) else {
                return (HELD, 0);
            };
            end = next;
            gone += 1;
        }
        *self = end;
        (DONE, gone as u32)
    }

    /// The state after some accepted undo of an event in the set.
    fn undo_in(&self, set: &BTreeSet<Event>) -> Option<State> {
        for p in 0..self.sizes.places {
            let Some(x) = &self.pool[p] else { continue };
            let tries = [
                (!x.history.is_empty() && set.contains(&Event::Entry(p, x.history.len() - 1)), Command::Back(p as u32)),
                (x.queue.last().is_some_and(|n| set.contains(&Event::Delivery(p, *n))), Command::Undeliver(p as u32)),
            ];
            for (inside, command) in tries {
                if inside {
                    let mut after = self.clone();
                    if after.run(command).0 == DONE {
                        return Some(after);
                    }
                }
            }
        }
        None
    }

    // ---- text

    pub fn listing(&self) -> String {
        let name = |n: &Name| format!("{}.{}", n.sender, n.count);
        let mut out = format!("processes={}\n", self.pool.iter().flatten().count());
        for (p, x) in self.pool.iter().enumerate() {
            let Some(x) = x else { continue };
            let newest = match x.history.last().map(|e| &e.kind) {
                None => "none",
                Some(Kind::Seq) => "seq",
                Some(Kind::Send { .. }) => "send",
                Some(Kind::Rec { .. }) => "rec",
                Some(Kind::Spawn { .. }) => "spawn",
                Some(Kind::Own) => "self",
                Some(Kind::Check { .. }) => "check",
            };
            let queue: Vec<String> = x.queue.iter().map(name).collect();
            let words: Vec<String> = x.control.iter().map(|w| format!("{w:08X}")).collect();
            out += &format!("pid={p}\nhistory={}\nnewest={newest}\nqueue={}\nwords={}\n", x.history.len(), queue.join(" "), words.join(" "));
        }
        let flight: Vec<String> = self.flight().iter().map(|(n, _)| name(n)).collect();
        out + &format!("flight={}\n", flight.join(" "))
    }
}

/// A command line without its LF; none is 17.
pub fn parse(line: &[u8]) -> Option<Command> {
    let text = std::str::from_utf8(line).ok()?;
    let (key, rest) = text.split_once('=')?;
    let numbers: Option<Vec<u32>> = rest.split(',').map(number).collect();
    match (key, numbers?.as_slice()) {
        ("step", &[p]) => Some(Command::Step(p)),
        ("spawn", &[p, f]) => Some(Command::Spawn(p, f)),
        ("deliver", &[s, k]) => Some(Command::Deliver(s, k)),
        ("back", &[p]) => Some(Command::Back(p)),
        ("undeliver", &[p]) => Some(Command::Undeliver(p)),
        ("rollback", &[p, t]) => Some(Command::Rollback(p, t)),
        _ => None,
    }
}

fn number(text: &str) -> Option<u32> {
    let plain = !text.is_empty() && text.len() <= 3 && text.bytes().all(|b| b.is_ascii_digit()) && (text == "0" || !text.starts_with('0'));
    if plain {
        text.parse().ok().filter(|n| *n <= 255)
    } else {
        None
    }
}

// ---- events

#[derive(Clone, Copy, PartialEq, Eq, PartialOrd, Ord, Debug)]
pub enum Event {
    Entry(usize, usize),
    Delivery(usize, Name),
}

/// What depends at once on what.
struct Graph {
    on: Vec<(Event, Event)>,
}

impl Graph {
    fn of(s: &State) -> Graph {
        let mut g = Graph { on: Vec::new() };
        for p in 0..s.sizes.places {
            let Some(x) = &s.pool[p] else { continue };
            let arrivals = s.arrivals(p);
            let entries: Vec<Event> = (0..x.history.len()).map(|i| Event::Entry(p, i)).collect();
            let deliveries: Vec<Event> = arrivals.iter().map(|n| Event::Delivery(p, *n)).collect();
            for own in [&entries, &deliveries] {
                for i in 0..own.len() {
                    for j in 0..i {
                        g.on.push((own[i], own[j]));
                    }
                }
            }
            g.recs(x, p, &arrivals);
            g.sends(s, p, &arrivals);
            g.births(s, p, entries.iter().chain(&deliveries));
        }
        g
    }

    fn recs(&mut self, x: &Process, p: usize, arrivals: &[Name]) {
        let mut took: Vec<Name> = Vec::new();
        for (i, e) in x.history.iter().enumerate() {
            let Kind::Rec { place, before } = &e.kind else { continue };
            for n in arrivals {
                let (rec, delivery) = (Event::Entry(p, i), Event::Delivery(p, *n));
                if before.contains(n) {
                    self.on.push((rec, delivery));
                } else if !took.contains(n) {
                    self.on.push((delivery, rec));
                }
            }
            took.push(before[*place]);
        }
    }

    fn sends(&mut self, s: &State, p: usize, arrivals: &[Name]) {
        for n in arrivals {
            let history = &s.pool[n.sender].as_ref().expect("a sender").history;
            let sends = history.iter().enumerate().filter(|(_, e)| matches!(e.kind, Kind::Send { .. }));
            let (i, _) = sends.skip(n.count).next().expect("a send");
            self.on.push((Event::Delivery(p, *n), Event::Entry(n.sender, i)));
        }
    }

    fn births<'a>(&mut self, s: &State, p: usize, own: impl Iterator<Item = &'a Event> + Clone) {
        for (q, y) in s.pool.iter().enumerate() {
            let Some(y) = y else { continue };
            for (i, e) in y.history.iter().enumerate() {
                if e.kind == (Kind::Spawn { child: p }) {
                    self.on.extend(own.clone().map(|event| (*event, Event::Entry(q, i))));
                }
            }
        }
    }

    fn with_dependents(&self, event: Event) -> BTreeSet<Event> {
        let mut set = BTreeSet::from([event]);
        loop {
            let more: Vec<Event> = self.on.iter().filter(|(a, b)| set.contains(b) && !set.contains(a)).map(|(a, _)| *a).collect();
            if more.is_empty() {
                return set;
            }
            set.extend(more);
        }
    }
}
