//! Random modules, sizes and commands, from a seed.
use crate::state::*;
use crate::term::*;

pub struct Random(u64);

impl Random {
    pub fn new(seed: u64) -> Random {
        Random(seed.wrapping_mul(0x9E3779B97F4A7C15) | 1)
    }

    pub fn next(&mut self) -> u64 {
        self.0 ^= self.0 << 13;
        self.0 ^= self.0 >> 7;
        self.0 ^= self.0 << 17;
        self.0.wrapping_mul(0x2545F4914F6CDD1D) >> 16
    }

    pub fn below(&mut self, n: usize) -> usize {
        (self.next() % n as u64) as usize
    }

    pub fn pick<T: Copy>(&mut self, from: &[T]) -> T {
        from[self.below(from.len())]
    }

    pub fn once_in(&mut self, n: usize) -> bool {
        self.below(n) == 0
    }
}

/// Writes expressions that keep the module's rules.
struct Writer<'a> {
    random: &'a mut Random,
    arities: Vec<u32>,
    checks: u32,
}

impl Writer<'_> {
    fn integer(&mut self) -> Term {
        let n = self.random.pick(&[0, 1, 2, 7, 46341, i32::MAX, i32::MIN, -1, -7]);
        leaf(INTEGER, n as u32)
    }

    fn simple(&mut self, scope: &[u32]) -> Term {
        match self.random.below(6) {
            0 => self.integer(),
            1 => leaf(NIL, 0),
            2 | 3 if !scope.is_empty() => leaf(VARIABLE, self.random.pick(scope)),
            _ => leaf(ATOM, self.random.below(4) as u32),
        }
    }

    fn named(&mut self, tag: u32, fuel: u32, scope: &[u32]) -> Term {
        let f = self.random.below(self.arities.len());
        let kids = (0..self.arities[f]).map(|_| self.expression(fuel / 2, scope)).collect();
        node(tag, f as u32, kids)
    }

    fn fresh(&mut self, scope: &[u32]) -> u32 {
        let free: Vec<u32> = (0..64).filter(|v| !scope.contains(v)).collect();
        free[self.random.below(free.len().min(6))]
    }

    fn clause(&mut self, fuel: u32, scope: &[u32]) -> Term {
        let mut inner = scope.to_vec();
        let pattern = match self.random.below(4) {
            0 => leaf(ATOM, self.random.below(4) as u32),
            1 => {
                let kids = (0..2).map(|_| self.binder(&mut inner)).collect();
                node(TUPLE, 0, kids)
            }
            _ => self.binder(&mut inner),
        };
        let guard = match self.random.below(4) {
            0 => {
                let operator = self.random.below(9) as u32;
                node(CALL, operator, vec![self.simple(&inner), self.simple(&inner)])
            }
            _ => leaf(ATOM, 0),
        };
        let body = self.expression(fuel, &inner);
        node(CLAUSE, 0, vec![pattern, guard, body])
    }

    fn binder(&mut self, scope: &mut Vec<u32>) -> Term {
        let v = self.fresh(scope);
        scope.push(v);
        leaf(VARIABLE, v)
    }

    fn clauses(&mut self, fuel: u32, scope: &[u32]) -> Vec<Term> {
        (0..1 + self.random.below(2)).map(|_| self.clause(fuel / 2, scope)).collect()
    }

    fn expression(&mut self, fuel: u32, scope: &[u32]) -> Term {
        if fuel == 0 {
            return self.simple(scope);
        }
        match self.random.below(23) {
            0 => node(CALL, self.random.below(9) as u32, vec![self.expression(fuel / 3, scope), self.expression(fuel / 3, scope)]),
            1 => node(CONS, 0, vec![self.expression(fuel / 2, scope), self.expression(fuel / 2, scope)]),
            2 => {
                let kids = (0..self.random.below(3)).map(|_| self.expression(fuel / 2, scope)).collect();
                node(TUPLE, 0, kids)
            }
            3 | 4 => self.named(APPLY, fuel, scope),
            5 => {
                let subject = self.expression(fuel / 3, scope);
                let clauses = self.clauses(fuel, scope);
                node(CASE, 0, [vec![subject], clauses].concat())
            }
            6..=10 if scope.len() < 40 => {
                let bound = self.expression(fuel / 2, scope);
                let v = self.fresh(scope);
                node(LET, v, vec![bound, self.expression(fuel - 1, &[scope, &[v]].concat())])
            }
            11 | 12 => {
                let kids = self.clauses(fuel, scope);
                node(RECEIVE, 0, kids)
            }
            13 | 14 => self.named(SPAWN, fuel, scope),
            15 | 16 => {
                let target = match self.random.below(3) {
                    0 => leaf(OWN, 0),
                    1 => self.named(SPAWN, 1, scope),
                    _ => self.simple(scope),
                };
                node(SEND, 0, vec![target, self.expression(fuel / 2, scope)])
            }
            17 => leaf(OWN, 0),
            18..=21 if self.checks < 255 => {
                self.checks += 1;
                leaf(CHECK, self.checks)
            }
            _ => self.simple(scope),
        }
    }
}

/// A module that passes the check.
pub fn module(random: &mut Random) -> Vec<u32> {
    loop {
        let count = 1 + random.below(4);
        let arities: Vec<u32> = (0..count).map(|f| if f == 0 { 0 } else { random.below(3) as u32 }).collect();
        let fuel = 3 + random.below(6) as u32;
        let mut writer = Writer { random, arities: arities.clone(), checks: 0 };
        let mut words = Vec::new();
        for n in arities {
            let parameters: Vec<u32> = (0..n).collect();
            node(FUNCTION, n, vec![writer.expression(fuel, &parameters)]).write(&mut words);
        }
        if words.len() <= LONGEST_MODULE {
            return words;
        }
    }
}

/// Some words of a module changed.
pub fn damaged(random: &mut Random, words: &[u32]) -> Vec<u32> {
    let mut out = words.to_vec();
    for _ in 0..1 + random.below(2) {
        let at = random.below(out.len());
        match random.below(5) {
            0 => out[at] ^= 1 << random.below(32),
            1 => out[at] = word(random.below(20) as u32, random.below(10) as u32, random.below(70) as u32),
            2 => {
                out.truncate(at + 1);
            }
            3 => out[at] = out[random.below(out.len())],
            _ => out.push(word(random.below(19) as u32, 0, 0)),
        }
    }
    out
}

pub fn sizes(random: &mut Random) -> Sizes {
    Sizes { places: 1 + random.below(5), entries: random.pick(&[1, 3, 6, 12, 24]), words: random.pick(&[16, 24, 48, 96]) }
}

/// A command that has a fair chance at a state.
pub fn command(random: &mut Random, s: &State) -> Command {
    let live: Vec<u32> = (0..s.sizes.places as u32).filter(|p| s.pool[*p as usize].is_some()).collect();
    let p = if random.once_in(12) { random.below(s.sizes.places + 1) as u32 } else { random.pick(&live) };
    match random.below(16) {
        0..=5 => Command::Step(p),
        6 | 7 => Command::Spawn(p, random.below(s.sizes.places + 1) as u32),
        8..=10 => {
            let flight = s.flight();
            if flight.is_empty() || random.once_in(10) {
                return Command::Deliver(p, random.below(4) as u32);
            }
            let (name, _) = flight[random.below(flight.len())];
            Command::Deliver(name.sender as u32, name.count as u32)
        }
        11 | 12 => Command::Back(p),
        13 => Command::Undeliver(p),
        _ => rollback(random, s),
    }
}

/// A rollback, mostly to a checkpoint that was passed.
pub fn rollback(random: &mut Random, s: &State) -> Command {
    let mut checks = Vec::new();
    for (q, x) in s.pool.iter().enumerate() {
        for e in x.iter().flat_map(|x| &x.history) {
            if let Kind::Check { number } = e.kind {
                checks.push((q as u32, number));
            }
        }
    }
    if checks.is_empty() || random.once_in(8) {
        return Command::Rollback(random.below(s.sizes.places + 1) as u32, random.below(5) as u32);
    }
    let (q, t) = random.pick(&checks);
    Command::Rollback(q, t)
}

/// Something of a state changed that soundness does not always tie to the rest.
pub fn alter(random: &mut Random, s: &mut State) {
    let places: Vec<(usize, usize)> = s.pool.iter().enumerate().flat_map(|(p, x)| (0..x.as_ref().map_or(0, |x| x.history.len())).map(move |i| (p, i))).collect();
    if places.is_empty() {
        return;
    }
    let spawns: Vec<(usize, usize)> = places.iter().copied().filter(|(p, i)| matches!(s.pool[*p].as_ref().expect("a process").history[*i].kind, Kind::Spawn { .. })).collect();
    let among = if spawns.len() > 1 && random.once_in(2) { &spawns } else { &places };
    let (p, i) = random.pick(among);
    let (q, j) = random.pick(among);
    let there = s.pool[q].as_ref().expect("a process").history[j].clone();
    let here = &mut s.pool[p].as_mut().expect("a process").history[i];
    match (&here.kind, &there.kind) {
        (Kind::Spawn { child }, Kind::Spawn { child: other }) => {
            let (a, b) = (*child, *other);
            here.kind = Kind::Spawn { child: b };
            s.pool[q].as_mut().expect("a process").history[j].kind = Kind::Spawn { child: a };
        }
        (Kind::Seq | Kind::Own | Kind::Check { .. }, _) => here.kind = Kind::Check { number: random.below(4) as u32 },
        (Kind::Rec { .. }, _) => here.before = there.before,
        _ => {}
    }
}
