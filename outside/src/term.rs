//! Terms as trees: reading them from words with 01's positions, writing them, and the rules of binding.

pub const VARIABLE: u32 = 1;
pub const ATOM: u32 = 2;
pub const INTEGER: u32 = 3;
pub const PID: u32 = 4;
pub const NIL: u32 = 5;
pub const CONS: u32 = 6;
pub const TUPLE: u32 = 7;
pub const CALL: u32 = 8;
pub const APPLY: u32 = 9;
pub const CASE: u32 = 10;
pub const LET: u32 = 11;
pub const RECEIVE: u32 = 12;
pub const SPAWN: u32 = 13;
pub const SEND: u32 = 14;
pub const OWN: u32 = 15;
pub const CHECK: u32 = 16;
pub const CLAUSE: u32 = 17;
pub const FUNCTION: u32 = 18;

pub const LONGEST_MODULE: usize = 512;

/// `k` is the word's k, an integer's payload, or a function's count of parameters; `at` is where the word stands.
#[derive(Clone, Debug)]
pub struct Term {
    pub tag: u32,
    pub k: u32,
    pub kids: Vec<Term>,
    pub at: usize,
}

impl PartialEq for Term {
    fn eq(&self, other: &Term) -> bool {
        self.tag == other.tag && self.k == other.k && self.kids == other.kids
    }
}

pub fn leaf(tag: u32, k: u32) -> Term {
    Term { tag, k, kids: Vec::new(), at: 0 }
}

pub fn node(tag: u32, k: u32, kids: Vec<Term>) -> Term {
    Term { tag, k, kids, at: 0 }
}

pub fn word(tag: u32, n: u32, k: u32) -> u32 {
    tag << 24 | n << 16 | k
}

impl Term {
    pub fn write(&self, out: &mut Vec<u32>) {
        match self.tag {
            INTEGER => out.extend([word(INTEGER, 0, 0), self.k]),
            FUNCTION => out.push(word(FUNCTION, self.k, 0)),
            CASE => out.push(word(CASE, self.kids.len() as u32 - 1, 0)),
            _ => out.push(word(self.tag, self.kids.len() as u32, self.k)),
        }
        for kid in &self.kids {
            kid.write(out);
        }
    }

    pub fn words(&self) -> Vec<u32> {
        let mut out = Vec::new();
        self.write(&mut out);
        out
    }

    /// "Values use tags 2 to 7", throughout.
    pub fn is_value(&self) -> bool {
        (ATOM..=TUPLE).contains(&self.tag) && self.kids.iter().all(Term::is_value)
    }
}

/// What may stand at a spot. A value spot is only inside the guards of controls.
#[derive(Clone, Copy, PartialEq)]
enum Spot {
    Expression,
    Pattern,
    Guard,
    Value,
    Clause,
    Function,
}

/// Where terms are read: in a module there are no pids, in a control those below P.
#[derive(Clone, Copy)]
struct Reader<'a> {
    words: &'a [u32],
    places: Option<u32>,
}

impl Reader<'_> {
    fn fits(&self, spot: Spot, tag: u32, n: u32, k: u32) -> bool {
        let control = self.places.is_some();
        let stands = match spot {
            Spot::Expression => (VARIABLE..=CHECK).contains(&tag) && (tag != PID || control),
            Spot::Pattern => matches!(tag, VARIABLE | ATOM | INTEGER | NIL | CONS | TUPLE),
            Spot::Guard => matches!(tag, VARIABLE | ATOM | INTEGER | NIL | CALL) || control && matches!(tag, PID | CONS | TUPLE),
            Spot::Value => matches!(tag, ATOM | INTEGER | PID | NIL | CONS | TUPLE),
            Spot::Clause => tag == CLAUSE,
            Spot::Function => tag == FUNCTION,
        };
        let (least, most, k_most) = match tag {
            VARIABLE => (0, 0, 63),
            ATOM | CHECK => (0, 0, 255),
            PID => match self.places {
                Some(places) => (0, 0, places - 1),
                None => return false,
            },
            INTEGER | NIL | OWN => (0, 0, 0),
            CONS | SEND => (2, 2, 0),
            CALL => (2, 2, 8),
            LET => (2, 2, 63),
            TUPLE | FUNCTION => (0, 8, 0),
            APPLY | SPAWN => (0, 8, 0xFFFF),
            CASE | RECEIVE => (1, 8, 0),
            CLAUSE => (3, 3, 0),
            _ => return false,
        };
        stands && least <= n && n <= most && k <= k_most
    }

    /// The term at `at`, or the position at which reading fails.
    fn read(&self, at: &mut usize, spot: Spot) -> Result<Term, usize> {
        let here = *at;
        let Some(&w) = self.words.get(here) else {
            return Err(self.words.len());
        };
        let (tag, n, k) = (w >> 24, w >> 16 & 0xFF, w & 0xFFFF);
        if !self.fits(spot, tag, n, k) {
            return Err(here);
        }
        *at += 1;
        if tag == INTEGER {
            let Some(&payload) = self.words.get(*at) else {
                return Err(self.words.len());
            };
            *at += 1;
            return Ok(Term { tag, k: payload, kids: Vec::new(), at: here });
        }
        let inner = if spot == Spot::Guard && tag != CALL { Spot::Value } else { spot };
        let spots = match tag {
            CASE => [vec![Spot::Expression], vec![Spot::Clause; n as usize]].concat(),
            RECEIVE => vec![Spot::Clause; n as usize],
            CLAUSE => vec![Spot::Pattern, Spot::Guard, Spot::Expression],
            FUNCTION => vec![Spot::Expression],
            _ => vec![inner; n as usize],
        };
        let mut kids = Vec::with_capacity(spots.len());
        for s in spots {
            kids.push(self.read(at, s)?);
        }
        Ok(Term { tag, k: if tag == FUNCTION { n } else { k }, kids, at: here })
    }
}

/// Tests the rules in reading order, so that the first breaker met has the least position.
struct Rules<'a> {
    arities: &'a [u32],
    /// the check numbers met; none are counted in a control
    checks: Option<Vec<u32>>,
}

impl Rules<'_> {
    fn test(&mut self, t: &Term, scope: &[u32]) -> Result<(), usize> {
        match t.tag {
            VARIABLE if !scope.contains(&t.k) => return Err(t.at),
            APPLY | SPAWN if self.arities.get(t.k as usize) != Some(&(t.kids.len() as u32)) => return Err(t.at),
            CHECK => {
                if let Some(met) = &mut self.checks {
                    if met.contains(&t.k) {
                        return Err(t.at);
                    }
                    met.push(t.k);
                }
            }
            LET => {
                if scope.contains(&t.k) {
                    return Err(t.at);
                }
                self.test(&t.kids[0], scope)?;
                return self.test(&t.kids[1], &[scope, &[t.k]].concat());
            }
            CLAUSE => {
                let mut inner = scope.to_vec();
                bind_pattern(&t.kids[0], &mut inner)?;
                self.test(&t.kids[1], &inner)?;
                return self.test(&t.kids[2], &inner);
            }
            _ => {}
        }
        t.kids.iter().try_for_each(|kid| self.test(kid, scope))
    }
}

fn bind_pattern(p: &Term, scope: &mut Vec<u32>) -> Result<(), usize> {
    if p.tag == VARIABLE {
        if scope.contains(&p.k) {
            return Err(p.at);
        }
        scope.push(p.k);
    }
    p.kids.iter().try_for_each(|kid| bind_pattern(kid, scope))
}

/// The functions of a module, or 01's position.
pub fn check_module(words: &[u32]) -> Result<Vec<Term>, usize> {
    if words.len() > LONGEST_MODULE {
        return Err(LONGEST_MODULE);
    }
    let reader = Reader { words, places: None };
    let mut functions = Vec::new();
    let mut at = 0;
    while functions.is_empty() || at < words.len() {
        functions.push(reader.read(&mut at, Spot::Function)?);
    }
    if functions[0].k != 0 {
        return Err(0);
    }
    let arities: Vec<u32> = functions.iter().map(|f| f.k).collect();
    let mut rules = Rules { arities: &arities, checks: Some(Vec::new()) };
    for f in &functions {
        let parameters: Vec<u32> = (0..f.k).collect();
        rules.test(&f.kids[0], &parameters)?;
    }
    Ok(functions)
}

/// The term of a control: closed, well shaped, keeping the rules; none where it is no control.
pub fn check_control(words: &[u32], places: u32, functions: &[Term]) -> Option<Term> {
    let reader = Reader { words, places: Some(places) };
    let mut at = 0;
    let t = reader.read(&mut at, Spot::Expression).ok()?;
    if at != words.len() {
        return None;
    }
    let arities: Vec<u32> = functions.iter().map(|f| f.k).collect();
    Rules { arities: &arities, checks: None }.test(&t, &[]).ok()?;
    Some(t)
}

/// A message's row as a term.
pub fn value_of(words: &[u32], places: u32) -> Term {
    Reader { words, places: Some(places) }.read(&mut 0, Spot::Expression).expect("a value's row")
}
