//! One process step on trees.
use crate::term::*;
use std::collections::BTreeMap;

type Bindings = BTreeMap<u32, Term>;

pub enum Work {
    Finished,
    Stuck,
    Seq(Term),
    Send { target: u32, value: Term, next: Term },
    Receive,
    Spawn { first: Term },
    Own,
    Check { number: u32, next: Term },
}

/// How many of a term's children are gone into: clauses and a let's body wait.
fn entered(t: &Term) -> usize {
    match t.tag {
        CASE | LET => 1,
        RECEIVE => 0,
        _ => t.kids.len(),
    }
}

/// The way to the working place.
fn place(t: &Term) -> Vec<usize> {
    let mut way = Vec::new();
    let mut here = t;
    while let Some(i) = here.kids[..entered(here)].iter().position(|kid| !kid.is_value()) {
        way.push(i);
        here = &here.kids[i];
    }
    way
}

fn at<'a>(t: &'a Term, way: &[usize]) -> &'a Term {
    way.iter().fold(t, |here, &i| &here.kids[i])
}

fn put(t: &Term, way: &[usize], new: Term) -> Term {
    match way.split_first() {
        None => new,
        Some((&i, rest)) => {
            let mut out = t.clone();
            out.kids[i] = put(&t.kids[i], rest, new);
            out
        }
    }
}

/// The control with a term in its working place.
pub fn with(control: &Term, new: Term) -> Term {
    put(control, &place(control), new)
}

fn truth(b: bool) -> Term {
    leaf(ATOM, if b { 0 } else { 1 })
}

/// None is stuck.
fn operate(operator: u32, a: &Term, b: &Term) -> Option<Term> {
    match operator {
        5 => return Some(truth(a == b)),
        6 => return Some(truth(a != b)),
        _ => {}
    }
    if a.tag != INTEGER || b.tag != INTEGER {
        return None;
    }
    let (x, y) = (a.k as i32 as i64, b.k as i32 as i64);
    let result = match operator {
        0 => x + y,
        1 => x - y,
        2 => x * y,
        3 if y != 0 => x / y,
        4 if y != 0 => x % y,
        7 => return Some(truth(x < y)),
        8 => return Some(truth(x <= y)),
        _ => return None,
    };
    i32::try_from(result).ok().map(|r| leaf(INTEGER, r as u32))
}

fn substitute(t: &Term, bindings: &Bindings) -> Term {
    match bindings.get(&t.k) {
        Some(v) if t.tag == VARIABLE => v.clone(),
        _ => node(t.tag, t.k, t.kids.iter().map(|kid| substitute(kid, bindings)).collect()),
    }
}

fn matches(p: &Term, v: &Term, bindings: &mut Bindings) -> bool {
    if p.tag == VARIABLE {
        bindings.insert(p.k, v.clone());
        return true;
    }
    p.tag == v.tag && p.k == v.k && p.kids.len() == v.kids.len() && p.kids.iter().zip(&v.kids).all(|(q, w)| matches(q, w, bindings))
}

fn guard(t: &Term) -> Option<Term> {
    if t.tag == CALL {
        operate(t.k, &guard(&t.kids[0])?, &guard(&t.kids[1])?)
    } else {
        Some(t.clone())
    }
}

/// The body of the first clause that fits.
fn first_clause(clauses: &[Term], v: &Term) -> Option<Term> {
    clauses.iter().find_map(|c| {
        let mut bindings = Bindings::new();
        let fits = matches(&c.kids[0], v, &mut bindings) && guard(&substitute(&c.kids[1], &bindings)) == Some(truth(true));
        fits.then(|| substitute(&c.kids[2], &bindings))
    })
}

fn seq(control: &Term, way: &[usize], next: Option<Term>) -> Work {
    next.map_or(Work::Stuck, |t| Work::Seq(put(control, way, t)))
}

pub fn work(functions: &[Term], control: &Term) -> Work {
    if control.is_value() {
        return Work::Finished;
    }
    let way = place(control);
    let t = at(control, &way);
    match t.tag {
        CALL => seq(control, &way, operate(t.k, &t.kids[0], &t.kids[1])),
        APPLY => {
            let bindings = (0..).zip(t.kids.iter().cloned()).collect();
            seq(control, &way, Some(substitute(&functions[t.k as usize].kids[0], &bindings)))
        }
        CASE => seq(control, &way, first_clause(&t.kids[1..], &t.kids[0])),
        LET => {
            let bindings = Bindings::from([(t.k, t.kids[0].clone())]);
            seq(control, &way, Some(substitute(&t.kids[1], &bindings)))
        }
        SEND if t.kids[0].tag != PID => Work::Stuck,
        SEND => Work::Send { target: t.kids[0].k, value: t.kids[1].clone(), next: put(control, &way, t.kids[1].clone()) },
        RECEIVE => Work::Receive,
        SPAWN => Work::Spawn { first: node(APPLY, t.k, t.kids.clone()) },
        OWN => Work::Own,
        CHECK => Work::Check { number: t.k, next: put(control, &way, leaf(ATOM, t.k)) },
        _ => Work::Stuck,
    }
}

/// What a receive makes of one message.
pub fn take(control: &Term, v: &Term) -> Option<Term> {
    let way = place(control);
    first_clause(&at(control, &way).kids, v).map(|body| put(control, &way, body))
}
