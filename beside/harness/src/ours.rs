//! Our laws: the C calls of the static library, found by name. A call that the library lacks is told as missing.
use crate::calls::{self, CALLS, GAMMA, LISTS, NUMBER};
use crate::inside::Answer;
use crate::library::Library;
use std::collections::BTreeMap;
use std::sync::OnceLock;

static OURS: OnceLock<BTreeMap<&'static str, usize>> = OnceLock::new();

/// The name in the library: one update serves the four laws.
fn symbol(n: usize) -> &'static str {
    if calls::is_update(n) {
        "update"
    } else {
        CALLS[n].name
    }
}

/// Opens the library and says which of the calls it lacks.
pub fn open(path: &str) -> Vec<&'static str> {
    let Some(lib) = Library::open(path) else {
        eprintln!("beside: {path} cannot be opened");
        std::process::exit(2)
    };
    let mut names: Vec<&str> = (0..CALLS.len()).filter(|n| !calls::is_retired(*n)).map(symbol).chain(LISTS).collect();
    names.dedup();
    let there = |name: &&'static str| lib.find(&format!("pasoletu_{name}")).map(|p| (*name, p));
    let found: BTreeMap<_, _> = names.iter().filter_map(there).collect();
    names.retain(|name| !found.contains_key(name));
    let _ = OURS.set(found);
    names
}

pub fn has_name(name: &str) -> bool {
    OURS.get().unwrap().contains_key(name)
}

pub fn has(n: usize) -> bool {
    has_name(symbol(n))
}

/// The arguments of a C call on x86-64, where at most eight numbers go in registers of their own and all else goes by order: so one
/// type of function fits every call, and what a call does not take is not looked at.
#[derive(Default)]
struct Arguments {
    numbers: [f64; 8],
    words: [u64; 16],
    used: (usize, usize),
}

#[rustfmt::skip]
type Any = extern "C" fn(
    f64, f64, f64, f64, f64, f64, f64, f64,
    u64, u64, u64, u64, u64, u64, u64, u64, u64, u64, u64, u64, u64, u64, u64, u64,
) -> u8;

impl Arguments {
    fn number(mut self, x: f64) -> Self {
        self.numbers[self.used.0] = x;
        self.used.0 += 1;
        self
    }

    fn word(mut self, x: u64) -> Self {
        self.words[self.used.1] = x;
        self.used.1 += 1;
        self
    }

    fn list<T>(self, l: &[T]) -> Self {
        self.word(l.as_ptr() as u64).word(l.len() as u64)
    }

    fn lent(self, l: &mut [u64]) -> Self {
        self.word(l.as_mut_ptr() as u64).word(l.len() as u64)
    }

    fn run(self, name: &str) -> u8 {
        let g: Any = unsafe { std::mem::transmute(OURS.get().unwrap()[name]) };
        let (n, w) = (self.numbers, self.words);
        #[rustfmt::skip]
        let status = g(
            n[0], n[1], n[2], n[3], n[4], n[5], n[6], n[7],
            w[0], w[1], w[2], w[3], w[4], w[5], w[6], w[7], w[8], w[9], w[10], w[11], w[12], w[13], w[14], w[15],
        );
        status
    }
}

/// An elementary function; 255 where the library has none.
pub fn elementary(which: usize, x: f64, out: &mut [u64; 1]) -> u8 {
    if !has(which) {
        return 255;
    }
    Arguments::default().number(x).lent(out).run(symbol(which))
}

/// What an output place holds before a call: no law gives it, so a word that is written shows.
const MARK: u64 = 0x7ff4_dead_beef_0001;

/// One list of a call, by its place among the lists, with another length than it should have.
pub type Bent = Option<(usize, usize)>;

/// Calls ours on inputs i: the refusal's number, the inputs after it (an update's record is lent) and the outputs.
fn raw(n: usize, i: &[u64], bent: Bent) -> (u8, Vec<u64>, Vec<u64>) {
    let mut w = [i, &[0]].concat();
    let mut rooms: Vec<Vec<u64>> = written(n).iter().map(|l| vec![MARK; l + 1]).collect();
    let mut lists = 0;
    let mut length = |l: usize| {
        lists += 1;
        bent.filter(|b| b.0 == lists - 1).map_or(l, |b| b.1)
    };
    let mut a = Arguments::default();
    if calls::is_update(n) {
        a = a.word((n - calls::UPDATE) as u64);
    }
    let mut at = 0;
    for argument in CALLS[n].arguments {
        a = match *argument {
            NUMBER => a.number(f64::from_bits(i[at])),
            GAMMA => a.word(i[at]),
            l => a.lent(&mut w[at..at + length(l)]),
        };
        at += calls::words(*argument);
    }
    for (room, l) in rooms.iter_mut().zip(written(n)) {
        a = a.lent(&mut room[..length(*l)]);
    }
    let status = a.run(symbol(n));
    w.pop();
    for room in &mut rooms {
        room.pop();
    }
    (status, w, rooms.concat())
}

/// The lengths of the lists that are lent for a call's outputs. An update's record is lent as an input.
fn written(n: usize) -> &'static [usize] {
    if calls::is_update(n) {
        &CALLS[n].lists[1..]
    } else {
        CALLS[n].lists
    }
}

/// Calls ours. A refusal must leave every lent word as it was; one that does not is told as 254.
pub fn call(n: usize, i: &[u64]) -> Answer {
    bent_call(n, i, None)
}

pub fn bent_call(n: usize, i: &[u64], bent: Bent) -> Answer {
    let (status, w, out) = raw(n, i, bent);
    if status != 0 {
        let kept = w == i && out.iter().all(|x| *x == MARK);
        return Answer { status: if kept { status } else { 254 }, out: vec![0; CALLS[n].outputs] };
    }
    if calls::is_update(n) {
        return Answer { status, out: [&w[CALLS[n].arguments[0]..], &out].concat() };
    }
    Answer { status, out }
}

/// The lengths of a call's lists, those lent for its outputs last.
pub fn lists(n: usize) -> Vec<usize> {
    let given = CALLS[n].arguments.iter().filter(|a| **a != NUMBER && **a != GAMMA);
    given.chain(written(n)).copied().collect()
}

pub fn pass(model: u64, p: &[u64], records: &mut [u64], answers: &mut [u64], counts: &mut [u64]) -> u8 {
    Arguments::default().word(model).list(p).lent(records).lent(answers).lent(counts).run("pass")
}

/// `given` are the parameters, the limits and the corotated law.
pub fn pass_with_failure(model: u64, given: [&[u64]; 3], records: &mut [u64], answers: &mut [u64], counts: &mut [u64]) -> u8 {
    let a = given.iter().fold(Arguments::default().word(model), |a, l| a.list(l));
    a.lent(records).lent(answers).lent(counts).run("pass_with_failure")
}

pub fn fill_determinants(records: &mut [u64]) -> u8 {
    Arguments::default().lent(records).run("fill_determinants")
}

pub fn read_sheet(bytes: &[u8], header: &mut [u64], records: &mut [u64]) -> u8 {
    Arguments::default().list(bytes).lent(header).lent(records).run("read_sheet")
}

pub fn run_sheet(bytes: &[u8], records: &mut [u64], answers: &mut [u64], counts: &mut [u64]) -> u8 {
    Arguments::default().list(bytes).lent(records).lent(answers).lent(counts).run("run_sheet")
}
