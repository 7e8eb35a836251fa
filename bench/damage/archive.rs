//! The archive's calls under their C names, over what they are lent: what has a fixed size as a pointer to it, a list as a pointer
//! and a length of 64 bits, an answer in a place of its own.
use crate::layout::{BYTES, CELLS, CHANGES, LINE_REALS, LINE_TERMS, LINE_WORDS, REALS, WORDS};

pub type Words = [u64; WORDS];
pub type Keys = [u16; CELLS];
pub type Bytes = [u8; BYTES];
pub type Reals = [f64; REALS];
pub type Values = [f64; CELLS];
/// The places of a changing call's answer, and of a fetch's.
pub const ANSWER: usize = 3;
pub const FETCHED: usize = 2;

#[derive(Clone, Copy, Debug, PartialEq)]
pub struct Answer {
    pub number: u32,
    pub pivots: u32,
    /// 0 or 1, and nothing else
    pub whole: u32,
}

#[derive(Clone, Copy, Debug, PartialEq)]
pub struct Fetched {
    pub number: u32,
    pub count: u32,
}

/// A term of an add's list of records.
#[repr(C)]
#[derive(Clone, Copy, Debug, PartialEq)]
pub struct Term {
    pub variable: u32,
    pub coefficient: f64,
}

macro_rules! changing {
    ($($name:ident($($arg:ident: $type:ty),*);)*) => {
        extern "C" {
            $(fn $name(words: &mut Words, keys: &mut Keys, bytes: &mut Bytes, reals: &mut Reals, values: &mut Values,
                wwords: &mut Words, wkeys: &mut Keys, wbytes: &mut Bytes, wreals: &mut Reals, wvalues: &mut Values,
                answer: &mut [u32; ANSWER], $($arg: $type),*);)*
        }
    };
}

changing! {
    knobharbor_add(group: u16, number: u32, terms: *const Term, term_count: u64, constant: f64, kind: u32, strength: f64, budget: u16);
    knobharbor_add_lists(group: u16, number: u32, vars: *const u32, var_count: u64, coefs: *const f64, coef_count: u64, constant: f64, kind: u32, strength: f64, budget: u16);
    knobharbor_remove(number: u32, budget: u16);
    knobharbor_drop(group: u16, budget: u16);
    knobharbor_add_edit(variable: u32, strength: f64, budget: u16);
    knobharbor_remove_edit(variable: u32, budget: u16);
    knobharbor_suggest(variable: u32, suggestion: f64, budget: u16);
}

extern "C" {
    fn knobharbor_reset(words: &mut Words, keys: &mut Keys, bytes: &mut Bytes, reals: &mut Reals, values: &mut Values, cutoff: f64, answer: &mut [u32; ANSWER]);
    fn knobharbor_fetch(words: &mut Words, keys: &Keys, bytes: &mut Bytes, reals: &mut Reals, values: &Values, answer: &mut [u32; FETCHED],
        numbers: &mut [u64; CHANGES], moved: &mut [f64; CHANGES], gone: &mut [u8; CHANGES]);
    #[allow(dead_code)]
    fn knobharbor_drag(words: &mut Words, keys: &mut Keys, bytes: &mut Bytes, reals: &mut Reals, values: &mut Values, wwords: &mut Words,
        wkeys: &mut Keys, wbytes: &mut Bytes, wreals: &mut Reals, wvalues: &mut Values, answer: &mut [u32; ANSWER], fetched: &mut [u32; FETCHED],
        numbers: &mut [u64; CHANGES], moved: &mut [f64; CHANGES], gone: &mut [u8; CHANGES], variable: u32, suggestion: f64, budget: u16);
    fn knobharbor_value(words: &Words, keys: &Keys, bytes: &Bytes, reals: &Reals, values: &Values, variable: u32) -> f64;
    fn knobharbor_has_constraint(words: &Words, keys: &Keys, bytes: &Bytes, reals: &Reals, values: &Values, number: u32) -> bool;
    fn knobharbor_has_edit(words: &Words, keys: &Keys, bytes: &Bytes, reals: &Reals, values: &Values, variable: u32) -> bool;
    fn knobharbor_show(words: &Words, keys: &Keys, bytes: &Bytes, reals: &Reals, values: &Values, number: u32, line_words: &mut [u64; LINE_WORDS],
        line_reals: &mut [f64; LINE_REALS], variables: &mut [u32; LINE_TERMS], coefficients: &mut [f64; LINE_TERMS]);
    #[allow(dead_code)]
    fn knobharbor_strength_create(a: f64, b: f64, c: f64, w: f64) -> f64;
    #[allow(dead_code)]
    fn knobharbor_strength_clip(s: f64) -> f64;
}

/// Five tables as they are lent.
pub struct Lent<'a> {
    pub words: &'a mut Words,
    pub keys: &'a mut Keys,
    pub bytes: &'a mut Bytes,
    pub reals: &'a mut Reals,
    pub values: &'a mut Values,
}

#[derive(Clone, Debug)]
pub enum Call {
    Reset { cutoff: f64 },
    Add { group: u16, number: u32, vars: Vec<u32>, coefs: Vec<f64>, constant: f64, kind: u32, strength: f64, budget: u16 },
    Remove { number: u32, budget: u16 },
    Drop { group: u16, budget: u16 },
    AddEdit { variable: u32, strength: f64, budget: u16 },
    RemoveEdit { variable: u32, budget: u16 },
    Suggest { variable: u32, suggestion: f64, budget: u16 },
}

impl Call {
    /// The terms of an add as records, where the two lists are of one length.
    pub fn records(&self) -> Option<Vec<Term>> {
        match self {
            Call::Add { vars, coefs, .. } if vars.len() == coefs.len() => Some(vars.iter().zip(coefs).map(|(&variable, &coefficient)| Term { variable, coefficient }).collect()),
            _ => None,
        }
    }

    /// `answer` is the answer's place, `vars` and `coefs` are the lists of an add, `records` the same as one list, which is taken for
    /// even numbers; all where they are lent from.
    pub fn make(&self, t: Lent, w: Lent, answer: &mut [u32; ANSWER], vars: &[u32], coefs: &[f64], records: Option<&[Term]>) -> Answer {
        macro_rules! lend {
            ($call:ident, $($arg:expr),*) => {
                $call(t.words, t.keys, t.bytes, t.reals, t.values, w.words, w.keys, w.bytes, w.reals, w.values, answer, $($arg),*)
            };
        }
        unsafe {
            match *self {
                Call::Reset { cutoff } => knobharbor_reset(t.words, t.keys, t.bytes, t.reals, t.values, cutoff, answer),
                Call::Add { group, number, constant, kind, strength, budget, .. } => match records {
                    Some(terms) if number % 2 == 0 => lend!(knobharbor_add, group, number, terms.as_ptr(), terms.len() as u64, constant, kind, strength, budget),
                    _ => lend!(knobharbor_add_lists, group, number, vars.as_ptr(), vars.len() as u64, coefs.as_ptr(), coefs.len() as u64, constant, kind, strength, budget),
                },
                Call::Remove { number, budget } => lend!(knobharbor_remove, number, budget),
                Call::Drop { group, budget } => lend!(knobharbor_drop, group, budget),
                Call::AddEdit { variable, strength, budget } => lend!(knobharbor_add_edit, variable, strength, budget),
                Call::RemoveEdit { variable, budget } => lend!(knobharbor_remove_edit, variable, budget),
                Call::Suggest { variable, suggestion, budget } => lend!(knobharbor_suggest, variable, suggestion, budget),
            }
        }
        let [number, pivots, whole] = *answer;
        Answer { number, pivots, whole }
    }
}

/// The three lists of a fetch: the variables, their values, and 1 where one is gone.
pub struct Changes<'a> {
    pub numbers: &'a mut [u64; CHANGES],
    pub moved: &'a mut [f64; CHANGES],
    pub gone: &'a mut [u8; CHANGES],
}

pub fn fetch(t: Lent, answer: &mut [u32; FETCHED], lists: Changes) -> Fetched {
    unsafe { knobharbor_fetch(t.words, t.keys, t.bytes, t.reals, t.values, answer, lists.numbers, lists.moved, lists.gone) }
    let [number, count] = *answer;
    Fetched { number, count }
}

/// A suggestion and then a fetch.
#[allow(dead_code)] // lines.rs has the two one after the other
pub fn drag(t: Lent, w: Lent, lists: Changes, (variable, suggestion, budget): (u32, f64, u16)) -> (Answer, Fetched) {
    let (mut answer, mut fetched) = ([7; ANSWER], [7; FETCHED]);
    unsafe {
        knobharbor_drag(
            t.words, t.keys, t.bytes, t.reals, t.values, w.words, w.keys, w.bytes, w.reals, w.values, &mut answer, &mut fetched, lists.numbers,
            lists.moved, lists.gone, variable, suggestion, budget,
        )
    }
    let ([number, pivots, whole], [fetch, count]) = (answer, fetched);
    (Answer { number, pivots, whole }, Fetched { number: fetch, count })
}

/// The places in which a constraint is shown.
#[derive(Clone, Debug)]
pub struct Shown {
    pub words: [u64; LINE_WORDS],
    pub reals: [f64; LINE_REALS],
    pub variables: [u32; LINE_TERMS],
    pub coefficients: [f64; LINE_TERMS],
}

impl Shown {
    /// All but the number is 0.
    pub fn refused(number: u64) -> Shown {
        Shown { words: [0, number, 0, 0, 0, 0], reals: [0.0; LINE_REALS], variables: [0; LINE_TERMS], coefficients: [0.0; LINE_TERMS] }
    }

    #[allow(dead_code)] // lines.rs compares none
    pub fn same(&self, other: &Shown) -> bool {
        let bits = |s: &Shown| -> Vec<u64> { s.reals.iter().chain(&s.coefficients).map(|x| x.to_bits()).collect() };
        self.words == other.words && self.variables == other.variables && bits(self) == bits(other)
    }
}

/// These places where they are lent from.
pub struct Places<'a> {
    pub words: &'a mut [u64; LINE_WORDS],
    pub reals: &'a mut [f64; LINE_REALS],
    pub variables: &'a mut [u32; LINE_TERMS],
    pub coefficients: &'a mut [f64; LINE_TERMS],
}

pub fn show(t: Lent, n: u32, p: Places) {
    unsafe { knobharbor_show(t.words, t.keys, t.bytes, t.reals, t.values, n, p.words, p.reals, p.variables, p.coefficients) }
}

/// What the three queries say of one number.
pub fn ask(t: Lent, n: u32) -> (f64, bool, bool) {
    unsafe {
        (
            knobharbor_value(t.words, t.keys, t.bytes, t.reals, t.values, n),
            knobharbor_has_constraint(t.words, t.keys, t.bytes, t.reals, t.values, n),
            knobharbor_has_edit(t.words, t.keys, t.bytes, t.reals, t.values, n),
        )
    }
}

#[allow(dead_code)] // lines.rs has the two
pub fn create(a: f64, b: f64, c: f64, w: f64) -> f64 {
    unsafe { knobharbor_strength_create(a, b, c, w) }
}

#[allow(dead_code)]
pub fn clip(s: f64) -> f64 {
    unsafe { knobharbor_strength_clip(s) }
}
