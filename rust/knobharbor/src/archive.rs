//! The proved archive. Its public calls take any tables and any numbers, so a safe face needs only to hand over whole arrays and slices;
//! those of `held` take for granted what they say. The sizes are those of include/knobharbor.h; tests/header.rs holds them to it.
use crate::{RelationalOperator, Term};

#[cfg(feature = "alloc")]
pub use held::Held;
pub use lines::{cable_close, cable_take, read_line, show, strength_clip, strength_create, write_line, Handed};

// The lengths of the tables.
const WORDS: usize = 338;
const CELLS: usize = 6579;
const BYTES: usize = 1360;
const REALS: usize = 1180;

/// The places of a fetch's three lists.
pub const PLACES: usize = 64;

/// The bytes of the service cable's reader, the places of what a line's reader hands over, and the writer's buffer.
pub const CABLE: usize = 201;
pub const TERMS: usize = 16;
pub const LINE: usize = 200;
const LINE_WORDS: usize = 6;
const LINE_REALS: usize = 2;

/// What a changing call answers: 0 or a refusal's number, the pivots made, the whole mark.
#[derive(Copy, Clone, Debug)]
pub struct Answer {
    pub number: u32,
    pub pivots: u32,
    pub whole: bool,
}

/// What the add of a line answers: the same, and where the line leaves the grammar.
#[derive(Copy, Clone, Debug)]
pub struct TextAnswer {
    pub number: u32,
    pub pivots: u32,
    pub whole: bool,
    pub offset: usize,
}

/// The tables that hold a solver's state, or its working room, to be lent to a `LentSolver`. They are some 79 KB.
#[repr(C)]
#[derive(Clone)]
pub struct Tables {
    words: [u64; WORDS],
    reals: [f64; REALS],
    values: [f64; CELLS],
    keys: [u16; CELLS],
    bytes: [u8; BYTES],
}

impl Tables {
    /// All zero, as a `static` can be.
    #[allow(clippy::new_without_default)]
    pub const fn new() -> Tables {
        Tables { words: [0; WORDS], reals: [0.0; REALS], values: [0.0; CELLS], keys: [0; CELLS], bytes: [0; BYTES] }
    }

    /// Whether both hold the same bits, place by place: a NaN is itself, and 0.0 is not -0.0.
    pub fn same_bits(&self, other: &Tables) -> bool {
        let same = |a: &[f64], b: &[f64]| a.iter().map(|x| x.to_bits()).eq(b.iter().map(|x| x.to_bits()));
        let whole = self.words == other.words && self.keys == other.keys && self.bytes == other.bytes;
        whole && same(&self.reals, &other.reals) && same(&self.values, &other.values)
    }

    /// Table by table, where they stand.
    #[cfg(feature = "alloc")]
    pub(crate) fn copy_from(&mut self, other: &Tables) {
        self.words.copy_from_slice(&other.words);
        self.reals.copy_from_slice(&other.reals);
        self.values.copy_from_slice(&other.values);
        self.keys.copy_from_slice(&other.keys);
        self.bytes.copy_from_slice(&other.bytes);
    }
}

/// The places of an answer: the number, the pivots, the mark as 0 or 1.
type Places = [u32; 3];

// One changing call; its tables are lent to it as `&mut`, or as `&` where it only reads them.
macro_rules! declare_change {
    ([$($m:tt)?] $name:ident($($arg:ident: $ty:ty),*)) => {
        extern "C" {
            fn $name(
                words: &$($m)? [u64; WORDS], keys: &$($m)? [u16; CELLS], bytes: &$($m)? [u8; BYTES], reals: &$($m)? [f64; REALS],
                values: &$($m)? [f64; CELLS], wwords: &mut [u64; WORDS], wkeys: &mut [u16; CELLS], wbytes: &mut [u8; BYTES],
                wreals: &mut [f64; REALS], wvalues: &mut [f64; CELLS],
                answer: &mut Places $(, $arg: $ty)*
            );
        }
    };
}

macro_rules! declare_changing {
    ($lent:tt $($name:ident($($arg:ident: $ty:ty),*);)*) => { $(declare_change!($lent $name($($arg: $ty),*));)* };
}

macro_rules! declare_asking {
    ($($name:ident($arg:ident: $ty:ty) -> $out:ty;)*) => {
        extern "C" {
            $(fn $name(
                words: &[u64; WORDS], keys: &[u16; CELLS], bytes: &[u8; BYTES], reals: &[f64; REALS], values: &[f64; CELLS],
                $arg: $ty
            ) -> $out;)*
        }
    };
}

macro_rules! declare_fetching {
    ($name:ident) => {
        extern "C" {
            fn $name(
                words: &mut [u64; WORDS],
                keys: &[u16; CELLS],
                bytes: &mut [u8; BYTES],
                reals: &mut [f64; REALS],
                values: &[f64; CELLS],
                answer: &mut [u32; 2],
                numbers: &mut [u64; PLACES],
                moved: &mut [f64; PLACES],
                gone: &mut [u8; PLACES],
            );
        }
    };
}

// What has a fixed size crosses as a reference; a list as a pointer and a length of 64 bits.
declare_changing! {
    [mut]
    knobharbor_add(
        group: u16, number: u32, terms: *const Term, count: u64, constant: f64, kind: u32, strength: f64, budget: u16
    );
    knobharbor_add_text(offset: &mut u64, number: u32, line: *const u8, length: u64, budget: u16);
    knobharbor_remove(number: u32, budget: u16);
    knobharbor_drop(group: u16, budget: u16);
    knobharbor_add_edit(variable: u32, strength: f64, budget: u16);
    knobharbor_remove_edit(variable: u32, budget: u16);
    knobharbor_suggest(variable: u32, value: f64, budget: u16);
    knobharbor_drag(
        fetched: &mut [u32; 2], numbers: &mut [u64; PLACES], moved: &mut [f64; PLACES], gone: &mut [u8; PLACES], variable: u32,
        suggestion: f64, budget: u16
    );
}

declare_asking! {
    knobharbor_value(variable: u32) -> f64;
    knobharbor_has_constraint(number: u32) -> bool;
    knobharbor_has_edit(variable: u32) -> bool;
}

declare_fetching!(knobharbor_fetch);

extern "C" {
    fn knobharbor_reset(
        words: &mut [u64; WORDS],
        keys: &mut [u16; CELLS],
        bytes: &mut [u8; BYTES],
        reals: &mut [f64; REALS],
        values: &mut [f64; CELLS],
        cutoff: f64,
        answer: &mut Places,
    );
}

impl Answer {
    fn of(places: Places) -> Answer {
        Answer { number: places[0], pivots: places[1], whole: places[2] != 0 }
    }
}

macro_rules! change {
    ($f:ident, $t:expr, $w:expr $(, $arg:expr)*) => {{
        let mut answer: Places = [0; 3];
        // The references are to whole arrays, a list's pointer is to as many elements as its length says, and `Held` keeps what the calls
        // behind the test take for granted.
        unsafe {
            $f(
                &mut $t.words, &mut $t.keys, &mut $t.bytes, &mut $t.reals, &mut $t.values, &mut $w.words, &mut $w.keys, &mut $w.bytes,
                &mut $w.reals, &mut $w.values, &mut answer $(, $arg)*
            )
        };
        Answer::of(answer)
    }};
}

macro_rules! ask {
    ($f:ident, $t:expr, $arg:expr) => {
        // The references are to whole arrays, and `Held` keeps what the calls behind the test take for granted.
        unsafe { $f(&$t.words, &$t.keys, &$t.bytes, &$t.reals, &$t.values, $arg) }
    };
}

macro_rules! fetch_into {
    ($f:ident, $t:expr, $fetched:expr) => {{
        let mut answer = [0; 2];
        let (t, f): (&mut Tables, &mut Fetched) = ($t, $fetched);
        let Tables { words, keys, bytes, reals, values } = t;
        // The references are to whole arrays, and `Held` keeps what the calls behind the test take for granted.
        unsafe { $f(words, keys, bytes, reals, values, &mut answer, &mut f.numbers, &mut f.moved, &mut f.gone) };
        f.count = answer[1] as usize;
    }};
}

// behind the macros, which they use too
#[cfg(feature = "alloc")]
mod held;
mod lines;

pub fn reset(t: &mut Tables, cutoff: f64) -> Answer {
    let mut answer: Places = [0; 3];
    // The references are to whole arrays.
    unsafe { knobharbor_reset(&mut t.words, &mut t.keys, &mut t.bytes, &mut t.reals, &mut t.values, cutoff, &mut answer) };
    Answer::of(answer)
}

/// A constraint of this number, in this group: the terms plus the constant are `op` zero.
pub struct Added<'a> {
    pub group: u16,
    pub number: u32,
    pub terms: &'a [Term],
    pub constant: f64,
    pub op: RelationalOperator,
    pub strength: f64,
}

pub fn add(t: &mut Tables, w: &mut Tables, a: Added, budget: u16) -> Answer {
    change!(knobharbor_add, t, w, a.group, a.number, a.terms.as_ptr(), a.terms.len() as u64, a.constant, a.op.kind(), a.strength, budget)
}

pub fn add_text(t: &mut Tables, w: &mut Tables, number: u32, line: &[u8], budget: u16) -> TextAnswer {
    let mut offset = 0;
    let a = change!(knobharbor_add_text, t, w, &mut offset, number, line.as_ptr(), line.len() as u64, budget);
    TextAnswer { number: a.number, pivots: a.pivots, whole: a.whole, offset: offset as usize }
}

pub fn remove(t: &mut Tables, w: &mut Tables, number: u32, budget: u16) -> Answer {
    change!(knobharbor_remove, t, w, number, budget)
}

pub fn drop_group(t: &mut Tables, w: &mut Tables, group: u16, budget: u16) -> Answer {
    change!(knobharbor_drop, t, w, group, budget)
}

pub fn add_edit(t: &mut Tables, w: &mut Tables, variable: u32, strength: f64, budget: u16) -> Answer {
    change!(knobharbor_add_edit, t, w, variable, strength, budget)
}

pub fn remove_edit(t: &mut Tables, w: &mut Tables, variable: u32, budget: u16) -> Answer {
    change!(knobharbor_remove_edit, t, w, variable, budget)
}

pub fn suggest(t: &mut Tables, w: &mut Tables, variable: u32, value: f64, budget: u16) -> Answer {
    change!(knobharbor_suggest, t, w, variable, value, budget)
}

/// What a fetch lists, and how many places of the three lists are filled; none where the tables do not read as a state.
#[repr(C)]
pub struct Fetched {
    pub numbers: [u64; PLACES],
    pub moved: [f64; PLACES],
    pub gone: [u8; PLACES],
    pub count: usize,
}

impl Fetched {
    const NONE: Fetched = Fetched { numbers: [0; PLACES], moved: [0.0; PLACES], gone: [0; PLACES], count: 0 };
}

pub fn fetch(t: &mut Tables) -> Fetched {
    let mut f = Fetched::NONE;
    fetch_into!(knobharbor_fetch, t, &mut f);
    f
}

/// A suggestion and then a fetch, with one test.
pub fn drag(t: &mut Tables, w: &mut Tables, variable: u32, value: f64, budget: u16) -> (Answer, Fetched) {
    let (mut f, mut fetched) = (Fetched::NONE, [0; 2]);
    let answer = change!(knobharbor_drag, t, w, &mut fetched, &mut f.numbers, &mut f.moved, &mut f.gone, variable, value, budget);
    f.count = fetched[1] as usize;
    (answer, f)
}

pub fn value(t: &Tables, variable: u32) -> f64 {
    ask!(knobharbor_value, t, variable)
}

pub fn has_constraint(t: &Tables, number: u32) -> bool {
    ask!(knobharbor_has_constraint, t, number)
}

pub fn has_edit(t: &Tables, variable: u32) -> bool {
    ask!(knobharbor_has_edit, t, variable)
}

#[cfg(test)]
mod tests;
