//! The second door: the archive's calls behind the test, under their C names. The tables read as a state; a changing call only reads them, and
//! where it is accepted its state is in the room; but a suggestion is written where the state stands.
use crate::archive::{Answer, Bytes, Call, Changes, Fetched, Keys, Lent, Reals, Term, Values, Words, ANSWER, FETCHED};
use crate::layout::CHANGES;

macro_rules! changing {
    ($($name:ident($($arg:ident: $type:ty),*);)*) => {
        extern "C" {
            $(fn $name(words: &Words, keys: &Keys, bytes: &Bytes, reals: &Reals, values: &Values,
                wwords: &mut Words, wkeys: &mut Keys, wbytes: &mut Bytes, wreals: &mut Reals, wvalues: &mut Values,
                answer: &mut [u32; ANSWER], $($arg: $type),*);)*
        }
    };
}

changing! {
    knobharbor_held_add(group: u16, number: u32, terms: *const Term, term_count: u64, constant: f64, kind: u32, strength: f64, budget: u16);
    knobharbor_held_remove(number: u32, budget: u16);
    knobharbor_held_drop(group: u16, budget: u16);
    knobharbor_held_add_edit(variable: u32, strength: f64, budget: u16);
    knobharbor_held_remove_edit(variable: u32, budget: u16);
}

extern "C" {
    fn knobharbor_held_suggest(words: &mut Words, keys: &mut Keys, bytes: &mut Bytes, reals: &mut Reals, values: &mut Values,
        wwords: &mut Words, wkeys: &mut Keys, wbytes: &mut Bytes, wreals: &mut Reals, wvalues: &mut Values,
        answer: &mut [u32; ANSWER], variable: u32, suggestion: f64, budget: u16);
    fn knobharbor_held_fetch(words: &mut Words, keys: &Keys, bytes: &mut Bytes, reals: &mut Reals, values: &Values, answer: &mut [u32; FETCHED],
        numbers: &mut [u64; CHANGES], moved: &mut [f64; CHANGES], gone: &mut [u8; CHANGES]);
    fn knobharbor_held_value(words: &Words, keys: &Keys, bytes: &Bytes, reals: &Reals, values: &Values, variable: u32) -> f64;
    fn knobharbor_held_has_constraint(words: &Words, keys: &Keys, bytes: &Bytes, reals: &Reals, values: &Values, number: u32) -> bool;
    fn knobharbor_held_has_edit(words: &Words, keys: &Keys, bytes: &Bytes, reals: &Reals, values: &Values, variable: u32) -> bool;
}

/// Whether the call writes where the state stands.
pub fn in_place(call: &Call) -> bool {
    matches!(call, Call::Suggest { .. })
}

/// None of a reset, which is the public one, and of an add whose lists or kind the public one answers 18.
pub fn make(call: &Call, t: Lent, w: Lent, terms: Option<&[Term]>) -> Option<Answer> {
    let mut answer = [7; ANSWER];
    macro_rules! lend {
        ($call:ident, $($arg:expr),*) => {
            $call(t.words, t.keys, t.bytes, t.reals, t.values, w.words, w.keys, w.bytes, w.reals, w.values, &mut answer, $($arg),*)
        };
    }
    unsafe {
        match *call {
            Call::Reset { .. } => return None,
            Call::Add { group, number, constant, kind, strength, budget, .. } => {
                let terms = terms.filter(|_| kind <= 2)?;
                lend!(knobharbor_held_add, group, number, terms.as_ptr(), terms.len() as u64, constant, kind, strength, budget)
            }
            Call::Remove { number, budget } => lend!(knobharbor_held_remove, number, budget),
            Call::Drop { group, budget } => lend!(knobharbor_held_drop, group, budget),
            Call::AddEdit { variable, strength, budget } => lend!(knobharbor_held_add_edit, variable, strength, budget),
            Call::RemoveEdit { variable, budget } => lend!(knobharbor_held_remove_edit, variable, budget),
            Call::Suggest { variable, suggestion, budget } => lend!(knobharbor_held_suggest, variable, suggestion, budget),
        }
    }
    let [number, pivots, whole] = answer;
    Some(Answer { number, pivots, whole })
}

pub fn fetch(t: Lent, answer: &mut [u32; FETCHED], lists: Changes) -> Fetched {
    unsafe { knobharbor_held_fetch(t.words, t.keys, t.bytes, t.reals, t.values, answer, lists.numbers, lists.moved, lists.gone) }
    let [number, count] = *answer;
    Fetched { number, count }
}

/// What the three queries say of one number.
pub fn ask(t: Lent, n: u32) -> (f64, bool, bool) {
    unsafe {
        (
            knobharbor_held_value(t.words, t.keys, t.bytes, t.reals, t.values, n),
            knobharbor_held_has_constraint(t.words, t.keys, t.bytes, t.reals, t.values, n),
            knobharbor_held_has_edit(t.words, t.keys, t.bytes, t.reals, t.values, n),
        )
    }
}
