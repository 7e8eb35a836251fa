//! States that read and come from no run: any ids in any order, any rows, any numbers.
use crate::layout::{code, DUMMY, ERROR, EXTERNAL, NONE, SLACK};
use crate::random::Random;
use crate::state::{ConstraintWords, EditWords, RowWords, VariableWords, Words};
use std::collections::BTreeSet;

pub const REQUIRED: f64 = 1_001_001_000.0;
pub const MOST_VARIABLES: usize = 32;
pub const MOST_TAGS: usize = 48;
pub const MOST_TERMS: usize = 16;
pub const MOST_GONE: usize = 32;
pub const LARGEST: u64 = u32::MAX as u64;
pub const LAST_ID: u64 = 4_294_900_000;

fn number(g: &mut Random, wild: bool) -> f64 {
    if wild { g.wild() } else { g.tame() }
}

/// So many numbers, ascending, close together or far apart.
fn ascending(g: &mut Random, n: usize, most: u64) -> Vec<u64> {
    let step = if g.one_in(3) { most / (n as u64 + 2) } else { 3 };
    let mut at = 0;
    (0..n)
        .map(|_| {
            at += 1 + g.word() % step;
            at
        })
        .collect()
}

fn sizes(g: &mut Random) -> (usize, usize, usize) {
    let (v, c) = match g.below(10) {
        0 => (MOST_VARIABLES, g.below(MOST_TAGS + 1)),
        1 => (g.below(MOST_VARIABLES + 1), MOST_TAGS),
        _ => (g.below(7), g.below(9)),
    };
    let edits = g.below(v.min(MOST_TAGS - c).min(5) + 1);
    (v, c, edits)
}

/// Marker's kind, other's kind if there is one, strength.
fn tag(g: &mut Random, wild: bool) -> (u64, Option<u64>, f64) {
    let soft = if wild && g.one_in(2) { g.wild().min(1e9) } else { g.pick(&[0.0, 1.0, 1000.0, 1_000_000.0]) };
    match g.below(4) {
        0 => (SLACK, None, REQUIRED),
        1 => (SLACK, Some(ERROR), soft),
        2 => (ERROR, Some(ERROR), soft),
        _ => (DUMMY, None, if wild { REQUIRED + 7.0 } else { REQUIRED }),
    }
}

/// The owners, their symbols of any ids: `ids` are taken from in any order.
fn owners(g: &mut Random, w: &mut Words, wild: bool, (variables, constraints, edits): (usize, usize, usize)) {
    let tags: Vec<_> = (0..constraints).map(|_| tag(g, wild)).collect();
    let symbols = variables + 2 * edits + tags.iter().map(|t| 1 + t.1.iter().len()).sum::<usize>();
    let mut ids = ascending(g, symbols, LAST_ID);
    w.next = match g.below(6) {
        0 => LAST_ID - 3 + g.word() % 8,
        1 => LARGEST - g.word() % 3,
        _ => ids.last().unwrap_or(&0) + 1 + g.word() % 4,
    };
    w.next = w.next.max(ids.last().unwrap_or(&0) + 1);
    (1..ids.len()).rev().for_each(|i| ids.swap(i, g.below(i + 1)));
    let mut taken = ids.into_iter();
    let mut take = |kind: u64| code(taken.next().expect("an id for each"), kind);
    for number in ascending(g, variables, LARGEST) {
        let old = if g.one_in(2) { f64::NAN } else { number_or_nan(g, wild) };
        w.variables.push(VariableWords { number, symbol: take(EXTERNAL), uses: 0, changed: g.word() % 2, old });
    }
    for (number, (marker, other, strength)) in ascending(g, constraints, LARGEST).into_iter().zip(tags) {
        let group = u64::from(g.some_group());
        let relation = if marker == SLACK { g.pick(&[0, 2]) } else { 1 };
        let constant = some_zero(g, wild);
        w.constraints.push(ConstraintWords { number, group, relation, constant, marker: take(marker), other: other.map_or(NONE, &mut take), strength, terms: Vec::new() });
    }
    let mut edited: Vec<u64> = w.variables.iter().map(|v| v.number).collect();
    while edited.len() > edits {
        edited.remove(g.below(edited.len()));
    }
    for variable in edited {
        w.edits.push(EditWords { variable, marker: take(ERROR), other: take(ERROR), strength: g.pick(&[0.0, 1.0, 1000.0]), suggestion: number(g, wild) });
    }
}

fn some_zero(g: &mut Random, wild: bool) -> f64 {
    if g.one_in(4) { g.pick(&[0.0, -0.0]) } else { number(g, wild) }
}

fn number_or_nan(g: &mut Random, wild: bool) -> f64 {
    if g.one_in(8) { f64::from_bits(0xfff0_0000_0000_0001) } else { number(g, wild) }
}

fn terms(g: &mut Random, w: &mut Words, wild: bool) {
    let numbers: Vec<u64> = w.variables.iter().map(|v| v.number).collect();
    for c in &mut w.constraints {
        let n = if numbers.is_empty() { 0 } else if g.one_in(10) { g.below(MOST_TERMS + 1) } else { g.below(4) };
        c.terms = (0..n).map(|_| (g.pick(&numbers), number(g, wild))).collect();
    }
    count_uses(w);
}

pub fn count_uses(w: &mut Words) {
    for v in &mut w.variables {
        let named = w.constraints.iter().flat_map(|c| &c.terms).filter(|t| t.0 == v.number).count() + w.edits.iter().filter(|e| e.variable == v.number).count();
        v.uses = named as u64;
    }
}

fn tableau(g: &mut Random, w: &mut Words, wild: bool) {
    w.symbols = w.variables.iter().map(|v| v.symbol).chain(w.constraints.iter().flat_map(|c| [c.marker, c.other])).chain(w.edits.iter().flat_map(|e| [e.marker, e.other])).collect();
    w.symbols.retain(|s| *s != NONE);
    w.symbols.sort();
    let mut basic: Vec<u64> = w.symbols.clone();
    let rows = g.below(w.constraints.len() + w.edits.len() + 1);
    while basic.len() > rows {
        basic.remove(g.below(basic.len()));
    }
    let full = 1 + g.below(5);
    let symbols = w.symbols.clone();
    // absent cells of the objective may be zeros of either sign; a row's are not there
    let cells = |g: &mut Random, least: f64, negative_zero: bool| -> Vec<f64> {
        symbols
            .iter()
            .map(|s| match basic.contains(s) || !g.one_in(full) {
                true if negative_zero && g.one_in(4) => -0.0,
                true => 0.0,
                false => number(g, wild).max(least),
            })
            .collect()
    };
    w.rows = basic.iter().map(|s| RowWords { symbol: *s, constant: number(g, wild), cells: cells(g, f64::MIN, false) }).collect();
    // above 0 for the most part, as a pass leaves it
    let least = if g.one_in(4) { f64::MIN } else { 0.0 };
    let negative_zero = g.one_in(60);
    w.objective = cells(g, least, negative_zero);
}

/// Gone entries wait, full up to the last or but one now and then: some of variables that are back and were not reported since.
fn gone(g: &mut Random, w: &mut Words) {
    let many = match g.below(6) {
        0 | 1 => MOST_GONE - g.below(2),
        2 | 3 => g.below(6),
        _ => 0,
    };
    let back: Vec<u64> = w.variables.iter().filter(|v| v.old.is_nan()).map(|v| v.number).collect();
    let reported: Vec<u64> = w.variables.iter().filter(|v| !v.old.is_nan()).map(|v| v.number).collect();
    let mut numbers: BTreeSet<u64> = back.into_iter().filter(|_| many > 0 && g.one_in(3)).take(many).collect();
    numbers.extend(ascending(g, MOST_GONE + MOST_VARIABLES, LARGEST).into_iter().filter(|n| !reported.contains(n)));
    while numbers.len() > many {
        let n = g.pick(&numbers.iter().copied().collect::<Vec<_>>());
        numbers.remove(&n);
    }
    w.gone = numbers.into_iter().collect();
}

/// A state that reads.
pub fn state(g: &mut Random) -> Words {
    let (wild, sizes) = (g.one_in(3), sizes(g));
    let mut w = Words { cutoff: g.good_cutoff(), clear: g.word() % 2, whole: g.word() % 2, ..Words::default() };
    owners(g, &mut w, wild, sizes);
    terms(g, &mut w, wild);
    tableau(g, &mut w, wild);
    gone(g, &mut w);
    w
}
