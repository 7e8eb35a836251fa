//! When tables read as a state, clause by clause, from document 01's sentence with its sparse form (docs/AMENDMENTS.md) and
//! docs/DECISIONS.md ("Layout and reading a state"), not from the archive. Any one clause can be left out, to see that a difference is
//! then reported.
use crate::layout::{Held, HeldTag, DUMMY, ERROR, EXTERNAL, SLACK, SPAN};
use std::collections::BTreeSet;

const MOST_VARIABLES: u64 = 32;
const MOST_CONSTRAINTS: u64 = 48;
const MOST_TERMS: u8 = 16;
const MOST_GONE: u64 = 32;
const LARGEST: u64 = u32::MAX as u64;
const REQUIRED: f64 = 1_001_001_000.0;
const GREATEST_CUTOFF: f64 = 1e-6;
/// Relations: at most, equal, at least.
const EQUAL: u8 = 1;
const AT_LEAST: u8 = 2;

pub type Clause = (&'static str, fn(&Held) -> bool);

pub const CLAUSES: &[Clause] = &[
    // "counts are in range": the others' follow, since what is listed is distinct and live
    ("at most 32 variables", |h| h.variable_count <= MOST_VARIABLES),
    ("at most 48 constraints, edits counted", |h| h.constraint_count.saturating_add(h.edit_count) <= MOST_CONSTRAINTS),
    ("at most 16 terms", |h| h.constraints.iter().all(|c| c.count <= MOST_TERMS)),
    // "variable and constraint numbers ascend"
    ("variable numbers ascend", |h| ascend(h.variables.iter().map(|v| v.number))),
    ("constraint numbers ascend", |h| ascend(h.constraints.iter().map(|c| c.number))),
    ("edits ascend by their variables", |h| ascend(h.edits.iter().map(|e| number(h, e.variable)))),
    // "symbols ... are distinct", and stand by ascending id, from 1
    ("symbols ascend by id", |h| ascend(h.symbols.iter().map(|s| s.0))),
    ("ids are above 0", |h| h.symbols.iter().all(|s| s.0 > 0)),
    ("rows ascend by id", |h| ascend(h.rows.iter().map(|r| u64::from(r.0)))),
    ("no symbol has two owners", |h| owned(h).windows(2).all(|w| w[0] != w[1])),
    // "ids lie below the next id"
    ("ids lie below the next id", |h| h.symbols.iter().all(|s| s.0 < h.next)),
    ("the next id is above 0", |h| h.next > 0),
    // "rows are no more than constraints"
    ("rows are no more than constraints", |h| h.row_count <= h.constraint_count.saturating_add(h.edit_count)),
    // "cells by ascending id", of all rows one after the other
    ("keys ascend", |h| ascend(h.cells.iter().map(|c| u64::from(c.0)))),
    ("a cell is of a row", |h| h.cells.iter().all(|c| (1..=h.rows.len()).contains(&(usize::from(c.0) / SPAN)))),
    ("a cell is of a symbol", |h| h.cells.iter().all(|c| is_live(h, (usize::from(c.0) % SPAN) as u8))),
    ("no cell is 0.0", |h| h.cells.iter().all(|c| c.1 != 0.0)),
    // "no basic symbol is a cell of any row"
    ("no basic symbol is a cell of a row", |h| h.cells.iter().all(|c| !basic(h).contains(&((usize::from(c.0) % SPAN) as u8)))),
    ("no basic symbol is a cell of the objective", |h| h.objective.iter().enumerate().all(|(i, x)| *x == 0.0 || !basic(h).contains(&(i as u8 + 1)))),
    // "every basic or cell symbol is a live variable's or tag's"
    ("every symbol has an owner", |h| (1..=h.symbols.len()).all(|p| owned(h).contains(&(p as u8)))),
    ("every variable's symbol is there", |h| h.variables.iter().all(|v| is_live(h, v.place))),
    ("every row's symbol is there", |h| h.rows.iter().all(|r| is_live(h, r.0))),
    // "use counts are those of the stored terms"
    ("use counts are those of the stored terms", |h| h.variables.iter().all(|v| v.uses == named(h).filter(|p| *p == v.place).count() as u64)),
    ("the stored terms' variables are live", |h| h.terms.iter().all(|t| h.variables.iter().any(|v| v.place == t.0))),
    ("the edits' variables are live", |h| h.edits.iter().all(|e| h.variables.iter().any(|v| v.place == e.variable))),
    // "numbers are finite (a variable's old value may be NaN)"
    ("the objective's cells are finite", |h| h.objective.iter().all(|x| x.is_finite())),
    ("row constants are finite", |h| h.rows.iter().all(|r| r.1.is_finite())),
    ("row cells are finite", |h| h.cells.iter().all(|c| c.1.is_finite())),
    ("old values are not infinite", |h| h.variables.iter().all(|v| !v.old.is_infinite())),
    ("constraints' strengths are finite", |h| h.constraints.iter().all(|c| c.tag.strength.is_finite())),
    ("constraints' constants are finite", |h| h.constraints.iter().all(|c| c.constant.is_finite())),
    ("coefficients are finite", |h| h.terms.iter().all(|t| t.1.is_finite())),
    ("edits' strengths are finite", |h| h.edits.iter().all(|e| e.tag.strength.is_finite())),
    ("suggestions are finite", |h| h.edits.iter().all(|e| e.suggestion.is_finite())),
    // "each tag's kinds are those Add gives": so a marker and an other are symbols of the state (a place without one counts as External
    // here), and, since every symbol has an owner, a kind is one of four
    ("variables' symbols are External", |h| h.variables.iter().all(|v| kind(h, v.place) == EXTERNAL)),
    ("constraints' kinds are those Add gives", |h| h.constraints.iter().all(|c| given(h, &c.tag))),
    ("a relation is one of three", |h| h.constraints.iter().all(|c| c.relation <= AT_LEAST)),
    ("an inequality's marker is a slack, an equality's is none", |h| h.constraints.iter().all(|c| (c.relation == EQUAL) != (kind(h, c.tag.marker) == SLACK))),
    ("edits' kinds are those Add gives", |h| h.edits.iter().all(|e| kind(h, e.tag.marker) == ERROR && given(h, &e.tag))),
    // "the cutoff is one that reset takes": so it is finite too
    ("the cutoff is above 0", |h| !(h.cutoff <= 0.0)),
    ("the cutoff is at most 1E-6", |h| !(h.cutoff > GREATEST_CUTOFF)),
    ("the cutoff is a number", |h| !h.cutoff.is_nan()),
    // "no constraint with a number is in group 0"
    ("no constraint is in group 0", |h| h.constraints.iter().all(|c| c.group > 0)),
    // "gone numbers ascend and are at most 32, a variable whose number is among them has NaN for its old value"
    ("at most 32 gone entries", |h| h.gone_count <= MOST_GONE),
    ("gone numbers ascend", |h| ascend(h.gone.iter().copied())),
    ("one that is back was not reported since", |h| h.variables.iter().all(|v| v.old.is_nan() || !h.gone.contains(&v.number))),
    // numbers fit their types
    ("the next id is a u32", |h| h.next <= LARGEST),
    ("variable numbers are u32", |h| h.variables.iter().all(|v| v.number <= LARGEST)),
    ("constraint numbers are u32", |h| h.constraints.iter().all(|c| c.number <= LARGEST)),
    ("gone numbers are u32", |h| h.gone.iter().all(|n| *n <= LARGEST)),
    ("the toggle is 0 or 1", |h| h.clear <= 1),
    ("the mark is 0 or 1", |h| h.whole <= 1),
    ("changed flags are 0 or 1", |h| h.variables.iter().all(|v| v.changed <= 1)),
];

/// All clauses but the one that is left out.
pub fn reads(h: &Held, left_out: Option<usize>) -> bool {
    CLAUSES.iter().enumerate().all(|(i, (_, holds))| left_out == Some(i) || holds(h))
}

/// What reset takes.
pub fn cutoff_fits(cutoff: f64) -> bool {
    0.0 < cutoff && cutoff <= GREATEST_CUTOFF
}

fn ascend(numbers: impl Iterator<Item = u64>) -> bool {
    let numbers: Vec<u64> = numbers.collect();
    numbers.windows(2).all(|w| w[0] < w[1])
}

fn is_live(h: &Held, place: u8) -> bool {
    (1..=h.symbols.len()).contains(&usize::from(place))
}

/// The number of the variable whose symbol stands there.
fn number(h: &Held, place: u8) -> u64 {
    h.variables.iter().find(|v| v.place == place).map_or(0, |v| v.number)
}

/// Of a place without a symbol as of an External.
fn kind(h: &Held, place: u8) -> u64 {
    h.symbols.get(usize::from(place).wrapping_sub(1)).map_or(EXTERNAL, |s| u64::from(s.1))
}

fn basic(h: &Held) -> BTreeSet<u8> {
    h.rows.iter().map(|r| r.0).collect()
}

fn tags(h: &Held) -> impl Iterator<Item = &HeldTag> {
    h.constraints.iter().map(|c| &c.tag).chain(h.edits.iter().map(|e| &e.tag))
}

/// The places of the variables' and tags' symbols, ascending.
fn owned(h: &Held) -> Vec<u8> {
    let of_tags = tags(h).flat_map(|t| std::iter::once(t.marker).chain(Some(t.other).filter(|o| *o != 0)));
    let mut out: Vec<u8> = h.variables.iter().map(|v| v.place).chain(of_tags).collect();
    out.sort();
    out
}

/// The places that the stored terms name, an edit's one among them.
fn named(h: &Held) -> impl Iterator<Item = u8> + '_ {
    h.terms.iter().map(|t| t.0).chain(h.edits.iter().map(|e| e.variable))
}

/// "Inequality: slack ...; if strength is below 1,001,001,000 also an error"; "Equality below that strength: error plus ...,
/// error minus"; "Required equality: dummy".
fn given(h: &Held, tag: &HeldTag) -> bool {
    let other = Some(tag.other).filter(|o| *o != 0).map(|o| kind(h, o));
    match (kind(h, tag.marker), tag.strength < REQUIRED) {
        (SLACK, false) | (DUMMY, false) => other.is_none(),
        (SLACK, true) | (ERROR, true) => other == Some(ERROR),
        _ => false,
    }
}
