//! EDIT 6 and 7: what the steps of one call have written and solved on so far, looked at as it happens.
//!
//! 13: "a step writes a cell, a row constant or a factor not finite".
//! "The mark ... stays yes while: inputs that reach the steps, skipped coefficients too, are whole, coefficients within
//! 1,024, constants and suggestions within 2^30; each solve is on a cell 1 or -1; after each write, row and artificial
//! cells are within 1,024, their constants within 2^30, objective cells within 2^40."
//!
//! It is kept beside the solver, not in it, so that the row functions keep the crate's signatures. `--cfg unwatched` builds
//! the crate for timing: nothing is looked at, and no state is copied for undo.
use std::cell::Cell;
use super::{ Expression, RowType };

const CELLS: f64 = 1024.0;
const CONSTANTS: f64 = 1_073_741_824.0;
const OBJECTIVE: f64 = 1_099_511_627_776.0;

thread_local! {
    static WHOLE: Cell<bool> = Cell::new(true);
    static FINITE: Cell<bool> = Cell::new(true);
}

/// The steps of a call begin.
pub fn begin() {
    WHOLE.with(|w| w.set(true));
    FINITE.with(|f| f.set(true));
}

pub fn all_whole() -> bool {
    WHOLE.with(|w| w.get())
}

pub fn all_finite() -> bool {
    FINITE.with(|f| f.get())
}

fn no_longer_whole_unless(b: bool) {
    if !b {
        WHOLE.with(|w| w.set(false));
    }
}

fn written(v: f64, bound: f64) {
    if cfg!(unwatched) {
        return;
    }
    if !v.is_finite() {
        FINITE.with(|f| f.set(false));
    }
    no_longer_whole_unless(v.abs() <= bound);
}

pub(crate) fn cell(row: RowType, v: f64) {
    written(v, match row {
        RowType::InTable => CELLS,
        RowType::Objective => OBJECTIVE
    });
}

pub fn constant(v: f64) {
    written(v, CONSTANTS);
}

pub fn solve(cell: f64, factor: f64) {
    if cfg!(unwatched) {
        return;
    }
    if !factor.is_finite() {
        FINITE.with(|f| f.set(false));
    }
    no_longer_whole_unless(cell == 1.0 || cell == -1.0);
}

fn input(v: f64, bound: f64) {
    if cfg!(unwatched) {
        return;
    }
    no_longer_whole_unless(v.trunc() == v && v.abs() <= bound);
}

/// A constraint reaches the steps; its strength has no bound of its own.
pub fn constraint(e: &Expression, strength: f64) {
    for term in &e.terms {
        input(term.coefficient, CELLS);
    }
    input(e.constant, CONSTANTS);
    input(strength, ::std::f64::MAX);
}

pub fn suggestion(v: f64) {
    input(v, CONSTANTS);
}
