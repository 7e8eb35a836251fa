//! The crate cassowary 0.3.0 with document 01's rules patched in, as a second opinion on the port.
//!
//! Compare with `../untouched/cassowary/lib.rs`: what the crate has keeps its name and its place, and each change is
//! marked `EDIT n`, n being the sentence of document 01 that asks for it:
//!
//!  1. "Every walk goes by ascending id, over cells and rows alike; changes go by ascending variable number."
//!  2. "Variables and constraints are u32 numbers chosen by the caller; an edit's constraint has no number."
//!  3. "Each changing call answers: accepted or a number below, pivots made, whole mark."
//!  4. "Tested in this order. Add: 18, 1, 2, 3, 4, 10, 9, 11. Add edit: 18, 6, 7, 10, 9, 11. Suggest: 18, 1, 8." (No table
//!     is lent here, so 18 is never met.)
//!  5. "A refusal changes no table."
//!  6. 13: "a step writes a cell, a row constant or a factor not finite"; `unwrap`s become refusals.
//!  7. "A whole run": the mark.
//!  8. 14: "a pass needs a pivot and the budget is used". "Only pivots of optimise and dual passes are counted."
//!  9. "In every ratio test an infinite ratio never counts" (of either sign; the crate counts -infinity).
//! 10. "The objective's constant isn't kept."
//! 11. "A row holds a symbol if its cell isn't 0.0": a cell that becomes 0.0 counts as absent.
//! 12. "take each error symbol's strength out of the objective, marker's first"
//! 13. "in rank: the first Dummy row holding the marker; ..."
//! 14. "drop the other's row if it's basic, then remove cells of both tag symbols"; "a variable at zero goes with its row
//!     and cells and leaves the changed set".
//! 15. "leaving is the restricted row below 0 with the lowest id, not the last pushed, and the infeasible list goes" (document
//!     02, T-11).
//! 16. "Its constant not near zero: refuse 12." before the temporary's pivot.
//! 17. "every row holding the marker gets delta times that cell": a row that doesn't hold it is left alone, whatever delta is.
//! 18. "Create: each of three parts times w is held to 0..1000 (NaN gives 0) ... A zero is +0.0."
//! 19. "Left out: operators, `Display`, the variable counter, `add_constraints`."
//! 20. Aids of the bench, no part of document 01: dump, reads_as_one, set_next, and the state as plain numbers.
//! 21. "use counts are those of the stored terms": skipped terms are not stored.
//! 22. "Let reset take the near-zero cutoff, above 0 and at most 1E-6", "24 cutoff outside the range" (document 02, T-02). A row has
//!     the cutoff of its solver, so that the row functions keep the crate's signatures.
//! 23. "Every constraint gets a group number, u16, kept with it; edits are in group 0. Dropping a group removes its constraints by
//!     ascending number, all or none, under one budget." (document 02, T-05)
//! 24. "A variable that goes is listed once as gone in the next fetch of either kind, unless it was never reported. One that goes and
//!     returns before the fetch is listed gone first, then with its new value, 0.0 included. At most 32 gone entries wait." "25 a removal
//!     would make a 33rd gone entry; it stands before the steps of removal" (document 02, T-04)
//! 25. "Laptops must .. read layouts back": a live constraint as it was added, skipped terms left out (document 02, T-13)
use std::collections::BTreeMap; // EDIT 1: was HashMap
use std::collections::btree_map::{Entry};

mod solver_impl;
mod watch; // EDIT 6 and 7: what is written is looked at there
mod aids; // EDIT 20
mod plain; // EDIT 20

/// Identifies a variable for the constraint solver.
// EDIT 2, 19: a number chosen by the caller, no counter
#[derive(Copy, Clone, Hash, PartialEq, Eq, PartialOrd, Ord, Debug)]
pub struct Variable(pub u32);

/// A variable and a coefficient to multiply that variable by. This is a sub-expression in
/// a constraint equation.
#[derive(Copy, Clone, Debug)]
pub struct Term {
    pub variable: Variable,
    pub coefficient: f64
}

impl Term {
    /// Construct a new Term from a variable and a coefficient.
    pub fn new(variable: Variable, coefficient: f64) -> Term {
        Term {
            variable: variable,
            coefficient: coefficient
        }
    }
}

/// An expression that can be the left hand or right hand side of a constraint equation.
/// It is a linear combination of variables, i.e. a sum of variables weighted by coefficients, plus an optional constant.
#[derive(Clone, Debug)]
pub struct Expression {
    pub terms: Vec<Term>,
    pub constant: f64
}

// EDIT 19: from_constant, negate, the conversions, Display, WeightedRelation and PartialConstraint went with the operators
impl Expression {
    /// Constructs an expression from a single term. Forms an expression of the form _n x_
    /// where n is the coefficient, and x is the variable.
    pub fn from_term(term: Term) -> Expression {
        Expression {
            terms: vec![term],
            constant: 0.0
        }
    }
    /// General constructor. Each `Term` in `terms` is part of the sum forming the expression, as well as `constant`.
    pub fn new(terms: Vec<Term>, constant: f64) -> Expression {
        Expression {
            terms: terms,
            constant: constant
        }
    }
}

/// Contains useful constants and functions for producing strengths for use in the constraint solver.
pub mod strength {
    /// Create a constraint as a linear combination of STRONG, MEDIUM and WEAK strengths, corresponding to `a`
    /// `b` and `c` respectively. The result is further multiplied by `w`.
    pub fn create(a: f64, b: f64, c: f64, w: f64) -> f64 {
        held(a * w, 1000.0) * 1_000_000.0 +
            held(b * w, 1000.0) * 1000.0 +
            held(c * w, 1000.0)
    }
    pub const REQUIRED: f64 = 1_001_001_000.0;

    /// Clips a strength value to the legal range
    pub fn clip(s: f64) -> f64 {
        if s.is_nan() { REQUIRED } else { held(s, REQUIRED) }
    }

    // EDIT 18: "held to 0..1000 (NaN gives 0)", "A zero is +0.0": `max` and `min` leave the sign of a zero open
    fn held(x: f64, most: f64) -> f64 {
        if !(x > 0.0) { 0.0 } else if x > most { most } else { x }
    }
}

/// The possible relations that a constraint can specify.
#[derive(Copy, Clone, PartialEq, Eq, Hash, PartialOrd, Ord, Debug)]
pub enum RelationalOperator {
    /// `<=`
    LessOrEqual,
    /// `==`
    Equal,
    /// `>=`
    GreaterOrEqual
}

/// What a constraint is known by. EDIT 2: was the address of its data
#[derive(Copy, Clone, PartialEq, Eq, PartialOrd, Ord, Debug)]
pub enum Name {
    Number(u32),
    EditOf(Variable)
}

/// A constraint, consisting of an equation governed by an expression and a relational operator,
/// and an associated strength.
#[derive(Clone, Debug)]
pub struct Constraint {
    name: Name,
    group: u64, // EDIT 23
    expression: Expression,
    strength: f64,
    op: RelationalOperator
}

impl Constraint {
    /// Construct a new constraint from an expression, a relational operator and a strength.
    /// This corresponds to the equation `e op 0.0`, e.g. `x + y >= 0.0`. For equations with a non-zero
    /// right hand side, subtract it from the equation to give a zero right hand side.
    pub fn new(name: Name, e: Expression, op: RelationalOperator, strength: f64) -> Constraint {
        Constraint {
            name: name,
            // EDIT 23: "edits are in group 0"; 1 unless another is named
            group: if let Name::Number(_) = name { 1 } else { 0 },
            expression: e,
            op: op,
            strength: strength
        }
    }
    /// The expression of the left hand side of the constraint equation.
    pub fn expr(&self) -> &Expression {
        &self.expression
    }
    /// The relational operator governing the constraint.
    pub fn op(&self) -> RelationalOperator {
        self.op
    }
    /// The strength of the constraint that the solver will use.
    pub fn strength(&self) -> f64 {
        self.strength
    }
    // EDIT 23
    pub fn in_group(mut self, group: u64) -> Constraint {
        self.group = group;
        self
    }
    pub fn group(&self) -> u64 {
        self.group
    }
    // EDIT 21, 22: as it is stored
    fn kept(&self, cutoff: f64) -> Constraint {
        let mut out = self.clone();
        out.expression.terms.retain(|t| !near_zero(t.coefficient, cutoff));
        out
    }
}

// EDIT 20: SymbolType and Symbol are pub
#[derive(Copy, Clone, PartialEq, Eq, PartialOrd, Ord, Hash, Debug)]
pub enum SymbolType {
    Invalid,
    External,
    Slack,
    Error,
    Dummy
}

// EDIT 1: the derived order goes by id first, and ids are distinct
#[derive(Copy, Clone, PartialEq, Eq, PartialOrd, Ord, Hash, Debug)]
pub struct Symbol(pub usize, pub SymbolType);

impl Symbol {
    pub fn invalid() -> Symbol { Symbol(0, SymbolType::Invalid) }
    pub fn type_(&self) -> SymbolType { self.1 }
}

// EDIT 7, 10: which bound a row's cells are held against, and whether it has a constant
#[derive(Copy, Clone, PartialEq, Eq)]
enum RowType {
    InTable, // or artificial
    Objective
}

#[derive(Clone)]
struct Row {
    cells: BTreeMap<Symbol, f64>, // EDIT 1: was HashMap
    constant: f64,
    type_: RowType, // EDIT 7, 10
    cutoff: f64 // EDIT 22
}

/// EDIT 22: "1E-8 stays usual"
pub const USUAL_CUTOFF: f64 = 1E-8;
// EDIT 22: "above 0 and at most 1E-6"
const GREATEST_CUTOFF: f64 = 1E-6;

// EDIT 22: was by 1E-8
fn near_zero(value: f64, cutoff: f64) -> bool {
    if value < 0.0 {
        -value < cutoff
    } else {
        value < cutoff
    }
}

impl Row {
    fn new(constant: f64, cutoff: f64) -> Row { // EDIT 22
        Row {
            cells: BTreeMap::new(),
            constant: constant,
            type_: RowType::InTable,
            cutoff: cutoff
        }
    }
    // EDIT 10: "The objective's constant isn't kept."
    fn objective(cutoff: f64) -> Row { // EDIT 22
        Row {
            cells: BTreeMap::new(),
            constant: 0.0,
            type_: RowType::Objective,
            cutoff: cutoff
        }
    }
    fn add(&mut self, v: f64) -> f64 {
        self.constant += v;
        watch::constant(self.constant); // EDIT 6, 7
        self.constant
    }
    fn insert_symbol(&mut self, s: Symbol, coefficient: f64) {
        match self.cells.entry(s) {
            Entry::Vacant(entry) => if !near_zero(coefficient, self.cutoff) { // EDIT 22
                watch::cell(self.type_, coefficient); // EDIT 6, 7
                entry.insert(coefficient);
            },
            Entry::Occupied(mut entry) => {
                *entry.get_mut() += coefficient;
                watch::cell(self.type_, *entry.get()); // EDIT 6, 7
                if near_zero(*entry.get_mut(), self.cutoff) { // EDIT 22
                    entry.remove();
                }
            }
        }
    }

    fn insert_row(&mut self, other: &Row, coefficient: f64) -> bool {
        let constant_diff = other.constant * coefficient;
        if self.type_ == RowType::InTable { // EDIT 10
            self.constant += constant_diff;
            watch::constant(self.constant); // EDIT 6, 7
        }
        for (s, v) in &other.cells {
            self.insert_symbol(*s, v * coefficient);
        }
        constant_diff != 0.0
    }

    fn remove(&mut self, s: Symbol) {
        self.cells.remove(&s);
    }

    fn reverse_sign(&mut self) {
        self.constant = -self.constant;
        for (_, v) in &mut self.cells {
            *v = -*v;
        }
    }

    fn solve_for_symbol(&mut self, s: Symbol) {
        // EDIT 6: was unreachable!(); a cell that isn't held is 0.0, and the factor then isn't finite
        let cell = self.cells.remove(&s).unwrap_or(0.0);
        let coeff = -1.0 / cell;
        watch::solve(cell, coeff); // EDIT 6, 7
        self.constant *= coeff;
        watch::constant(self.constant); // EDIT 6, 7
        for (_, v) in &mut self.cells {
            *v *= coeff;
            watch::cell(self.type_, *v); // EDIT 6, 7
        }
        // EDIT 11: "A row holds a symbol if its cell isn't 0.0" (other results near zero stay)
        self.cells.retain(|_, v| *v != 0.0);
    }

    fn solve_for_symbols(&mut self, lhs: Symbol, rhs: Symbol) {
        self.insert_symbol(lhs, -1.0);
        self.solve_for_symbol(rhs);
    }

    fn coefficient_for(&self, s: Symbol) -> f64 {
        self.cells.get(&s).cloned().unwrap_or(0.0)
    }

    fn substitute(&mut self, s: Symbol, row: &Row) -> bool {
        if let Some(coeff) = self.cells.remove(&s) {
            self.insert_row(row, coeff)
        } else {
            false
        }
    }
}

/// EDIT 3: the crate's five error types become the number of document 01's table.
#[derive(Debug, Copy, Clone, PartialEq, Eq)]
pub struct Refusal(pub u8);

/// EDIT 3: "Each changing call answers: accepted or a number below, pivots made, whole mark." 0 is accepted.
#[derive(Debug, Copy, Clone, PartialEq, Eq)]
pub struct Answer {
    pub refusal: u8,
    pub pivots: u32,
    pub whole: bool
}

pub use solver_impl::Solver;
pub use plain::{ ConstraintState, EditState, RowState, State, VariableState }; // EDIT 20
