//! The untouched crate, driven by the text format of calls. It counts no pivots and has no mark: `-` stands for both.
//!
//! Its errors are answered by document 01's number for the same finding. A panic is answered `! panic`: the solver is
//! used on as the panic left it. A call that takes longer than five seconds is answered `! endless`, and the program ends.
extern crate cassowary;

#[path = "../format.rs"]
mod format;

use cassowary::strength;
use cassowary::{AddConstraintError, AddEditVariableError, RemoveConstraintError, RemoveEditVariableError, SuggestValueError};
use cassowary::{Constraint, Expression, RelationalOperator, Solver, Term, Variable};
use format::{bits, fetched, Call, Relation};
use std::collections::HashMap;
use std::panic::{catch_unwind, AssertUnwindSafe};
use std::sync::atomic::{AtomicU64, Ordering};
use std::sync::Arc;
use std::time::Duration;

struct Driver {
    solver: Solver,
    variables: HashMap<u32, Variable>,
    numbers: HashMap<Variable, u32>,
    constraints: HashMap<u32, Constraint>,
}

fn internal(message: &str) -> u8 {
    match message {
        "The objective is unbounded" => 15,
        "Dual optimise failed." => 16,
        "Failed to find leaving row." => 17,
        _ => 5,
    }
}

fn line(refusal: u8) -> String {
    format!("{} - -", refusal)
}

impl Driver {
    fn variable(&mut self, number: u32) -> Variable {
        let v = *self.variables.entry(number).or_insert_with(Variable::new);
        self.numbers.insert(v, number);
        v
    }

    // a number that is live names the constraint that it was added as
    fn constraint(&mut self, number: u32, relation: Relation, strength: f64, constant: f64, terms: &[(u32, f64)]) -> Constraint {
        if let Some(c) = self.constraints.get(&number) {
            if self.solver.has_constraint(c) {
                return c.clone();
            }
        }
        let op = match relation {
            Relation::AtMost => RelationalOperator::LessOrEqual,
            Relation::Equal => RelationalOperator::Equal,
            Relation::AtLeast => RelationalOperator::GreaterOrEqual,
        };
        let terms = terms.iter().map(|&(v, coefficient)| Term { variable: self.variable(v), coefficient }).collect();
        let c = Constraint::new(Expression::new(terms, constant), op, strength);
        self.constraints.insert(number, c.clone());
        c
    }

    fn answer(&mut self, call: Call) -> String {
        match call {
            Call::Reset(cutoff) => {
                self.solver.reset();
                // the crate has no other
                if cutoff == format::USUAL_CUTOFF { line(0) } else { "?".to_string() }
            }
            // the crate has no groups
            Call::Drop { .. } => "?".to_string(),
            Call::Add { number, relation, strength, constant, terms, .. } => {
                let c = self.constraint(number, relation, strength, constant, &terms);
                line(match self.solver.add_constraint(c) {
                    Ok(()) => 0,
                    Err(AddConstraintError::DuplicateConstraint) => 4,
                    Err(AddConstraintError::UnsatisfiableConstraint) => 12,
                    Err(AddConstraintError::InternalSolverError(m)) => internal(m),
                })
            }
            Call::Remove { number, .. } => line(match self.constraints.get(&number).cloned() {
                None => 5,
                Some(c) => match self.solver.remove_constraint(&c) {
                    Ok(()) => 0,
                    Err(RemoveConstraintError::UnknownConstraint) => 5,
                    Err(RemoveConstraintError::InternalSolverError(m)) => internal(m),
                },
            }),
            Call::AddEdit { variable, strength, .. } => {
                let v = self.variable(variable);
                line(match self.solver.add_edit_variable(v, strength) {
                    Ok(()) => 0,
                    Err(AddEditVariableError::DuplicateEditVariable) => 6,
                    Err(AddEditVariableError::BadRequiredStrength) => 7,
                })
            }
            Call::RemoveEdit { variable, .. } => {
                let v = self.variable(variable);
                line(match self.solver.remove_edit_variable(v) {
                    Ok(()) => 0,
                    Err(RemoveEditVariableError::UnknownEditVariable) => 8,
                    Err(RemoveEditVariableError::InternalSolverError(m)) => internal(m),
                })
            }
            Call::Suggest { variable, value, .. } => {
                let v = self.variable(variable);
                line(match self.solver.suggest_value(v, value) {
                    Ok(()) => 0,
                    Err(SuggestValueError::UnknownEditVariable) => 8,
                    Err(SuggestValueError::InternalSolverError(m)) => internal(m),
                })
            }
            Call::Value(v) => {
                let v = self.variable(v);
                bits(self.solver.get_value(v))
            }
            Call::HasConstraint(n) => match self.constraints.get(&n) {
                Some(c) => (self.solver.has_constraint(c) as u8).to_string(),
                None => "0".to_string(),
            },
            Call::HasEdit(v) => {
                let v = self.variable(v);
                (self.solver.has_edit_variable(&v) as u8).to_string()
            }
            Call::Fetch => {
                let changes = self.solver.fetch_changes();
                fetched(changes.iter().map(|(v, x)| (self.numbers[v], Some(*x))))
            }
            Call::Create(a, b, c, w) => bits(strength::create(a, b, c, w)),
            Call::Clip(s) => bits(strength::clip(s)),
            // the crate hands none back
            Call::Show(_) => "?".to_string(),
            Call::Dump | Call::Check | Call::SetNext(_) | Call::SetCell(..) | Call::SetGone(..) => "?".to_string(),
        }
    }
}

/// Ends the program if one call takes longer than five seconds.
fn guard(begun: Arc<AtomicU64>) {
    let mut seen = 0;
    loop {
        std::thread::sleep(Duration::from_secs(5));
        let now = begun.load(Ordering::SeqCst);
        if now % 2 == 1 && now == seen {
            println!("! endless");
            std::process::exit(1);
        }
        seen = now;
    }
}

fn main() {
    std::panic::set_hook(Box::new(|_| ()));
    // odd while a call runs
    let begun = Arc::new(AtomicU64::new(0));
    let watched = begun.clone();
    std::thread::spawn(move || guard(watched));
    let mut driver = Driver { solver: Solver::new(), variables: HashMap::new(), numbers: HashMap::new(), constraints: HashMap::new() };
    format::serve(|call| {
        begun.fetch_add(1, Ordering::SeqCst);
        let reply = catch_unwind(AssertUnwindSafe(|| driver.answer(call))).unwrap_or_else(|_| "! panic".to_string());
        begun.fetch_add(1, Ordering::SeqCst);
        reply
    });
}
