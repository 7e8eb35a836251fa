//! The patched crate, driven by the text format of calls.
extern crate cassowary_patched as cassowary;

#[path = "../format.rs"]
mod format;

use cassowary::{strength, Answer, Constraint, Expression, Name, RelationalOperator, Solver, Term, Variable};
use format::{bits, fetched, shown, Call, Given, Relation};

fn line(a: Answer) -> String {
    format!("{} {} {}", a.refusal, a.pivots, a.whole as u8)
}

fn add(solver: &mut Solver, group: u16, number: u32, relation: Relation, strength: f64, constant: f64, terms: &[(u32, f64)], budget: u16) -> Answer {
    let op = match relation {
        Relation::AtMost => RelationalOperator::LessOrEqual,
        Relation::Equal => RelationalOperator::Equal,
        Relation::AtLeast => RelationalOperator::GreaterOrEqual,
    };
    let terms = terms.iter().map(|&(v, k)| Term::new(Variable(v), k)).collect();
    let constraint = Constraint::new(Name::Number(number), Expression::new(terms, constant), op, strength);
    solver.add_constraint(constraint.in_group(group.into()), budget)
}

fn given(c: &Constraint) -> Given {
    let relation = match c.op() {
        RelationalOperator::LessOrEqual => Relation::AtMost,
        RelationalOperator::Equal => Relation::Equal,
        RelationalOperator::GreaterOrEqual => Relation::AtLeast,
    };
    let terms = c.expr().terms.iter().map(|t| (t.variable.0, t.coefficient)).collect();
    Given { relation, strength: c.strength(), group: c.group(), constant: c.expr().constant, terms }
}

fn main() {
    let mut solver = Solver::new();
    format::serve(|call| match call {
        Call::Reset(cutoff) => line(solver.reset(cutoff)),
        Call::Add { group, number, budget, relation, strength, constant, terms } => {
            line(add(&mut solver, group, number, relation, strength, constant, &terms, budget))
        }
        Call::Drop { group, budget } => line(solver.drop_group(group, budget)),
        Call::Remove { number, budget } => line(solver.remove_constraint(number, budget)),
        Call::AddEdit { variable, strength, budget } => line(solver.add_edit_variable(Variable(variable), strength, budget)),
        Call::RemoveEdit { variable, budget } => line(solver.remove_edit_variable(Variable(variable), budget)),
        Call::Suggest { variable, value, budget } => line(solver.suggest_value(Variable(variable), value, budget)),
        Call::Value(v) => bits(solver.get_value(Variable(v))),
        Call::HasConstraint(n) => (solver.has_constraint(n) as u8).to_string(),
        Call::HasEdit(v) => (solver.has_edit_variable(&Variable(v)) as u8).to_string(),
        // "5 constraint number is not live"
        Call::Show(n) => shown(solver.shown(n).map(given).ok_or(5)),
        Call::Fetch => fetched(solver.fetch_changes().iter().map(|(v, x)| (v.0, *x))),
        Call::Create(a, b, c, w) => bits(strength::create(a, b, c, w)),
        Call::Clip(s) => bits(strength::clip(s)),
        Call::Dump => solver.dump(),
        Call::Check => if solver.reads_as_one() { "reads" } else { "no" }.to_string(),
        Call::SetNext(id) => {
            solver.set_next(id);
            "set".to_string()
        }
        Call::SetGone(first, last) => {
            let mut state = solver.state();
            state.gone = (first..=last).collect();
            solver = Solver::from_state(&state);
            "set".to_string()
        }
        Call::SetCell(row, cell, value) => {
            let mut state = solver.state();
            let found = state.set_cell(row as usize, cell as usize, value);
            solver = Solver::from_state(&state);
            if found { "set" } else { "no" }.to_string()
        }
    });
}
