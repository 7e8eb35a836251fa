//! A refused call leaves every value as it was, and says why.
use knobharbor::strength::{REQUIRED, STRONG};
use knobharbor::WeightedRelation::*;
use knobharbor::{AddConstraintError, AddEditVariableError, RemoveConstraintError, RemoveEditVariableError, SuggestValueError};
use knobharbor::{Constraint, Refusal, Solver, Variable};

fn number(solver: &Solver) -> Refusal {
    solver.refused().expect("the call was refused").refusal()
}

fn values(solver: &Solver, vars: &[Variable]) -> Vec<u64> {
    vars.iter().map(|v| solver.get_value(*v).to_bits()).collect()
}

#[test]
fn a_refused_drag_leaves_every_value() {
    let vars: Vec<Variable> = (0..3).map(|_| Variable::new()).collect();
    let mut solver = Solver::new();
    solver
        .add_constraints(&[vars[0] | GE(REQUIRED) | 0.0, vars[1] | GE(REQUIRED) | vars[0] + 40.0, vars[2] | GE(REQUIRED) | vars[1] + 40.0])
        .unwrap();
    for v in &vars {
        solver.add_edit_variable(*v, STRONG).unwrap();
    }
    solver.suggest_value(vars[0], 10.0).unwrap();
    solver.suggest_value(vars[1], 200.0).unwrap();
    solver.suggest_value(vars[2], 300.0).unwrap();
    solver.fetch_changes();
    let before = values(&solver, &vars);

    solver.set_budget(0);
    assert_eq!(solver.suggest_value(vars[1], 290.0), Err(SuggestValueError::InternalSolverError("the pivot budget is used up")));
    assert_eq!(number(&solver), Refusal::BudgetUsedUp);
    assert_eq!(solver.pivots(), 0);
    assert_eq!(values(&solver, &vars), before);
    assert!(solver.fetch_changes().is_empty());

    assert!(matches!(solver.suggest_value(vars[1], f64::NAN), Err(SuggestValueError::InternalSolverError(_))));
    assert_eq!(number(&solver), Refusal::NotFinite);
    assert_eq!(values(&solver, &vars), before);

    solver.set_budget(20);
    solver.suggest_value(vars[1], 290.0).unwrap();
    assert_ne!(values(&solver, &vars), before);
}

#[test]
fn what_cannot_be_met_is_refused_and_forgotten() {
    let x = Variable::new();
    let mut solver = Solver::new();
    let first: Constraint = x | EQ(REQUIRED) | 5.0;
    let second: Constraint = x | EQ(REQUIRED) | 6.0;
    solver.add_constraint(first.clone()).unwrap();
    assert_eq!(solver.add_constraint(second.clone()), Err(AddConstraintError::UnsatisfiableConstraint));
    let refused = solver.refused().unwrap();
    assert_eq!(refused.constraint(), Some(&second));
    let words = format!("v{} - 6 == 0, required: the constraint cannot be met together with the other required ones (12)", x.number());
    assert_eq!(refused.to_string(), words);
    assert!(solver.is_whole());
    assert!(solver.has_constraint(&first) && !solver.has_constraint(&second));
    assert_eq!(solver.add_constraint(first.clone()), Err(AddConstraintError::DuplicateConstraint));
    assert_eq!(solver.remove_constraint(&second), Err(RemoveConstraintError::UnknownConstraint));
    assert_eq!(solver.get_value(x), 5.0);
}

#[test]
fn an_edit_comes_and_goes() {
    let x = Variable::new();
    let mut solver = Solver::new();
    assert!(!solver.has_edit_variable(&x));
    assert_eq!(solver.remove_edit_variable(x), Err(RemoveEditVariableError::UnknownEditVariable));
    assert_eq!(solver.add_edit_variable(x, REQUIRED), Err(AddEditVariableError::BadRequiredStrength));
    solver.add_edit_variable(x, STRONG).unwrap();
    assert_eq!(solver.add_edit_variable(x, STRONG), Err(AddEditVariableError::DuplicateEditVariable));
    solver.suggest_value(x, 7.0).unwrap();
    assert!(solver.has_edit_variable(&x));
    assert_eq!(solver.get_value(x), 7.0);

    solver.remove_edit_variable(x).unwrap();
    assert!(!solver.has_edit_variable(&x));
    assert_eq!(solver.get_value(x), 0.0);
    assert_eq!(solver.suggest_value(x, 8.0), Err(SuggestValueError::UnknownEditVariable));
}

#[test]
fn a_reset_forgets_all_but_the_budget() {
    let (x, y) = (Variable::new(), Variable::new());
    let held: Constraint = x | EQ(REQUIRED) | 5.0;
    let mut solver = Solver::new();
    solver.set_budget(30);
    solver.add_constraint(held.clone()).unwrap();
    solver.add_edit_variable(y, STRONG).unwrap();
    solver.suggest_value(y, 3.0).unwrap();

    solver.reset();
    assert!(!solver.has_constraint(&held) && !solver.has_edit_variable(&y));
    assert_eq!((solver.get_value(x), solver.get_value(y)), (0.0, 0.0));
    assert_eq!((solver.pivots(), solver.is_whole(), solver.budget()), (0, true, 30));
    assert_eq!(solver.remove_constraint(&held), Err(RemoveConstraintError::UnknownConstraint));
    solver.add_constraint(held.clone()).unwrap();
    assert_eq!(solver.fetch_changes(), &[(x, 5.0)]);
}

#[test]
fn seventeen_terms_are_too_many() {
    let mut solver = Solver::new();
    let sum = (0..17).fold(knobharbor::Expression::from_constant(0.0), |e, _| e + Variable::new());
    assert!(solver.add_constraint(sum | EQ(REQUIRED) | 0.0).is_err());
    assert_eq!(number(&solver), Refusal::TooManyTerms);
}

#[test]
fn edits_beyond_the_forty_eighth_are_refused_and_do_not_panic() {
    let mut solver = Solver::new();
    let x = Variable::new();
    for i in 0..48 {
        solver.add_constraint(x | EQ(1.0) | f64::from(i)).unwrap();
    }
    let refused = solver.add_edit_variable(x, STRONG);
    assert_eq!(refused, Err(AddEditVariableError::InternalSolverError("there are 48 constraints already, edits counted")));
    assert_eq!(number(&solver), Refusal::TooManyConstraints);
}

#[test]
fn a_clone_is_a_snapshot() {
    let (x, y) = (Variable::new(), Variable::new());
    let held: Constraint = y | GE(REQUIRED) | x + 40.0;
    let mut solver = Solver::new();
    solver.add_constraint(held.clone()).unwrap();
    solver.add_edit_variable(x, STRONG).unwrap();
    solver.suggest_value(x, 100.0).unwrap();
    let mut before = solver.clone();
    solver.suggest_value(x, 200.0).unwrap();
    solver.remove_constraint(&held).unwrap();

    assert_eq!((before.get_value(x), before.get_value(y)), (100.0, 140.0));
    assert!(before.has_constraint(&held) && !solver.has_constraint(&held));
    before.suggest_value(x, 50.0).unwrap();
    before.remove_constraint(&held).unwrap();
    assert_eq!((before.get_value(x), solver.get_value(x)), (50.0, 200.0));
}
