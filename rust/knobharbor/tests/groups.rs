//! Groups of constraints, dropped all or none.
use knobharbor::strength::{REQUIRED, STRONG, WEAK};
use knobharbor::RelationalOperator::Equal;
use knobharbor::WeightedRelation::*;
use knobharbor::{AddConstraintError, Constraint, LentSolver, Refusal, Solver, Tables, Variable};

const PANE: u16 = 3;
const EDGES: u32 = 9;

/// Nine constraints of one group hold nine edges at 0, each between a weak wish for 0 and a strong one for 1: to remove one is a pivot.
fn pane(solver: &mut LentSolver) {
    for edge in 1..=EDGES {
        let at = [Variable::from_number(edge) * -1.0];
        solver.add_in(PANE, edge, &at, 0.0, Equal, REQUIRED).unwrap();
        solver.add(100 + edge, &at, 0.0, Equal, WEAK).unwrap();
        solver.add(200 + edge, &at, 1.0, Equal, STRONG).unwrap();
    }
}

/// "a refusal at the fifth leaves half a pane": not here.
#[test]
fn a_refusal_at_the_fifth_of_nine_removals_leaves_every_table() {
    let (mut tables, mut room) = (Tables::new(), Tables::new());
    pane(&mut LentSolver::new(&mut tables, &mut room));
    for pivots in 0..EDGES {
        let before = tables.clone();
        let mut solver = LentSolver::resume(&mut tables, &mut room);
        solver.set_budget(pivots as u16);
        // the first so many removals take the budget, the next one is refused; with four it is the fifth
        assert_eq!(solver.drop_group(PANE), Err(Refusal::BudgetUsedUp));
        assert_eq!((solver.pivots(), solver.is_whole()), (pivots, true));
        assert!((1..=EDGES).all(|edge| solver.has(edge) && solver.value(Variable::from_number(edge)) == 0.0));
        assert!(tables.same_bits(&before), "a refused drop with {pivots} pivots changed a table");
        assert!(room.same_bits(&Tables::new()));
    }
    let mut solver = LentSolver::resume(&mut tables, &mut room);
    solver.set_budget(EDGES as u16);
    solver.drop_group(PANE).unwrap();
    assert_eq!((solver.pivots(), solver.is_whole()), (EDGES, true));
    assert!((1..=EDGES).all(|edge| !solver.has(edge) && solver.has(100 + edge) && solver.value(Variable::from_number(edge)) == 1.0));
    assert_eq!(solver.drop_group(PANE), Err(Refusal::EmptyGroup));
}

#[test]
fn group_0_is_refused_before_all_else() {
    let (mut tables, mut room) = (Tables::new(), Tables::new());
    let mut solver = LentSolver::new(&mut tables, &mut room);
    let nan = [Variable::from_number(1) * f64::NAN];
    assert_eq!(solver.add_in(0, 1, &nan, 0.0, Equal, REQUIRED), Err(Refusal::GroupZero));
    assert_eq!(solver.add_in(1, 1, &nan, 0.0, Equal, REQUIRED), Err(Refusal::NotFinite));
    assert_eq!(solver.drop_group(0), Err(Refusal::GroupZero));
    assert_eq!(solver.drop_group(u16::MAX), Err(Refusal::EmptyGroup));
}

#[test]
fn a_pane_closes_and_its_splitter_stays() {
    let (left, right) = (Variable::new(), Variable::new());
    let frame: Constraint = left | EQ(REQUIRED) | 0.0;
    let width: Constraint = right | GE(REQUIRED) | left + 40.0;
    let wish: Constraint = right - left | EQ(WEAK) | 200.0;
    let mut solver = Solver::new();
    solver.add_constraint(frame.clone()).unwrap();
    solver.add_constraint_in(PANE, width.clone()).unwrap();
    solver.add_constraint_in(PANE, wish.clone()).unwrap();
    assert_eq!(solver.add_constraint_in(7, wish.clone()), Err(AddConstraintError::DuplicateConstraint));
    assert_eq!(solver.add_constraint_in(0, wish.clone()), Err(AddConstraintError::InternalSolverError("group 0 is the edits' own")));
    solver.add_edit_variable(right, STRONG).unwrap();
    solver.suggest_value(right, 300.0).unwrap();

    solver.drop_group(PANE).unwrap();
    assert!(solver.has_constraint(&frame) && !solver.has_constraint(&width) && !solver.has_constraint(&wish));
    assert!(solver.has_edit_variable(&right));
    assert_eq!(solver.get_value(right), 300.0);
    // no least width any more
    solver.suggest_value(right, 10.0).unwrap();
    assert_eq!(solver.get_value(right), 10.0);
    assert_eq!(solver.drop_group(PANE), Err(Refusal::EmptyGroup));
    assert_eq!(solver.refused().map(|r| r.refusal()), Some(Refusal::EmptyGroup));
    // a constraint that was dropped can be added again, in another group
    solver.add_constraint_in(4, width.clone()).unwrap();
    assert_eq!(solver.get_value(right), 40.0);
    solver.drop_group(1).unwrap();
    assert!(!solver.has_constraint(&frame) && solver.has_constraint(&width));
}
