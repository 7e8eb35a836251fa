//! "A variable that goes is listed once as gone in the next fetch of either kind, unless it was never reported."
use knobharbor::strength::{REQUIRED, WEAK};
use knobharbor::Change::{Gone, Moved};
use knobharbor::RelationalOperator::Equal;
use knobharbor::{Constraint, LentSolver, Refusal, Solver, Tables, Variable, WeightedRelation::EQ};

const X: Variable = Variable::from_number(1);
const Y: Variable = Variable::from_number(2);

fn with_solver(run: impl FnOnce(&mut LentSolver) -> Result<(), Refusal>) {
    let (mut tables, mut room) = (Tables::new(), Tables::new());
    run(&mut LentSolver::new(&mut tables, &mut room)).unwrap();
}

/// The variable stands at this place, by the constraint of its number.
fn at(solver: &mut LentSolver, v: Variable, place: f64) -> Result<(), Refusal> {
    solver.add(v.number(), &[v * 1.0], -place, Equal, REQUIRED)
}

#[test]
fn one_that_goes_is_listed_once() {
    with_solver(|solver| {
        at(solver, X, 7.0)?;
        assert_eq!(*solver.fetch_entries(), [Moved(X, 7.0)]);
        solver.remove(1)?;
        assert_eq!(solver.value(X), 0.0);
        assert_eq!(*solver.fetch_entries(), [Gone(X)]);
        assert!(solver.fetch_entries().is_empty());
        // back and gone before a fetch has listed it
        at(solver, X, 0.0)?;
        solver.remove(1)?;
        assert!(solver.fetch_entries().is_empty());
        Ok(())
    });
}

#[test]
fn either_kind_of_fetch_lists_it() {
    with_solver(|solver| {
        at(solver, X, 7.0)?;
        at(solver, Y, 8.0)?;
        solver.fetch();
        solver.fetch();
        solver.remove(1)?;
        assert_eq!(*solver.fetch_entries(), [Gone(X)]);
        solver.remove(2)?;
        assert_eq!(*solver.fetch_entries(), [Gone(Y)]);
        Ok(())
    });
}

#[test]
fn one_list_by_ascending_number() {
    with_solver(|solver| {
        solver.add_edit(X, WEAK)?;
        solver.suggest(X, 7.0)?;
        at(solver, Y, 8.0)?;
        solver.fetch();
        solver.suggest(X, 6.0)?;
        solver.remove(2)?;
        assert_eq!(*solver.fetch_entries(), [Moved(X, 6.0), Gone(Y)]);
        Ok(())
    });
}

#[test]
fn one_that_is_back_is_listed_gone_first_then_with_its_value() {
    for place in [0.0, 3.0, 7.0] {
        with_solver(|solver| {
            at(solver, X, 7.0)?;
            solver.fetch();
            solver.remove(1)?;
            at(solver, X, place)?;
            assert_eq!(*solver.fetch_entries(), [Gone(X), Moved(X, place)]);
            assert!(solver.fetch_entries().is_empty());
            Ok(())
        });
    }
}

#[test]
fn gone_and_back_and_gone_is_gone() {
    with_solver(|solver| {
        at(solver, X, 7.0)?;
        solver.fetch();
        solver.remove(1)?;
        at(solver, X, 3.0)?;
        solver.remove(1)?;
        assert_eq!(*solver.fetch_entries(), [Gone(X)]);
        Ok(())
    });
}

#[test]
fn one_that_was_never_listed_is_not_told() {
    with_solver(|solver| {
        at(solver, X, 7.0)?;
        solver.remove(1)?;
        at(solver, X, 0.0)?;
        assert!(solver.fetch_entries().is_empty());
        Ok(())
    });
}

#[test]
fn a_reset_empties_what_waits() {
    with_solver(|solver| {
        at(solver, X, 7.0)?;
        solver.fetch();
        solver.remove(1)?;
        solver.reset();
        assert!(solver.fetch_entries().is_empty());
        Ok(())
    });
}

/// cassowary's shape has no word for one that is gone: it stands at 0, which is its value.
#[test]
fn pairs_have_one_that_is_gone_at_0() {
    let (x, y) = (Variable::new(), Variable::new());
    let (first, second): (Constraint, Constraint) = (x | EQ(REQUIRED) | 7.0, y | EQ(REQUIRED) | 8.0);
    let mut solver = Solver::new();
    solver.add_constraints(&[first.clone(), second.clone()]).unwrap();
    assert_eq!(solver.fetch_changes(), &[(x, 7.0), (y, 8.0)]);
    solver.remove_constraint(&first).unwrap();
    let mut before = solver.clone();
    solver.remove_constraint(&second).unwrap();
    solver.add_constraint(x | EQ(REQUIRED) | 5.0).unwrap();
    assert_eq!(solver.fetch_changes(), &[(x, 5.0), (y, 0.0)]);
    assert!(solver.fetch_entries().is_empty());
    // a snapshot has what waited when it was taken
    assert_eq!(before.fetch_entries(), &[Gone(x)]);
}
