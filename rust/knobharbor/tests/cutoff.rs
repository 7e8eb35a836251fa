//! The cutoff of near zero, chosen when a solver is made or reset.
use knobharbor::strength::{REQUIRED, STRONG};
use knobharbor::RelationalOperator::Equal;
use knobharbor::WeightedRelation::*;
use knobharbor::{LentSolver, Refusal, Solver, Tables, Variable, LARGEST_CUTOFF, USUAL_CUTOFF};

const LINE: Variable = Variable::from_number(1);
const SCREEN: Variable = Variable::from_number(2);

fn outside() -> [f64; 9] {
    let above = f64::from_bits(LARGEST_CUTOFF.to_bits() + 1);
    [0.0, -0.0, -USUAL_CUTOFF, f64::NAN, -f64::NAN, f64::INFINITY, f64::NEG_INFINITY, above, 1.0]
}

/// 40 km of line on 0.2 m of screen, the line's places in millimetres: 20 km stand at 0.1 m.
fn strip(solver: &mut Solver) -> f64 {
    solver.add_constraint(SCREEN | EQ(REQUIRED) | LINE * 5e-9).unwrap();
    solver.add_edit_variable(LINE, STRONG).unwrap();
    solver.suggest_value(LINE, 2e7).unwrap();
    solver.get_value(SCREEN)
}

#[test]
fn near_zero_goes_by_the_cutoff() {
    assert_eq!(strip(&mut Solver::new()), 0.0);
    assert_eq!(strip(&mut Solver::with_cutoff(1e-12).unwrap()), 0.1);
    assert_eq!(strip(&mut Solver::with_cutoff(5e-324).unwrap()), 0.1);
}

#[test]
fn a_reset_keeps_the_cutoff_and_can_change_it() {
    let mut solver = Solver::with_cutoff(1e-12).unwrap();
    assert_eq!((strip(&mut solver), solver.cutoff()), (0.1, 1e-12));
    solver.reset();
    assert_eq!((strip(&mut solver), solver.cutoff()), (0.1, 1e-12));
    solver.reset_with_cutoff(LARGEST_CUTOFF).unwrap();
    assert_eq!((strip(&mut solver), solver.cutoff()), (0.0, LARGEST_CUTOFF));
    assert_eq!(solver.clone().cutoff(), LARGEST_CUTOFF);
}

#[test]
fn a_cutoff_outside_the_range_is_refused_and_changes_nothing() {
    let mut solver = Solver::with_cutoff(1e-12).unwrap();
    strip(&mut solver);
    for cutoff in outside() {
        assert_eq!(Solver::with_cutoff(cutoff).err(), Some(Refusal::CutoffOutOfRange));
        assert_eq!(solver.reset_with_cutoff(cutoff), Err(Refusal::CutoffOutOfRange));
        assert_eq!(solver.refused().map(|r| r.refusal()), Some(Refusal::CutoffOutOfRange));
        assert_eq!((solver.pivots(), solver.is_whole(), solver.cutoff()), (0, false, 1e-12));
        assert_eq!(solver.get_value(SCREEN), 0.1);
        assert!(solver.has_edit_variable(&LINE));
    }
    solver.suggest_value(LINE, 4e7).unwrap();
    assert_eq!(solver.get_value(SCREEN), 0.2);
}

#[test]
fn lent_tables_stay_as_they_were() {
    let (mut tables, mut room) = (Tables::new(), Tables::new());
    for cutoff in outside() {
        // tables that hold no solver answer no mark
        assert_eq!(LentSolver::with_cutoff(&mut tables, &mut room, cutoff).err(), Some(Refusal::CutoffOutOfRange));
        assert_eq!(LentSolver::resume(&mut tables, &mut room).suggest(LINE, 1.0), Err(Refusal::TablesDoNotRead));
    }
    let mut solver = LentSolver::with_cutoff(&mut tables, &mut room, 1e-12).unwrap();
    solver.add(1, &[SCREEN * 1.0, LINE * -5e-9], 0.0, Equal, REQUIRED).unwrap();
    solver.add_edit(LINE, STRONG).unwrap();
    for cutoff in outside() {
        assert_eq!(solver.reset_with_cutoff(cutoff), Err(Refusal::CutoffOutOfRange));
        assert!(solver.has(1) && solver.has_edit(LINE) && !solver.is_whole());
    }
    assert!(LentSolver::with_cutoff(&mut tables, &mut room, 0.0).is_err());
    // the tables have the cutoff, so whoever goes on with them has it too
    let mut solver = LentSolver::resume(&mut tables, &mut room);
    solver.suggest(LINE, 2e7).unwrap();
    assert_eq!(solver.value(SCREEN), 0.1);
    solver.reset();
    assert!(solver.is_whole() && !solver.has(1));
    assert_eq!(solver.add(1, &[], 1e-7, Equal, REQUIRED), Err(Refusal::UnsatisfiableConstraint));
    solver.reset_with_cutoff(LARGEST_CUTOFF).unwrap();
    solver.add(1, &[], 1e-7, Equal, REQUIRED).unwrap();
}
