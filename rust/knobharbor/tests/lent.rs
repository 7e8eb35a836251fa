//! The solver over lent tables: the same answers, without a heap.
use knobharbor::strength::{MEDIUM, REQUIRED, STRONG};
use knobharbor::RelationalOperator::{Equal, GreaterOrEqual, LessOrEqual};
use knobharbor::{LentSolver, Refusal, Tables, Term, Variable};

const EDGES: [Variable; 3] = [Variable::from_number(1), Variable::from_number(2), Variable::from_number(3)];

fn width(of: usize) -> [Term; 2] {
    [EDGES[of + 1] * 1.0, -EDGES[of]]
}

/// Two panes, at least 40 wide each, the second edge and the third with grips.
fn panes(solver: &mut LentSolver) -> Result<(), Refusal> {
    solver.add(1, &[EDGES[0] * 1.0], 0.0, Equal, REQUIRED)?;
    solver.add(2, &width(0), -40.0, GreaterOrEqual, REQUIRED)?;
    solver.add(3, &width(1), -40.0, GreaterOrEqual, REQUIRED)?;
    solver.add_edit(EDGES[2], STRONG)?;
    solver.add_edit(EDGES[1], MEDIUM)?;
    solver.suggest(EDGES[2], 300.0)?;
    solver.suggest(EDGES[1], 100.0)
}

#[test]
fn panes_are_laid_out_and_dragged() {
    let (mut tables, mut room) = (Tables::new(), Tables::new());
    let mut solver = LentSolver::new(&mut tables, &mut room);
    panes(&mut solver).unwrap();
    assert!(solver.is_whole() && solver.has(2) && solver.has_edit(EDGES[1]));
    assert_eq!(*solver.fetch(), [(EDGES[1], 100.0), (EDGES[2], 300.0)]);
    assert!(solver.fetch().is_empty());
    solver.suggest(EDGES[1], 290.0).unwrap();
    assert_eq!(solver.value(EDGES[1]), 260.0);
    solver.remove_edit(EDGES[1]).unwrap();
    solver.remove(3).unwrap();
    assert!(!solver.has(3) && !solver.has_edit(EDGES[1]));
}

#[test]
fn a_refusal_changes_nothing() {
    let (mut tables, mut room) = (Tables::new(), Tables::new());
    let mut solver = LentSolver::new(&mut tables, &mut room);
    panes(&mut solver).unwrap();
    assert_eq!(solver.add(4, &width(0), -30.0, LessOrEqual, REQUIRED), Err(Refusal::UnsatisfiableConstraint));
    assert_eq!(solver.add(3, &width(0), -30.0, LessOrEqual, REQUIRED), Err(Refusal::DuplicateConstraint));
    assert_eq!(solver.add(4, &[EDGES[0] * f64::NAN], 0.0, Equal, REQUIRED), Err(Refusal::NotFinite));
    assert_eq!(solver.add(4, &[EDGES[0] * 1.0; 17], 0.0, Equal, REQUIRED), Err(Refusal::TooManyTerms));
    assert_eq!(solver.remove(9), Err(Refusal::UnknownConstraint));
    solver.set_budget(0);
    assert_eq!(solver.suggest(EDGES[1], 290.0), Err(Refusal::BudgetUsedUp));
    assert_eq!((solver.value(EDGES[1]), solver.pivots(), solver.budget()), (100.0, 0, 0));
}

#[test]
fn tables_go_on_where_they_were_left() {
    let (mut tables, mut room) = (Tables::new(), Tables::new());
    panes(&mut LentSolver::new(&mut tables, &mut room)).unwrap();
    let mut snapshot = tables.clone();
    let mut solver = LentSolver::resume(&mut tables, &mut room);
    solver.suggest(EDGES[1], 200.0).unwrap();
    assert_eq!(solver.value(EDGES[1]), 200.0);
    assert_eq!(LentSolver::resume(&mut snapshot, &mut room).value(EDGES[1]), 100.0);

    let mut empty = Tables::new();
    let mut solver = LentSolver::resume(&mut empty, &mut room);
    assert_eq!(solver.suggest(EDGES[1], 1.0), Err(Refusal::TablesDoNotRead));
    solver.reset();
    assert!(solver.is_whole());
}

/// "`2*(v1 + 3) <= v2` reads as 2 v1 - v2 + 6 at most 0": the line's refusals come first, the solver's then.
#[test]
fn lines_are_added() {
    let (mut tables, mut room) = (Tables::new(), Tables::new());
    let mut solver = LentSolver::new(&mut tables, &mut room);
    solver.add_text(1, b"v1 = 5").unwrap();
    solver.add_text(2, b"2*(v1 + 3) <= v2").unwrap();
    assert!(solver.is_whole() && solver.has(1) && solver.has(2));
    assert_eq!((solver.value(EDGES[0]), solver.value(EDGES[1])), (5.0, 16.0));
    assert_eq!(solver.add_text(2, b"v1<0"), Err((Refusal::LineNotInGrammar, 3)));
    assert_eq!(solver.add_text(2, b"1048577 = v1"), Err((Refusal::LineTooLarge, 0)));
    assert_eq!(solver.add_text(2, b"v1 = 5"), Err((Refusal::DuplicateConstraint, 0)));
    assert_eq!(solver.add_text(3, b"v1 = 6"), Err((Refusal::UnsatisfiableConstraint, 0)));
    assert!(solver.is_whole() && !solver.has(3));
}
