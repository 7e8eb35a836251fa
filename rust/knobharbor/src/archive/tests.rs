//! Tables that no run of calls comes to: 32 gone entries wait, and a variable that was told would go.
use super::*;
use crate::strength::{REQUIRED, STRONG};
use crate::RelationalOperator::Equal;
use crate::{Change, LentSolver, Refusal, Variable};

/// Where the words have how many gone entries wait, and their variables' numbers: crates/sparse/src/lib.rt.
const GONE_COUNT: usize = 9;
const GONE_NUMBERS: usize = 306;
const MOST_GONE: usize = 32;

const TOLD: Variable = Variable::from_number(1);
const HELD: Variable = Variable::from_number(2);
const NEW: Variable = Variable::from_number(3);

/// Two variables whose values were fetched, one that an edit alone names, and one that is new; and 32 gone entries that wait. No run
/// of calls comes to this: between two fetches only variables that were live at the first can make an entry.
fn crowded(tables: &mut Tables, room: &mut Tables) {
    let mut solver = LentSolver::new(tables, room);
    solver.add_in(5, 1, &[TOLD * 1.0], -7.0, Equal, REQUIRED).unwrap();
    solver.add_edit(HELD, STRONG).unwrap();
    solver.suggest(HELD, 8.0).unwrap();
    assert_eq!(*solver.fetch(), [(TOLD, 7.0), (HELD, 8.0)]);
    solver.add(2, &[NEW * 1.0], -9.0, Equal, REQUIRED).unwrap();
    tables.words[GONE_COUNT] = MOST_GONE as u64;
    for (i, number) in tables.words[GONE_NUMBERS..].iter_mut().enumerate().take(MOST_GONE) {
        *number = 100 + i as u64;
    }
}

#[test]
fn a_33rd_gone_entry_is_refused_and_changes_nothing() {
    let (mut tables, mut room) = (Tables::new(), Tables::new());
    crowded(&mut tables, &mut room);
    let before = tables.clone();
    let mut solver = LentSolver::resume(&mut tables, &mut room);
    assert_eq!(solver.remove(1), Err(Refusal::TooManyGone));
    assert_eq!((solver.pivots(), solver.is_whole()), (0, true));
    assert_eq!(solver.drop_group(5), Err(Refusal::TooManyGone));
    assert_eq!(solver.remove_edit(HELD), Err(Refusal::TooManyGone));
    assert!(tables.same_bits(&before) && room.same_bits(&Tables::new()));
    // one that was never told makes no entry
    LentSolver::resume(&mut tables, &mut room).remove(2).unwrap();
}

#[test]
fn a_fetch_tells_all_that_wait_and_makes_room() {
    let (mut tables, mut room) = (Tables::new(), Tables::new());
    crowded(&mut tables, &mut room);
    let mut solver = LentSolver::resume(&mut tables, &mut room);
    let entries = solver.fetch_entries();
    assert_eq!((entries.len(), entries[0]), (1 + MOST_GONE, Change::Moved(NEW, 9.0)));
    for (i, entry) in entries[1..].iter().enumerate() {
        assert_eq!(*entry, Change::Gone(Variable::from_number(100 + i as u32)));
    }
    solver.remove(1).unwrap();
    solver.remove_edit(HELD).unwrap();
    assert_eq!(*solver.fetch_entries(), [Change::Gone(TOLD), Change::Gone(HELD)]);
    assert!(solver.fetch_entries().is_empty());
}
