//! The second door: the archive's calls behind the test that their tables read as a state, for tables that nobody else can reach.
use super::{reset, show, Added, Answer, Fetched, Places, Tables, BYTES, CELLS, PLACES, REALS, WORDS};
use crate::{Refusal, Term};
use alloc::alloc::{alloc_zeroed, handle_alloc_error, Layout};
use alloc::boxed::Box;

declare_changing! {
    []
    knobharbor_held_add(
        group: u16, number: u32, terms: *const Term, count: u64, constant: f64, kind: u32, strength: f64, budget: u16
    );
    knobharbor_held_remove(number: u32, budget: u16);
    knobharbor_held_drop(group: u16, budget: u16);
    knobharbor_held_add_edit(variable: u32, strength: f64, budget: u16);
    knobharbor_held_remove_edit(variable: u32, budget: u16);
}

declare_asking! {
    knobharbor_held_value(variable: u32) -> f64;
    knobharbor_held_has_constraint(number: u32) -> bool;
    knobharbor_held_has_edit(variable: u32) -> bool;
}

// written where the state stands
declare_changing! {
    [mut]
    knobharbor_held_suggest(variable: u32, value: f64, budget: u16);
}

declare_fetching!(knobharbor_held_fetch);

/// Two sets of tables, and the lists of the last fetch.
#[repr(C)]
struct Piece {
    sets: [Tables; 2],
    fetched: Fetched,
}

impl Piece {
    /// All zero. It is zeroed where it stands: built on the stack and moved it would be written twice.
    fn zero() -> Box<Piece> {
        let layout = Layout::new::<Piece>();
        // Piece is not of size 0, and all its bits zero are numbers of its arrays.
        unsafe {
            let piece = alloc_zeroed(layout) as *mut Piece;
            if piece.is_null() {
                handle_alloc_error(layout);
            }
            Box::from_raw(piece)
        }
    }
}

/// A state, in one of two sets of tables; the other is the room of the next change. An accepted change leaves its state in the room, and
/// the two change places: nothing is copied back, and no room is cleared. A suggestion, which changes little, is written where the state
/// stands.
///
/// Its calls take for granted that the set of the state reads as a state, and hand over no set for writing, so this holds always, and
/// stands in for the test: `new` makes one by an accepted reset; a reset that is refused changes no table; an accepted change leaves the
/// room reading as a state, and only then is it the set of the state; a refused change writes to the room alone; a suggestion and a fetch
/// leave a state; a clone has the same numbers. What these calls leave is proved of the archive (docs/CLAIMS.md); that no other code writes to the sets
/// is the privacy of this module's fields.
pub struct Held {
    piece: Box<Piece>,
    /// whether the second set has the state
    second: bool,
}

// Made in the room; where it is accepted, the two sets change places.
macro_rules! change_places {
    ($f:ident, $held:expr $(, $arg:expr)*) => {{
        let mut answer: Places = [0; 3];
        let (t, w) = $held.sets();
        // The references are to whole arrays, a list's pointer is to as many elements as its length says, and t reads as a state.
        unsafe {
            $f(
                &t.words, &t.keys, &t.bytes, &t.reals, &t.values, &mut w.words, &mut w.keys, &mut w.bytes, &mut w.reals, &mut w.values,
                &mut answer $(, $arg)*
            )
        };
        $held.second ^= answer[0] == 0;
        Answer::of(answer)
    }};
}

impl Held {
    /// Empty, with this cutoff, if that is in its range.
    pub fn new(cutoff: f64) -> Result<(Held, Answer), Refusal> {
        let mut piece = Piece::zero();
        let answer = reset(&mut piece.sets[0], cutoff);
        match Refusal::of(answer.number) {
            None => Ok((Held { piece, second: false }, answer)),
            Some(refusal) => Err(refusal),
        }
    }

    /// The set that has the state.
    pub fn tables(&self) -> &Tables {
        &self.piece.sets[usize::from(self.second)]
    }

    /// The set that has the state, and the room.
    fn sets(&mut self) -> (&mut Tables, &mut Tables) {
        let [first, second] = &mut self.piece.sets;
        if self.second {
            (second, first)
        } else {
            (first, second)
        }
    }

    /// Makes the test: a constraint is shown by a tested call, which answers 18 where the tables do not read as a state, and 0 or 5
    /// where they do.
    pub fn check(&self) -> bool {
        show(self.tables(), 0).number() != Refusal::TablesDoNotRead.number()
    }

    pub fn reset(&mut self, cutoff: f64) -> Answer {
        reset(&mut self.piece.sets[usize::from(self.second)], cutoff)
    }

    pub fn add(&mut self, a: Added, budget: u16) -> Answer {
        let (terms, count) = (a.terms.as_ptr(), a.terms.len() as u64);
        change_places!(knobharbor_held_add, self, a.group, a.number, terms, count, a.constant, a.op.kind(), a.strength, budget)
    }

    pub fn remove(&mut self, number: u32, budget: u16) -> Answer {
        change_places!(knobharbor_held_remove, self, number, budget)
    }

    pub fn drop_group(&mut self, group: u16, budget: u16) -> Answer {
        change_places!(knobharbor_held_drop, self, group, budget)
    }

    pub fn add_edit(&mut self, variable: u32, strength: f64, budget: u16) -> Answer {
        change_places!(knobharbor_held_add_edit, self, variable, strength, budget)
    }

    pub fn remove_edit(&mut self, variable: u32, budget: u16) -> Answer {
        change_places!(knobharbor_held_remove_edit, self, variable, budget)
    }

    pub fn suggest(&mut self, variable: u32, value: f64, budget: u16) -> Answer {
        let (t, w) = self.sets();
        change!(knobharbor_held_suggest, t, w, variable, value, budget)
    }

    pub fn fetch(&mut self) -> &Fetched {
        let Piece { sets, fetched } = &mut *self.piece;
        fetch_into!(knobharbor_held_fetch, &mut sets[usize::from(self.second)], fetched);
        fetched
    }

    pub fn value(&self, variable: u32) -> f64 {
        ask!(knobharbor_held_value, self.tables(), variable)
    }

    pub fn has_constraint(&self, number: u32) -> bool {
        ask!(knobharbor_held_has_constraint, self.tables(), number)
    }

    pub fn has_edit(&self, variable: u32) -> bool {
        ask!(knobharbor_held_has_edit, self.tables(), variable)
    }
}

impl Clone for Held {
    /// The state alone, whole: the room may hold anything, and the lists are of a fetch that was.
    fn clone(&self) -> Held {
        let mut piece = Piece::zero();
        piece.sets[0].copy_from(self.tables());
        Held { piece, second: false }
    }
}

#[cfg(test)]
mod tests {
    use super::*;
    use crate::{USUAL_CUTOFF, USUAL_GROUP};

    #[test]
    fn the_test_is_made_of_the_set_that_has_the_state() {
        let (mut held, _) = Held::new(USUAL_CUTOFF).unwrap();
        let terms = [Term::new(crate::Variable::from_number(1), 1.0)];
        let added =
            Added { group: USUAL_GROUP, number: 1, terms: &terms, constant: -5.0, op: crate::RelationalOperator::Equal, strength: 1.0 };
        assert!(held.check() && !held.second);
        assert_eq!(held.add(added, 0).number, 0);
        assert!(held.check() && held.second && held.value(1) == 5.0);
        assert_eq!(held.remove(2, 0).number, Refusal::UnknownConstraint.number());
        assert!(held.check() && held.second && held.has_constraint(1));
        held.piece.sets[0].words = [7; WORDS];
        assert!(held.check());
        held.piece.sets[1].words[0] = 0;
        assert!(!held.check());
    }

    #[test]
    fn a_refused_cutoff_makes_none_and_changes_nothing() {
        assert_eq!(Held::new(0.0).err(), Some(Refusal::CutoffOutOfRange));
        let (mut held, _) = Held::new(USUAL_CUTOFF).unwrap();
        assert_eq!(held.add_edit(1, 1.0, 0).number, 0);
        assert_eq!(held.reset(1.0).number, Refusal::CutoffOutOfRange.number());
        assert!(held.check() && held.has_edit(1));
    }
}
