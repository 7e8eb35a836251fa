//! What a fetch lists: the entries themselves, and as pairs of the shape that cassowary 0.3.0 has.
use crate::archive::{Fetched, PLACES};
use crate::Variable;
use core::ops::Deref;

/// An entry of a fetch's list.
#[derive(Copy, Clone, PartialEq, Debug)]
pub enum Change {
    /// The variable has this value now.
    Moved(Variable, f64),
    /// No constraint or edit names the variable any more, or none did for a while: then its value now follows. It can be named again.
    Gone(Variable),
}

impl Change {
    /// Which variable.
    pub const fn variable(self) -> Variable {
        match self {
            Change::Moved(variable, _) | Change::Gone(variable) => variable,
        }
    }

    /// Its value: 0 for one that is gone, as `get_value` has it.
    pub const fn value(self) -> f64 {
        match self {
            Change::Moved(_, value) => value,
            Change::Gone(_) => 0.0,
        }
    }
}

impl Fetched {
    pub(crate) fn entry(&self, i: usize) -> Change {
        let variable = Variable::from_number(self.numbers[i] as u32);
        if self.gone[i] == 1 {
            Change::Gone(variable)
        } else {
            Change::Moved(variable, self.moved[i])
        }
    }

    pub(crate) fn entries(&self) -> impl Iterator<Item = Change> + '_ {
        (0..self.count).map(|i| self.entry(i))
    }

    /// One that went and is back has two entries, one after the other: the last has its value.
    pub(crate) fn pairs(&self) -> impl Iterator<Item = (Variable, f64)> + '_ {
        let last = move |i: &usize| *i + 1 == self.count || self.numbers[*i] != self.numbers[*i + 1];
        (0..self.count).filter(last).map(|i| (self.entry(i).variable(), self.entry(i).value()))
    }
}

/// What a fetch lists, by ascending variable number, gone before a value of the same variable. It derefs to a slice.
#[derive(Copy, Clone, Debug)]
pub struct Entries {
    list: [Change; PLACES],
    count: usize,
}

impl Entries {
    pub(crate) fn of(fetched: &Fetched) -> Entries {
        let mut list = [Change::Gone(Variable::from_number(0)); PLACES];
        for (place, entry) in list.iter_mut().zip(fetched.entries()) {
            *place = entry;
        }
        Entries { list, count: fetched.count }
    }
}

impl Deref for Entries {
    type Target = [Change];

    fn deref(&self) -> &[Change] {
        &self.list[..self.count]
    }
}

/// What a fetch lists as pairs, one a variable: by ascending number, with their values, 0 for one that is gone. It derefs to a slice.
#[derive(Copy, Clone, Debug)]
pub struct Changes {
    list: [(Variable, f64); PLACES],
    count: usize,
}

impl Changes {
    pub(crate) fn of(fetched: &Fetched) -> Changes {
        let mut changes = Changes { list: [(Variable::from_number(0), 0.0); PLACES], count: 0 };
        for (variable, value) in fetched.pairs() {
            changes.list[changes.count] = (variable, value);
            changes.count += 1;
        }
        changes
    }
}

impl Deref for Changes {
    type Target = [(Variable, f64)];

    fn deref(&self) -> &[(Variable, f64)] {
        &self.list[..self.count]
    }
}
