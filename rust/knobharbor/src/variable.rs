//! Variables, terms and relations, with the names and shapes of cassowary 0.3.0: all that needs no heap.
use core::fmt;
use core::sync::atomic::{AtomicU32, Ordering};

static NEXT_VARIABLE: AtomicU32 = AtomicU32::new(0);

/// A variable of a layout. A copy is the same variable.
#[repr(transparent)]
#[derive(Copy, Clone, Hash, PartialEq, Eq, PartialOrd, Ord, Debug)]
pub struct Variable(u32);

impl Variable {
    /// A variable unlike every other that `new` made.
    #[allow(clippy::new_without_default)]
    pub fn new() -> Variable {
        Variable(NEXT_VARIABLE.fetch_add(1, Ordering::Relaxed))
    }

    /// The variable of this number: firmware that numbers its own edges keeps its numbers. It is the same as one that `new` made
    /// with this number, so use one of the two.
    pub const fn from_number(number: u32) -> Variable {
        Variable(number)
    }

    /// The number that the solver knows the variable by.
    pub const fn number(self) -> u32 {
        self.0
    }
}

/// A variable times a coefficient, as the archive takes it.
#[repr(C)]
#[derive(Copy, Clone, Debug)]
pub struct Term {
    /// Which variable.
    pub variable: Variable,
    /// How often it counts.
    pub coefficient: f64,
}

impl Term {
    pub(crate) const fn new(variable: Variable, coefficient: f64) -> Term {
        Term { variable, coefficient }
    }
}

/// How a constraint's sum relates to zero.
#[derive(Copy, Clone, PartialEq, Eq, Hash, PartialOrd, Ord, Debug)]
pub enum RelationalOperator {
    /// `<=`
    LessOrEqual,
    /// `==`
    Equal,
    /// `>=`
    GreaterOrEqual,
}

impl RelationalOperator {
    /// The number that the archive knows the relation by.
    pub(crate) fn kind(self) -> u32 {
        match self {
            RelationalOperator::LessOrEqual => 0,
            RelationalOperator::Equal => 1,
            RelationalOperator::GreaterOrEqual => 2,
        }
    }

    pub(crate) fn of_kind(kind: u64) -> RelationalOperator {
        match kind {
            0 => RelationalOperator::LessOrEqual,
            1 => RelationalOperator::Equal,
            _ => RelationalOperator::GreaterOrEqual,
        }
    }
}

impl fmt::Display for RelationalOperator {
    fn fmt(&self, f: &mut fmt::Formatter) -> fmt::Result {
        f.write_str(match self {
            RelationalOperator::LessOrEqual => "<=",
            RelationalOperator::Equal => "==",
            RelationalOperator::GreaterOrEqual => ">=",
        })
    }
}

/// The relation between the pipes of a constraint: `a |LE(WEAK)| b`.
#[derive(Copy, Clone, PartialEq, Debug)]
pub enum WeightedRelation {
    /// `==`, at this strength
    EQ(f64),
    /// `<=`, at this strength
    LE(f64),
    /// `>=`, at this strength
    GE(f64),
}

impl From<WeightedRelation> for (RelationalOperator, f64) {
    fn from(r: WeightedRelation) -> (RelationalOperator, f64) {
        match r {
            WeightedRelation::EQ(s) => (RelationalOperator::Equal, s),
            WeightedRelation::LE(s) => (RelationalOperator::LessOrEqual, s),
            WeightedRelation::GE(s) => (RelationalOperator::GreaterOrEqual, s),
        }
    }
}
