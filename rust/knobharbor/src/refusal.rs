//! Why a call was refused: document 01's numbers, and document 02's.
use core::fmt;

macro_rules! refusals {
    ($($(#[$doc:meta])* $name:ident = $number:literal, $words:literal;)*) => {
        /// Why a call was refused, by document 01's numbers. A refused call changed nothing.
        #[derive(Copy, Clone, PartialEq, Eq, Hash, Debug)]
        #[repr(u32)]
        pub enum Refusal {
            $($(#[$doc])* $name = $number,)*
        }

        impl Refusal {
            /// 0 is no refusal; a number that document 01 does not have would be tables that do not read.
            pub(crate) fn of(number: u32) -> Option<Refusal> {
                match number {
                    0 => None,
                    $($number => Some(Refusal::$name),)*
                    _ => Some(Refusal::TablesDoNotRead),
                }
            }

            /// The refusal in words; they are those of `include/knobharbor.h`.
            pub const fn words(self) -> &'static str {
                match self {
                    $(Refusal::$name => $words,)*
                }
            }
        }
    };
}

refusals! {
    /// A coefficient, the constant, an added constraint's strength or a suggestion is infinite or not a number.
    NotFinite = 1, "a coefficient, the constant, the strength or the suggestion is infinite or not a number";
    /// An added constraint's strength is below zero.
    NegativeStrength = 2, "the strength is negative";
    /// A constraint has at most 16 terms.
    TooManyTerms = 3, "the constraint has more than 16 terms";
    /// The constraint is in the solver.
    DuplicateConstraint = 4, "the constraint is there already";
    /// The constraint is not in the solver.
    UnknownConstraint = 5, "there is no such constraint";
    /// The variable can be dragged already.
    DuplicateEditVariable = 6, "the variable has an edit already";
    /// An edit's strength comes to required, or is not a number.
    BadRequiredStrength = 7, "an edit cannot be required";
    /// The variable cannot be dragged.
    UnknownEditVariable = 8, "the variable has no edit";
    /// A solver has at most 32 variables that a constraint or an edit names.
    TooManyVariables = 9, "there would be more than 32 variables";
    /// A solver has at most 48 constraints, edits counted.
    TooManyConstraints = 10, "there are 48 constraints already, edits counted";
    /// Some 4,294,900,000 symbols were made since the reset.
    IdsUsedUp = 11, "symbol ids are used up; a reset starts them anew";
    /// A required constraint against other required ones.
    UnsatisfiableConstraint = 12, "the constraint cannot be met together with the other required ones";
    /// A number became infinite or not a number.
    ArithmeticNotFinite = 13, "the arithmetic left the finite numbers";
    /// The call needs more pivots than its budget has.
    BudgetUsedUp = 14, "the pivot budget is used up";
    /// The crate's "The objective is unbounded".
    NoLeavingRow = 15, "an optimise pass found no row to leave: the arithmetic has lost the problem";
    /// The crate's "Dual optimise failed."
    NoEnteringSymbol = 16, "a drag found no symbol to enter: the arithmetic has lost the problem";
    /// The crate's "Failed to find leaving row."
    NoMarkerRow = 17, "a removal found no row for its marker: the arithmetic has lost it";
    /// The tables were damaged.
    TablesDoNotRead = 18, "a lent table has the wrong length or does not read as a state";
    /// A line has at most 4,096 bytes.
    LineTooLong = 19, "the line has more than 4,096 bytes";
    /// The line is no sum, relation and sum.
    LineNotInGrammar = 20, "the line is not in the grammar";
    /// Brackets go 16 levels deep.
    LineTooDeep = 21, "the line has more than 16 levels of brackets";
    /// A number of the line, or one that its numbers make, is too large.
    LineTooLarge = 22, "the line has a number above 1,048,576, or a variable above 4,294,967,295";
    /// A line has at most 16 variables.
    LineTooManyVariables = 23, "the line has more than 16 variables";
    /// A cutoff is above 0 and at most `LARGEST_CUTOFF`.
    CutoffOutOfRange = 24, "the cutoff is not above 0 and at most 1E-6";
    /// A removal or a drop would make a 33rd variable wait that is gone: a fetch tells of them all. No run of a solver's calls comes to it.
    TooManyGone = 25, "more than 32 variables that are gone would wait for a fetch";
    /// A constraint is in a group from 1 on: edits are in group 0.
    GroupZero = 26, "group 0 is the edits' own";
    /// No constraint is in the group.
    EmptyGroup = 27, "there is no constraint in the group";
    /// Over the service cable a line has at most 200 bytes, and no longer one is written.
    CableLineTooLong = 32, "the line has more than 200 bytes";
    /// The service cable was closed inside a line.
    LineUnended = 33, "the input ended inside a line";
    /// A strength is at most `strength::REQUIRED`.
    LineStrengthOutOfRange = 34, "the line's strength is above 1,001,001,000";
    /// A group is from 1 to 65,535.
    LineGroupOutOfRange = 35, "the line's group is not from 1 to 65,535";
    /// Terms that do not ascend by variable, a number that is not whole or too large, a zero coefficient, group 0.
    LineCannotSay = 36, "no line can say the constraint";
}

impl Refusal {
    /// Document 01's number.
    pub const fn number(self) -> u32 {
        self as u32
    }
}

impl fmt::Display for Refusal {
    fn fmt(&self, f: &mut fmt::Formatter) -> fmt::Result {
        write!(f, "{} ({})", self.words(), self.number())
    }
}

#[cfg(feature = "std")]
impl std::error::Error for Refusal {}
