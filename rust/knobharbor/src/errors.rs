//! The errors of cassowary 0.3.0, by their names and cases. A refusal that has no case of its own is an `InternalSolverError`, with
//! the refusal's words; `Solver::refused` has its number. `AddEditVariableError` has this case too: the crate panics there.
use crate::{Constraint, Refusal};
use core::fmt;

macro_rules! errors {
    ($($(#[$doc:meta])* $name:ident { $($(#[$case_doc:meta])* $case:ident,)* })*) => {
        $(
            $(#[$doc])*
            #[derive(Copy, Clone, PartialEq, Eq, Hash, Debug)]
            pub enum $name {
                $($(#[$case_doc])* $case,)*
                /// Any other refusal, in words: `Refusal::words`. Nothing has changed.
                InternalSolverError(&'static str),
            }

            impl From<Refusal> for $name {
                fn from(refusal: Refusal) -> $name {
                    match refusal {
                        $(Refusal::$case => $name::$case,)*
                        other => $name::InternalSolverError(other.words()),
                    }
                }
            }

            impl fmt::Display for $name {
                fn fmt(&self, f: &mut fmt::Formatter) -> fmt::Result {
                    f.write_str(match self {
                        $($name::$case => Refusal::$case.words(),)*
                        $name::InternalSolverError(words) => words,
                    })
                }
            }

            #[cfg(feature = "std")]
            impl std::error::Error for $name {}
        )*
    };
}

errors! {
    /// Why a constraint was not added.
    AddConstraintError {
        /// The constraint is in the solver already.
        DuplicateConstraint,
        /// The constraint is required, and cannot be met together with other required ones.
        UnsatisfiableConstraint,
    }
    /// Why a constraint was not removed.
    RemoveConstraintError {
        /// The constraint is not in the solver.
        UnknownConstraint,
    }
    /// Why a variable was not made one that can be dragged.
    AddEditVariableError {
        /// The variable has an edit already.
        DuplicateEditVariable,
        /// The strength comes to `strength::REQUIRED`, which an edit cannot be.
        BadRequiredStrength,
    }
    /// Why a variable's edit was not removed.
    RemoveEditVariableError {
        /// The variable has no edit.
        UnknownEditVariable,
    }
    /// Why a variable was not dragged.
    SuggestValueError {
        /// The variable has no edit.
        UnknownEditVariable,
    }
}

/// The last changing call's refusal: its number, and the constraint that was to be added or removed.
#[derive(Clone, Debug)]
pub struct Refused {
    pub(crate) refusal: Refusal,
    pub(crate) constraint: Option<Constraint>,
}

impl Refused {
    /// Which refusal.
    pub fn refusal(&self) -> Refusal {
        self.refusal
    }

    /// The constraint that was to be added or removed; none for an edit.
    pub fn constraint(&self) -> Option<&Constraint> {
        self.constraint.as_ref()
    }
}

/// The constraint, then the refusal's words: `v1 - 6 == 0, required: the constraint cannot be met together .. (12)`.
impl fmt::Display for Refused {
    fn fmt(&self, f: &mut fmt::Formatter) -> fmt::Result {
        if let Some(constraint) = &self.constraint {
            write!(f, "{constraint}: ")?;
        }
        self.refusal.fmt(f)
    }
}

#[cfg(feature = "std")]
impl std::error::Error for Refused {}
