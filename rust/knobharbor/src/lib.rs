//! A linear constraint solver for screen layouts, with the names and shapes of cassowary 0.3.0 and its promises proved: every call
//! ends within a pivot budget, a refused call changes nothing, and what an accepted call does is fixed bit for bit.
//!
//! Two elements side by side in a window of some width:
//!
#![cfg_attr(feature = "alloc", doc = "```")]
#![cfg_attr(not(feature = "alloc"), doc = "```ignore")]
//! use knobharbor::strength::{MEDIUM, REQUIRED, STRONG, WEAK};
//! use knobharbor::WeightedRelation::*;
//! use knobharbor::{Solver, Variable};
//!
//! let window = Variable::new();
//! let (left1, right1) = (Variable::new(), Variable::new());
//! let (left2, right2) = (Variable::new(), Variable::new());
//! let mut solver = Solver::new();
//! solver.add_constraints(&[
//!     window |GE(REQUIRED)| 0.0,
//!     left1 |EQ(REQUIRED)| 0.0,
//!     right2 |EQ(REQUIRED)| window,
//!     left2 |GE(REQUIRED)| right1,
//!     left1 |LE(REQUIRED)| right1,
//!     left2 |LE(REQUIRED)| right2,
//!     right1 - left1 |EQ(WEAK)| 50.0,
//!     right2 - left2 |EQ(WEAK)| 100.0,
//! ]).unwrap();
//! solver.add_edit_variable(window, STRONG).unwrap();
//! solver.suggest_value(window, 300.0).unwrap();
//! assert_eq!(solver.fetch_changes(), &[(window, 300.0), (right1, 50.0), (left2, 200.0), (right2, 300.0)]);
//!
//! // a refused drag leaves every value as it was
//! solver.set_budget(0);
//! assert!(solver.suggest_value(window, 75.0).is_err());
//! assert_eq!(solver.refused().unwrap().refusal(), knobharbor::Refusal::BudgetUsedUp);
//! assert_eq!(solver.get_value(window), 300.0);
//! assert!(solver.fetch_changes().is_empty());
//!
//! solver.set_budget(knobharbor::LARGEST_BUDGET);
//! solver.suggest_value(window, 75.0).unwrap();
//! solver.add_constraint((right1 - left1) / 50.0 |EQ(MEDIUM)| (right2 - left2) / 100.0).unwrap();
//! // 50ths are not exact in binary: the last digit depends on the order of the steps, which here is always the same
//! assert!((solver.get_value(right1) - 25.0).abs() < 1e-9 && (solver.get_value(left2) - 25.0).abs() < 1e-9);
//! ```
//!
//! Without the feature `alloc`, which is on by default, the crate needs no heap: [`LentSolver`] is the solver over two tables that the
//! caller lends, with the terms of a constraint as a slice, and [`Line`] is a constraint as text, read and written, also
//! in pieces, by [`CableReader`]. The crate uses nothing of `std`; the feature `std` adds
//! `std::error::Error` to its errors.
#![no_std]
#![warn(missing_docs)]
#[cfg(feature = "alloc")]
extern crate alloc;
#[cfg(feature = "std")]
extern crate std;

#[macro_use]
mod operators;

mod archive;
mod cable;
mod changes;
#[cfg(feature = "alloc")]
mod errors;
#[cfg(feature = "alloc")]
mod expression;
mod lent;
mod line;
mod refusal;
#[cfg(feature = "alloc")]
mod solver;
pub mod strength;
#[cfg(feature = "alloc")]
mod sums;
mod variable;

pub use archive::Tables;
pub use cable::CableReader;
pub use changes::{Change, Changes, Entries};
#[cfg(feature = "alloc")]
pub use errors::{AddConstraintError, AddEditVariableError, Refused, RemoveConstraintError, RemoveEditVariableError, SuggestValueError};
#[cfg(feature = "alloc")]
pub use expression::{Constraint, Expression, PartialConstraint};
pub use lent::LentSolver;
pub use line::{to_line, Line, PlainLine};
pub use refusal::Refusal;
#[cfg(feature = "alloc")]
pub use solver::Solver;
pub use variable::{RelationalOperator, Term, Variable, WeightedRelation};

/// The largest budget, and the one that a new solver has.
pub const LARGEST_BUDGET: u16 = u16::MAX;

/// The group of a constraint that is added without naming one.
pub const USUAL_GROUP: u16 = 1;

/// The cutoff of near zero that a new solver has unless another is named.
pub const USUAL_CUTOFF: f64 = 1e-8;

/// The largest cutoff that a solver takes; it takes any that is above 0 up to this one.
pub const LARGEST_CUTOFF: f64 = 1e-6;
