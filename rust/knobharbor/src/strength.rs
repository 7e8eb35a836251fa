//! Strengths of constraints, as in cassowary: real numbers from 0 to `REQUIRED`.
use crate::archive;

/// From this strength on a constraint must be met.
pub const REQUIRED: f64 = 1_001_001_000.0;
/// Outweighs a thousand medium ones.
pub const STRONG: f64 = 1_000_000.0;
/// Outweighs a thousand weak ones.
pub const MEDIUM: f64 = 1_000.0;
/// The least of the four.
pub const WEAK: f64 = 1.0;

/// `a` times `STRONG`, `b` times `MEDIUM` and `c` times `WEAK`, each first multiplied by `w` and held between 0 and 1,000.
///
/// ```
/// use knobharbor::strength::{create, MEDIUM, STRONG};
/// assert_eq!(create(1.0, 2.0, 0.0, 1.0), STRONG + 2.0 * MEDIUM);
/// ```
pub fn create(a: f64, b: f64, c: f64, w: f64) -> f64 {
    archive::strength_create(a, b, c, w)
}

/// A strength held between 0 and `REQUIRED`.
///
/// ```
/// use knobharbor::strength::{clip, REQUIRED};
/// assert_eq!(clip(2e9), REQUIRED);
/// assert_eq!(clip(-1.0), 0.0);
/// ```
pub fn clip(s: f64) -> f64 {
    archive::strength_clip(s)
}
