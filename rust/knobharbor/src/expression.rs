//! Expressions and constraints, with the names and shapes of cassowary 0.3.0.
use crate::strength::REQUIRED;
use crate::{RelationalOperator, Term, Variable, WeightedRelation};
use alloc::sync::Arc;
use alloc::vec;
use alloc::vec::Vec;
use core::fmt;
use core::hash::{Hash, Hasher};

/// A sum of terms and a constant.
#[derive(Clone, Debug)]
pub struct Expression {
    /// The terms, in the order in which the solver takes them.
    pub terms: Vec<Term>,
    /// What is added to them.
    pub constant: f64,
}

impl Expression {
    /// An expression without terms.
    pub fn from_constant(v: f64) -> Expression {
        Expression { terms: Vec::new(), constant: v }
    }

    /// An expression of one term.
    pub fn from_term(term: Term) -> Expression {
        Expression { terms: vec![term], constant: 0.0 }
    }

    /// An expression of these terms and this constant.
    pub fn new(terms: Vec<Term>, constant: f64) -> Expression {
        Expression { terms, constant }
    }

    /// Multiplies the expression by minus one.
    pub fn negate(&mut self) {
        self.constant = -self.constant;
        for t in &mut self.terms {
            *t = -*t;
        }
    }
}

/// A coefficient or a constant as it stands in a sum: its sign apart, and no "1" before a variable.
fn part(f: &mut fmt::Formatter, first: bool, k: f64, name: Option<Variable>) -> fmt::Result {
    f.write_str(match (first, k.is_sign_negative()) {
        (true, true) => "-",
        (true, false) => "",
        (false, true) => " - ",
        (false, false) => " + ",
    })?;
    let size = if k.is_sign_negative() { -k } else { k };
    match name {
        Some(v) if size == 1.0 => write!(f, "v{}", v.number()),
        Some(v) => write!(f, "{}*v{}", size, v.number()),
        None => write!(f, "{size}"),
    }
}

/// The terms in their order, then the constant unless it is zero: `v2 - v1 - 40`.
impl fmt::Display for Expression {
    fn fmt(&self, f: &mut fmt::Formatter) -> fmt::Result {
        for (i, t) in self.terms.iter().enumerate() {
            part(f, i == 0, t.coefficient, Some(t.variable))?;
        }
        if self.terms.is_empty() || self.constant != 0.0 {
            part(f, self.terms.is_empty(), self.constant, None)?;
        }
        Ok(())
    }
}

impl From<f64> for Expression {
    fn from(v: f64) -> Expression {
        Expression::from_constant(v)
    }
}

impl From<Variable> for Expression {
    fn from(v: Variable) -> Expression {
        Expression::from_term(Term::new(v, 1.0))
    }
}

impl From<Term> for Expression {
    fn from(t: Term) -> Expression {
        Expression::from_term(t)
    }
}

#[derive(Debug)]
struct ConstraintData {
    expression: Expression,
    strength: f64,
    op: RelationalOperator,
}

/// A constraint: an expression related to zero, with a strength. A clone is the same constraint; two made alike are two.
#[derive(Clone, Debug)]
pub struct Constraint(Arc<ConstraintData>);

impl Constraint {
    /// The expression is `op` zero, at this strength.
    pub fn new(e: Expression, op: RelationalOperator, strength: f64) -> Constraint {
        Constraint(Arc::new(ConstraintData { expression: e, op, strength }))
    }

    /// What is related to zero.
    pub fn expr(&self) -> &Expression {
        &self.0.expression
    }

    /// How it is related to zero.
    pub fn op(&self) -> RelationalOperator {
        self.0.op
    }

    /// How much it counts; `strength::REQUIRED` or more must be met.
    pub fn strength(&self) -> f64 {
        self.0.strength
    }
}

/// `v2 - v1 - 40 >= 0, required`, with the variables by their numbers.
impl fmt::Display for Constraint {
    fn fmt(&self, f: &mut fmt::Formatter) -> fmt::Result {
        write!(f, "{} {} 0, ", self.expr(), self.op())?;
        if self.strength() >= REQUIRED {
            f.write_str("required")
        } else {
            write!(f, "at strength {}", self.strength())
        }
    }
}

impl Hash for Constraint {
    fn hash<H: Hasher>(&self, hasher: &mut H) {
        hasher.write_usize(Arc::as_ptr(&self.0) as usize);
    }
}

impl PartialEq for Constraint {
    fn eq(&self, other: &Constraint) -> bool {
        Arc::ptr_eq(&self.0, &other.0)
    }
}

impl Eq for Constraint {}

/// A constraint whose right side is not yet written.
pub struct PartialConstraint(pub(crate) Expression, pub(crate) WeightedRelation);
