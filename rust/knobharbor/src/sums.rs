//! The operators by which sums and constraints are written, after those of cassowary 0.3.0 (NOTICE): the order of the terms that
//! they build decides the solver's steps, so it is the crate's.
use crate::{Constraint, Expression, PartialConstraint, Term, Variable, WeightedRelation};
use alloc::vec;
use core::ops;

/// A difference is the sum with the right side's negative.
macro_rules! differences {
    ($($left:ty, $right:ty;)*) => {
        $(
            impl ops::Sub<$right> for $left {
                type Output = Expression;
                fn sub(self, other: $right) -> Expression {
                    self + -other
                }
            }
        )*
    };
}

fn one(v: Variable) -> Term {
    Term::new(v, 1.0)
}

fn with_term(mut e: Expression, t: Term) -> Expression {
    e.terms.push(t);
    e
}

fn plus(mut e: Expression, k: f64) -> Expression {
    e.constant += k;
    e
}

fn joined(mut e: Expression, mut f: Expression) -> Expression {
    e.terms.append(&mut f.terms);
    plus(e, f.constant)
}

fn each(mut e: Expression, f: impl Fn(f64) -> f64) -> Expression {
    e.constant = f(e.constant);
    for t in &mut e.terms {
        t.coefficient = f(t.coefficient);
    }
    e
}

fn related(p: PartialConstraint, right: impl Into<Expression>) -> Constraint {
    let (op, strength) = p.1.into();
    Constraint::new(p.0 - right.into(), op, strength)
}

operators! {
    BitOr, bitor {
        (k: f64, r: WeightedRelation) -> PartialConstraint = PartialConstraint(k.into(), r);
        (v: Variable, r: WeightedRelation) -> PartialConstraint = PartialConstraint(v.into(), r);
        (t: Term, r: WeightedRelation) -> PartialConstraint = PartialConstraint(t.into(), r);
        (e: Expression, r: WeightedRelation) -> PartialConstraint = PartialConstraint(e, r);
        (p: PartialConstraint, k: f64) -> Constraint = related(p, k);
        (p: PartialConstraint, v: Variable) -> Constraint = related(p, v);
        (p: PartialConstraint, t: Term) -> Constraint = related(p, t);
        (p: PartialConstraint, e: Expression) -> Constraint = related(p, e);
    }
    Add, add {
        (v: Variable, k: f64) -> Expression = one(v) + k;
        (k: f64, v: Variable) -> Expression = one(v) + k;
        (v: Variable, w: Variable) -> Expression = one(v) + one(w);
        (v: Variable, t: Term) -> Expression = one(v) + t;
        (t: Term, v: Variable) -> Expression = t + one(v);
        (v: Variable, e: Expression) -> Expression = with_term(e, one(v));
        (e: Expression, v: Variable) -> Expression = with_term(e, one(v));
        (t: Term, k: f64) -> Expression = Expression::new(vec![t], k);
        (k: f64, t: Term) -> Expression = Expression::new(vec![t], k);
        (t: Term, u: Term) -> Expression = Expression::new(vec![t, u], 0.0);
        (t: Term, e: Expression) -> Expression = with_term(e, t);
        (e: Expression, t: Term) -> Expression = with_term(e, t);
        (e: Expression, k: f64) -> Expression = plus(e, k);
        (k: f64, e: Expression) -> Expression = plus(e, k);
        (e: Expression, f: Expression) -> Expression = joined(e, f);
    }
    Mul, mul {
        (e: Expression, k: f64) -> Expression = each(e, |x| x * k);
        (k: f64, e: Expression) -> Expression = e * k;
    }
    Div, div {
        (e: Expression, k: f64) -> Expression = each(e, |x| x / k);
    }
}

differences! {
    Variable, f64;
    f64, Variable;
    Variable, Variable;
    Variable, Term;
    Term, Variable;
    Variable, Expression;
    Expression, Variable;
    Term, f64;
    f64, Term;
    Term, Term;
    Term, Expression;
    Expression, Term;
    Expression, f64;
    f64, Expression;
    Expression, Expression;
}

narrow! {
    BitOr, bitor {
        f32, WeightedRelation -> PartialConstraint;
        PartialConstraint, f32 -> Constraint;
    }
    Add, add {
        f32, Variable -> Expression;
        f32, Term -> Expression;
        f32, Expression -> Expression;
        Variable, f32 -> Expression;
        Term, f32 -> Expression;
        Expression, f32 -> Expression;
    }
    Sub, sub {
        f32, Variable -> Expression;
        f32, Term -> Expression;
        f32, Expression -> Expression;
        Variable, f32 -> Expression;
        Term, f32 -> Expression;
        Expression, f32 -> Expression;
    }
    Mul, mul {
        f32, Expression -> Expression;
        Expression, f32 -> Expression;
    }
    Div, div {
        Expression, f32 -> Expression;
    }
}

impl ops::Neg for Expression {
    type Output = Expression;
    fn neg(mut self) -> Expression {
        self.negate();
        self
    }
}
