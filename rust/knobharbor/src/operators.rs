//! The operators that build terms, and what all operators are written by, after those of cassowary 0.3.0 (NOTICE).
use crate::{Term, Variable};
use core::ops;

/// One `impl` for each line: the two sides, and what stands for them.
macro_rules! operators {
    ($($op:ident, $method:ident { $(($l:ident: $left:ty, $r:ident: $right:ty) -> $out:ty = $body:expr;)* })*) => {
        $($(
            impl ops::$op<$right> for $left {
                type Output = $out;
                fn $method(self, $r: $right) -> $out {
                    let $l = self;
                    $body
                }
            }
        )*)*
    };
}

/// An `f32` on the right, or on the left, is the `f64` of its value.
macro_rules! narrow {
    ($($op:ident, $method:ident { $($left:ident, $right:ident -> $out:ident;)* })*) => {
        $($(narrow!(@ $op $method $left, $right -> $out);)*)*
    };
    (@ $op:ident $method:ident f32, $right:ident -> $out:ident) => {
        impl ops::$op<$right> for f32 {
            type Output = $out;
            fn $method(self, other: $right) -> $out {
                f64::from(self).$method(other)
            }
        }
    };
    (@ $op:ident $method:ident $left:ident, f32 -> $out:ident) => {
        impl ops::$op<f32> for $left {
            type Output = $out;
            fn $method(self, k: f32) -> $out {
                self.$method(f64::from(k))
            }
        }
    };
}

operators! {
    Mul, mul {
        (v: Variable, k: f64) -> Term = Term::new(v, k);
        (k: f64, v: Variable) -> Term = Term::new(v, k);
        (t: Term, k: f64) -> Term = Term::new(t.variable, t.coefficient * k);
        (k: f64, t: Term) -> Term = t * k;
    }
    Div, div {
        (v: Variable, k: f64) -> Term = Term::new(v, 1.0 / k);
        (t: Term, k: f64) -> Term = Term::new(t.variable, t.coefficient / k);
    }
}

narrow! {
    Mul, mul {
        f32, Variable -> Term;
        f32, Term -> Term;
        Variable, f32 -> Term;
        Term, f32 -> Term;
    }
    Div, div {
        Variable, f32 -> Term;
        Term, f32 -> Term;
    }
}

impl ops::Neg for Variable {
    type Output = Term;
    fn neg(self) -> Term {
        Term::new(self, -1.0)
    }
}

impl ops::Neg for Term {
    type Output = Term;
    fn neg(self) -> Term {
        Term::new(self.variable, -self.coefficient)
    }
}
