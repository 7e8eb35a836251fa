//! Every operator of the Rust crate and of the crate as published on the same operands: the terms in their order, the
//! coefficients and constants bit by bit, relation and strength. The order of the terms decides the solver's steps.

/// One result: its terms by the place of their variable, its constant, and what it was written as.
type Seen = (Vec<(usize, u64)>, u64, String);

macro_rules! results {
    ($name:ident, $krate:ident, $variable:expr) => {
        fn $name() -> Vec<Seen> {
            use $krate::{Constraint, Expression, Term, Variable, WeightedRelation::*};
            let vars: Vec<Variable> = (0..8).map($variable).collect();
            let place = |v: Variable| vars.iter().position(|w| *w == v).unwrap();
            let parts = |e: &Expression| (e.terms.iter().map(|t| (place(t.variable), t.coefficient.to_bits())).collect(), e.constant.to_bits());
            let mut seen: Vec<Seen> = Vec::new();
            macro_rules! sum {
                ($x:expr) => {{
                    let (terms, constant) = parts(&Expression::from($x));
                    seen.push((terms, constant, stringify!($x).to_string()));
                }};
            }
            macro_rules! demand {
                ($x:expr) => {{
                    let c: Constraint = $x;
                    let (terms, constant) = parts(c.expr());
                    seen.push((terms, constant, format!("{} {:?} {:x}", stringify!($x), c.op(), c.strength().to_bits())));
                }};
            }
            let (x, y): (Variable, Variable) = (vars[0], vars[1]);
            let (s, t): (Term, Term) = (vars[2] * 3.5, vars[3] * -0.0);
            let e = || -> Expression { vars[4] * 2.0 + vars[5] * 0.3 + 7.25 };
            let f = || -> Expression { vars[6] * -1.5 - vars[7] / 3.0 - 0.0 };
            for k in [0.0f64, -0.0, 1.5, -2.25, f64::INFINITY, 1e-300] {
                let n = k as f32;
                // with a number on either side, of either width
                sum!(x + k); sum!(k + x); sum!(x + n); sum!(n + x); sum!(x - k); sum!(k - x); sum!(x - n); sum!(n - x);
                sum!(x * k); sum!(k * x); sum!(x * n); sum!(n * x); sum!(x / k); sum!(x / n);
                sum!(s + k); sum!(k + s); sum!(s + n); sum!(n + s); sum!(s - k); sum!(k - s); sum!(s - n); sum!(n - s);
                sum!(s * k); sum!(k * s); sum!(s * n); sum!(n * s); sum!(s / k); sum!(s / n);
                sum!(t + k); sum!(t * k); sum!(t / k); sum!(k - t); sum!(k * t);
                sum!(e() + k); sum!(k + e()); sum!(e() + n); sum!(n + e()); sum!(e() - k); sum!(k - e()); sum!(e() - n); sum!(n - e());
                sum!(e() * k); sum!(k * e()); sum!(e() * n); sum!(n * e()); sum!(e() / k); sum!(e() / n);
                sum!(f() + k); sum!(f() - k); sum!(k - f()); sum!(k * f());
                demand!(x |EQ(k)| k); demand!(x |EQ(1.0)| n); demand!(s |EQ(1.0)| k); demand!(e() |LE(1.0)| k); demand!(e() |LE(1.0)| n);
                demand!(k |EQ(1.0)| x); demand!(n |EQ(1.0)| x); demand!(k |GE(1.0)| s); demand!(k |GE(1.0)| e());
            }
            sum!(x + y); sum!(x + s); sum!(s + x); sum!(x + e()); sum!(e() + x); sum!(s + t); sum!(s + e()); sum!(e() + s); sum!(e() + f());
            sum!(x - y); sum!(x - s); sum!(s - x); sum!(x - e()); sum!(e() - x); sum!(s - t); sum!(s - e()); sum!(e() - s); sum!(e() - f());
            sum!(-x); sum!(-s); sum!(-t); sum!(-e()); sum!(-f());
            demand!(x |EQ(1.0)| y); demand!(x |LE(1.0)| s); demand!(x |GE(1.0)| e()); demand!(s |EQ(1.0)| x); demand!(s |LE(1.0)| t);
            demand!(s |GE(3.0)| e()); demand!(e() |EQ(1.0)| x); demand!(e() |LE(1.0)| s); demand!(e() |GE(2.0)| f());
            seen
        }
    };
}

results!(ours, knobharbor, knobharbor::Variable::from_number);
results!(published, cassowary, |_| cassowary::Variable::new());

fn main() {
    let (ours, published) = (ours(), published());
    assert_eq!(ours.len(), published.len());
    let unlike: Vec<_> = ours.iter().zip(&published).filter(|(p, q)| p != q).collect();
    for (p, q) in &unlike {
        println!("ours {p:?}\ncrate {q:?}");
    }
    println!("{} results of operators, differences: {}", ours.len(), unlike.len());
    std::process::exit(i32::from(!unlike.is_empty()));
}
