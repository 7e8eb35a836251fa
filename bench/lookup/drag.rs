//! Nanoseconds of a drag and fetch, through the archive and the Rust crate that it is linked with: a line for each number of
//! variables. `bench/run lookup` builds it twice, with the archive before and with this tree's, and runs the two in turn.
use knobharbor::{Constraint, Expression, RelationalOperator, Solver, Term, Variable};
use std::time::Instant;

#[path = "../black_box.rs"]
mod black_box;
use black_box::black_box;

// the least of so many batches: the cores have other work
const BATCHES: usize = 15;
const TURNS: usize = 120;

fn edge(e: u32) -> Variable {
    Variable::from_number(e)
}

fn gap(a: u32, b: u32, least: f64, op: RelationalOperator, strength: f64) -> Constraint {
    let terms = vec![Term { variable: edge(b), coefficient: 1.0 }, Term { variable: edge(a), coefficient: -1.0 }];
    Constraint::new(Expression::new(terms, -least), op, strength)
}

/// A row of panes as in bench/speed: edges that keep their least distances, and an edit on every third.
fn row(edges: u32) -> (Solver, Vec<u32>) {
    let mut s = Solver::new();
    let first = Expression::new(vec![Term { variable: edge(1), coefficient: 1.0 }], 0.0);
    s.add_constraint(Constraint::new(first, RelationalOperator::Equal, 1_001_001_000.0)).unwrap();
    for e in 2..=edges {
        s.add_constraint(gap(e - 1, e, 40.0, RelationalOperator::GreaterOrEqual, 1_001_001_000.0)).unwrap();
    }
    let edited: Vec<u32> = (2..=edges).filter(|e| e % 3 == 2).collect();
    for &e in &edited {
        s.add_edit_variable(edge(e), 1_000.0).unwrap();
        s.suggest_value(edge(e), 160.0 * f64::from(e)).unwrap();
    }
    s.fetch_changes();
    (s, edited)
}

/// Drags along the row, each by little and back.
fn drags(s: &mut Solver, edited: &[u32], turns: usize) {
    for i in 0..turns {
        let e = edited[i % edited.len()];
        s.suggest_value(edge(e), 160.0 * f64::from(e) + (i / edited.len() % 2) as f64).unwrap();
        black_box(s.fetch_changes().len());
    }
}

fn main() {
    // EDGES TURNS: so many drags and no clock, for a count of instructions
    let given: Vec<usize> = std::env::args().skip(1).map(|a| a.parse().unwrap()).collect();
    if let [edges, turns] = given[..] {
        let (mut s, edited) = row(edges as u32);
        return drags(&mut s, &edited, turns);
    }
    for edges in [6, 20, 32] {
        let (mut s, edited) = row(edges);
        let mut least = f64::MAX;
        for _ in 0..BATCHES {
            let start = Instant::now();
            drags(&mut s, &edited, TURNS);
            least = least.min(start.elapsed().as_nanos() as f64 / TURNS as f64);
        }
        println!("{} {}", edges, least);
    }
}
