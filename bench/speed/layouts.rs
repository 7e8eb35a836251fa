//! The layouts, as numbers that each engine takes in its own way.
#[derive(Clone, Copy)]
pub enum Kind {
    AtMost,
    Equal,
    AtLeast,
}
use Kind::*;

const REQUIRED: f64 = 1_001_001_000.0;

#[derive(Clone)]
pub struct Demand {
    pub number: u32,
    pub kind: Kind,
    pub strength: f64,
    pub constant: f64,
    pub terms: Vec<(u32, f64)>,
}

pub struct Layout {
    pub name: &'static str,
    pub variables: u32,
    pub demands: Vec<Demand>,
    pub edits: Vec<(u32, f64)>,
    pub starts: Vec<(u32, f64)>,
    /// suggestions that are made in turn, over and over
    pub drags: Vec<(u32, f64)>,
    pub extra: Demand,
}

fn demand(number: u32, kind: Kind, strength: f64, constant: f64, terms: &[(u32, f64)]) -> Demand {
    Demand { number, kind, strength, constant, terms: terms.to_vec() }
}

/// A row of panes: edges 1 to `edges`, a least width between neighbours, preferred widths, an edit on some edges.
fn panes(name: &'static str, edges: u32, edited: &[u32], preferred: u32) -> Layout {
    let mut demands = vec![demand(1, Equal, REQUIRED, 0.0, &[(1, 1.0)])];
    for e in 2..=edges {
        demands.push(demand(e, AtLeast, REQUIRED, -40.0, &[(e, 1.0), (e - 1, -1.0)]));
    }
    for e in 2..=preferred {
        demands.push(demand(100 + e, Equal, 1.0, -160.0, &[(e, 1.0), (e - 1, -1.0)]));
    }
    let edits: Vec<(u32, f64)> = edited.iter().map(|&e| (e, if e == edges { 1_000_000.0 } else { 1_000.0 })).collect();
    let starts = edited.iter().map(|&e| (e, 160.0 * f64::from(e - 1))).collect();
    let drags = edited.iter().flat_map(|&e| [(e, 160.0 * f64::from(e - 1) + 10.0), (e, 160.0 * f64::from(e - 1) + 170.0), (e, 160.0 * f64::from(e - 1))]).collect();
    Layout { name, variables: edges, demands, edits, starts, drags, extra: demand(99, AtMost, 10.0, -500.0, &[(edges, 1.0), (2, -1.0)]) }
}

pub fn all() -> [Layout; 2] {
    [panes("trolley", 7, &[2, 3, 4, 5, 6, 7], 7), panes("limits", 32, &[4, 8, 12, 16, 20, 24, 28, 30, 32], 7)]
}
