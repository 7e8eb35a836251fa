//! The example of cassowary's documentation: two boxes in a window whose width is edited. Changed: the `use` lines, and what a Rust
//! of today would write otherwise; a suggestion's answer is looked at.
use knobharbor::strength::{MEDIUM, REQUIRED, STRONG, WEAK};
use knobharbor::WeightedRelation::*;
use knobharbor::{Solver, Variable};
use std::collections::HashMap;

fn print_changes(names: &HashMap<Variable, &'static str>, changes: &[(Variable, f64)]) {
    println!("Changes:");
    for (var, val) in changes {
        println!("{}: {}", names[var], val);
    }
}

struct Element {
    left: Variable,
    right: Variable,
}

fn main() {
    let mut names = HashMap::new();
    let window_width = Variable::new();
    names.insert(window_width, "window_width");
    let box1 = Element { left: Variable::new(), right: Variable::new() };
    names.insert(box1.left, "box1.left");
    names.insert(box1.right, "box1.right");
    let box2 = Element { left: Variable::new(), right: Variable::new() };
    names.insert(box2.left, "box2.left");
    names.insert(box2.right, "box2.right");

    let mut solver = Solver::new();
    solver
        .add_constraints(&[
            window_width | GE(REQUIRED) | 0.0,
            box1.left | EQ(REQUIRED) | 0.0,
            box2.right | EQ(REQUIRED) | window_width,
            box2.left | GE(REQUIRED) | box1.right,
            box1.left | LE(REQUIRED) | box1.right,
            box2.left | LE(REQUIRED) | box2.right,
            box1.right - box1.left | EQ(WEAK) | 50.0,
            box2.right - box2.left | EQ(WEAK) | 100.0,
        ])
        .unwrap();
    solver.add_edit_variable(window_width, STRONG).unwrap();
    solver.suggest_value(window_width, 300.0).unwrap();
    print_changes(&names, solver.fetch_changes());
    solver.suggest_value(window_width, 75.0).unwrap();
    print_changes(&names, solver.fetch_changes());
    solver.add_constraint((box1.right - box1.left) / 50.0 | EQ(MEDIUM) | (box2.right - box2.left) / 100.0).unwrap();
    print_changes(&names, solver.fetch_changes());
}
