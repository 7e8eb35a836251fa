//! Firmware of the trolley's screen, as it was written against cassowary 0.3.0: six panes side by side, splitters that can be
//! dragged, and every error of the crate's looked at. One line of Cargo.toml makes it a program over this crate. `tools/swap` runs it
//! with both; panes.out beside this folder has what they print.
use cassowary::strength::{MEDIUM, REQUIRED, STRONG, WEAK};
use cassowary::WeightedRelation::{EQ, GE, LE};
use cassowary::{AddConstraintError, AddEditVariableError, RemoveConstraintError, RemoveEditVariableError, SuggestValueError};
use cassowary::{Constraint, Solver, Variable};
use std::collections::HashMap;

const PANES: usize = 6;
const LEAST: [f64; PANES] = [40.0, 40.0, 60.0, 60.0, 40.0, 40.0];
const WISHED: [f64; PANES] = [160.0, 160.0, 240.0, 240.0, 120.0, 120.0];
const STARTS: [f64; PANES] = [160.0, 320.0, 560.0, 800.0, 920.0, 1040.0];

struct Screen {
    solver: Solver,
    edges: Vec<Variable>,
    shown: HashMap<Variable, f64>,
    wishes: Vec<Constraint>,
}

impl Screen {
    fn new() -> Screen {
        let edges = (0..=PANES).map(|_| Variable::new()).collect();
        Screen { solver: Solver::new(), edges, shown: HashMap::new(), wishes: Vec::new() }
    }

    fn width(&self, pane: usize) -> cassowary::Expression {
        self.edges[pane + 1] - self.edges[pane]
    }

    /// Whether the constraint is in; what stood against it is said.
    fn add(&mut self, what: &str, constraint: Constraint) -> bool {
        match self.solver.add_constraint(constraint) {
            Ok(()) => return true,
            Err(AddConstraintError::DuplicateConstraint) => println!("{}: it is there already", what),
            Err(AddConstraintError::UnsatisfiableConstraint) => println!("{}: it cannot be met", what),
            Err(AddConstraintError::InternalSolverError(why)) => println!("{}: FAULT, {}", what, why),
        }
        false
    }

    fn remove(&mut self, what: &str, constraint: &Constraint) {
        match self.solver.remove_constraint(constraint) {
            Ok(()) => println!("{}: removed", what),
            Err(RemoveConstraintError::UnknownConstraint) => println!("{}: it was not there", what),
            Err(RemoveConstraintError::InternalSolverError(why)) => println!("{}: FAULT, {}", what, why),
        }
    }

    fn grip(&mut self, edge: usize, strength: f64) {
        match self.solver.add_edit_variable(self.edges[edge], strength) {
            Ok(()) => {}
            Err(AddEditVariableError::DuplicateEditVariable) => println!("grip on edge {}: it has one", edge + 1),
            Err(fault) => println!("grip on edge {}: FAULT, {:?}", edge + 1, fault),
        }
    }

    fn release(&mut self, edge: usize) {
        match self.solver.remove_edit_variable(self.edges[edge]) {
            Ok(()) => println!("edge {}: released", edge + 1),
            Err(RemoveEditVariableError::UnknownEditVariable) => println!("edge {}: it has no grip", edge + 1),
            Err(RemoveEditVariableError::InternalSolverError(why)) => println!("edge {}: FAULT, {}", edge + 1, why),
        }
    }

    fn drag(&mut self, edge: usize, to: f64) {
        match self.solver.suggest_value(self.edges[edge], to) {
            Ok(()) => {}
            Err(SuggestValueError::UnknownEditVariable) => println!("drag of edge {}: it has no grip", edge + 1),
            Err(SuggestValueError::InternalSolverError(why)) => println!("drag of edge {}: FAULT, {}", edge + 1, why),
        }
    }

    /// Edge 1 at 0, a least and a wished width for each pane, grips on the other edges, and each at its place.
    fn lay_out(&mut self) {
        let first = self.edges[0];
        self.add("the left edge", first | EQ(REQUIRED) | 0.0);
        for i in 0..PANES {
            let least = self.width(i) | GE(REQUIRED) | LEAST[i];
            self.add("a least width", least);
        }
        for i in 0..PANES {
            let wish = self.width(i) | EQ(WEAK * if i == 2 || i == 3 { 10.0 } else { 1.0 }) | WISHED[i];
            self.wishes.push(wish.clone());
            self.add("a wished width", wish);
        }
        self.grip(PANES, STRONG);
        (1..PANES).for_each(|edge| self.grip(edge, MEDIUM));
        (1..=PANES).rev().for_each(|edge| self.drag(edge, STARTS[edge - 1]));
    }

    fn draw(&mut self, what: &str) {
        for &(edge, x) in self.solver.fetch_changes() {
            self.shown.insert(edge, x);
        }
        let at: Vec<f64> = self.edges.iter().map(|e| self.shown.get(e).map_or(0.0, |x| *x + 0.0)).collect();
        let asked: Vec<f64> = self.edges.iter().map(|e| self.solver.get_value(*e) + 0.0).collect();
        let narrow = (0..PANES).filter(|&i| at[i + 1] - at[i] < LEAST[i] - 1e-6).count();
        println!("{}: {:?}{}", what, at, if at == asked { "" } else { " (not what the solver says)" });
        if narrow > 0 {
            println!("  panes narrower than their least width: {}", narrow);
        }
    }
}

fn main() {
    let mut screen = Screen::new();
    screen.lay_out();
    screen.draw("laid out");

    screen.drag(2, 340.0);
    screen.draw("edge 3 to 340");
    screen.drag(2, 520.0);
    screen.draw("edge 3 to 520, over pane 3");
    screen.drag(2, 320.0);
    screen.draw("edge 3 back to 320");
    screen.drag(6, 900.0);
    screen.draw("the screen to 900");

    // every error, once
    let wish = screen.wishes[0].clone();
    screen.add("the wish of pane 1 again", wish.clone());
    screen.remove("the wish of pane 1", &wish);
    screen.remove("the wish of pane 1", &wish);
    screen.grip(1, MEDIUM);
    screen.grip(0, REQUIRED);
    screen.release(0);
    screen.drag(0, 10.0);
    screen.draw("after those");

    // a width that the other panes' least widths cannot leave: the firmware goes on with what it drew
    let narrow: Constraint = screen.edges[PANES] | LE(REQUIRED) | 200.0;
    screen.add("a screen of 200", narrow.clone());
    println!("  and it is {}", if screen.solver.has_constraint(&narrow) { "in the solver" } else { "not in the solver" });
    screen.draw("after a screen of 200 was refused");
    screen.drag(6, 1040.0);
    screen.draw("the screen to 1040");
}
