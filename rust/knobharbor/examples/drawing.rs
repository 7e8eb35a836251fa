//! Panes that open and close, drawn from what is fetched alone: the screen starts empty, takes each list in order, forgets what is gone
//! and takes what it does not know as 0. Beside it every edge is asked one by one, and has the same place.
use knobharbor::strength::{REQUIRED, STRONG, WEAK};
use knobharbor::WeightedRelation::*;
use knobharbor::{Change, Constraint, Solver, Variable};
use std::collections::BTreeMap;

/// Where each edge was last told to be.
#[derive(Default)]
struct Screen {
    edges: BTreeMap<Variable, f64>,
}

impl Screen {
    fn take(&mut self, change: Change) {
        match change {
            Change::Moved(edge, place) => self.edges.insert(edge, place),
            Change::Gone(edge) => self.edges.remove(&edge),
        };
    }

    fn place(&self, edge: Variable) -> f64 {
        *self.edges.get(&edge).unwrap_or(&0.0)
    }
}

/// One frame: the list is taken, and the edges of what is open are drawn.
fn draw(what: &str, solver: &mut Solver, screen: &mut Screen, open: &[Variable]) {
    print!("{what:<20} told");
    for change in solver.fetch_entries() {
        match change {
            Change::Moved(edge, place) => print!(" {}:{}", edge.number(), place + 0.0), // a place may be -0.0
            Change::Gone(edge) => print!(" {}:gone", edge.number()),
        }
        screen.take(*change);
    }
    print!(", drawn");
    for edge in open {
        assert_eq!(screen.place(*edge), solver.get_value(*edge));
        print!(" {}", screen.place(*edge) + 0.0);
    }
    println!();
}

/// A pane between two edges, whose constraints are a group.
fn open_pane(solver: &mut Solver, group: u16, left: Variable, right: Variable, width: f64) {
    solver.add_constraint_in(group, right | GE(REQUIRED) | left + 40.0).unwrap();
    solver.add_constraint_in(group, right - left | EQ(WEAK) | width).unwrap();
}

fn main() {
    const FIRST: u16 = 2;
    const SECOND: u16 = 3;
    let (mut solver, mut screen) = (Solver::new(), Screen::default());
    let (frame, splitter, end, marker) = (Variable::new(), Variable::new(), Variable::new(), Variable::new());
    solver.add_constraint(frame | EQ(REQUIRED) | 0.0).unwrap();
    open_pane(&mut solver, FIRST, frame, splitter, 160.0);
    open_pane(&mut solver, SECOND, splitter, end, 240.0);
    draw("two panes", &mut solver, &mut screen, &[frame, splitter, end]);

    solver.add_edit_variable(splitter, STRONG).unwrap();
    solver.suggest_value(splitter, 200.0).unwrap();
    draw("the splitter dragged", &mut solver, &mut screen, &[frame, splitter, end]);

    solver.drop_group(SECOND).unwrap();
    draw("the second closed", &mut solver, &mut screen, &[frame, splitter]);

    open_pane(&mut solver, SECOND, splitter, end, 100.0);
    let far: Constraint = marker | EQ(REQUIRED) | 120.0;
    solver.add_constraint(far.clone()).unwrap();
    draw("open, and a marker", &mut solver, &mut screen, &[frame, splitter, end, marker]);

    // gone and back at 0 before the next frame
    solver.remove_constraint(&far).unwrap();
    solver.add_constraint(marker | EQ(REQUIRED) | 0.0).unwrap();
    draw("the marker at 0", &mut solver, &mut screen, &[frame, splitter, end, marker]);
}
