//! What is timed: the Rust crate's two solvers, the crate as published and the patched crate.
use crate::layouts::{Demand, Kind::*, Layout};
use knobharbor::{LentSolver, RelationalOperator, Tables};
use std::cell::RefCell;

const BUDGET: u16 = 65_535;

pub trait Engine {
    const NAME: &'static str;
    fn new(variables: u32) -> Self;
    fn add(&mut self, d: &Demand) -> bool;
    fn remove(&mut self, d: &Demand) -> bool;
    fn add_edit(&mut self, v: u32, strength: f64) -> bool;
    fn suggest(&mut self, v: u32, x: f64) -> bool;
    fn fetch(&mut self) -> usize;
    /// a suggestion and a fetch, in one call where there is one
    fn drag(&mut self, v: u32, x: f64) -> usize {
        assert!(self.suggest(v, x));
        self.fetch()
    }
    fn value(&mut self, v: u32) -> f64;
    fn has_constraint(&mut self, d: &Demand) -> bool;
    fn has_edit(&mut self, v: u32) -> bool;
}

pub fn built<E: Engine>(l: &Layout) -> E {
    let mut e = E::new(l.variables);
    let mut ok = true;
    for d in &l.demands {
        ok &= e.add(d);
    }
    for &(v, s) in &l.edits {
        ok &= e.add_edit(v, s);
    }
    for &(v, x) in &l.starts {
        ok &= e.suggest(v, x);
    }
    assert!(ok, "{}: {} refuses the layout", l.name, E::NAME);
    e
}

// ---- the Rust crate's Solver and the crate as published: the same calls, by the same names

macro_rules! engine {
    ($engine:ident, $krate:ident, $name:literal, $variable:expr $(, $one:item)?) => {
        pub struct $engine {
            solver: $krate::Solver,
            vars: Vec<$krate::Variable>,
            made: Vec<(u32, $krate::Constraint)>,
        }

        impl Engine for $engine {
            const NAME: &'static str = $name;
            fn new(variables: u32) -> $engine {
                $engine { solver: $krate::Solver::new(), vars: (0..=variables).map($variable).collect(), made: Vec::new() }
            }
            fn add(&mut self, d: &Demand) -> bool {
                use $krate::{Constraint, Expression, RelationalOperator, Term};
                let terms = d.terms.iter().map(|&(v, k)| Term { variable: self.vars[v as usize], coefficient: k }).collect();
                let op = match d.kind {
                    AtMost => RelationalOperator::LessOrEqual,
                    Equal => RelationalOperator::Equal,
                    AtLeast => RelationalOperator::GreaterOrEqual,
                };
                let c = Constraint::new(Expression::new(terms, d.constant), op, d.strength);
                let ok = self.solver.add_constraint(c.clone()).is_ok();
                self.made.push((d.number, c));
                ok
            }
            fn remove(&mut self, d: &Demand) -> bool {
                let i = self.made.iter().position(|(n, _)| *n == d.number).unwrap();
                let (_, c) = self.made.swap_remove(i);
                self.solver.remove_constraint(&c).is_ok()
            }
            fn add_edit(&mut self, v: u32, strength: f64) -> bool {
                self.solver.add_edit_variable(self.vars[v as usize], strength).is_ok()
            }
            fn suggest(&mut self, v: u32, x: f64) -> bool {
                self.solver.suggest_value(self.vars[v as usize], x).is_ok()
            }
            fn fetch(&mut self) -> usize {
                self.solver.fetch_changes().len()
            }
            $($one)?
            fn value(&mut self, v: u32) -> f64 {
                self.solver.get_value(self.vars[v as usize])
            }
            fn has_constraint(&mut self, d: &Demand) -> bool {
                let (_, c) = self.made.iter().find(|(n, _)| *n == d.number).unwrap();
                self.solver.has_constraint(c)
            }
            fn has_edit(&mut self, v: u32) -> bool {
                self.solver.has_edit_variable(&self.vars[v as usize])
            }
        }
    };
}

engine!(
    Held,
    knobharbor,
    "Solver",
    knobharbor::Variable::from_number,
    fn drag(&mut self, v: u32, x: f64) -> usize {
        self.solver.drag(self.vars[v as usize], x).unwrap().len()
    }
);
engine!(Untouched, cassowary, "untouched", |_| cassowary::Variable::new());

// ---- the Rust crate's LentSolver, over tables that stand all along, as a firmware's do

thread_local! {
    static SPARE: RefCell<Vec<Box<[Tables; 2]>>> = const { RefCell::new(Vec::new()) };
}

pub struct Lent {
    tables: Option<Box<[Tables; 2]>>,
}

impl Lent {
    fn solver(&mut self) -> LentSolver<'_> {
        let [tables, room] = &mut **self.tables.as_mut().unwrap();
        LentSolver::resume(tables, room)
    }
}

impl Drop for Lent {
    fn drop(&mut self) {
        SPARE.with(|s| s.borrow_mut().push(self.tables.take().unwrap()));
    }
}

fn named(v: u32) -> knobharbor::Variable {
    knobharbor::Variable::from_number(v)
}

impl Engine for Lent {
    const NAME: &'static str = "LentSolver";
    fn new(_: u32) -> Lent {
        let mut tables = SPARE.with(|s| s.borrow_mut().pop()).unwrap_or_else(|| Box::new([Tables::new(), Tables::new()]));
        let [t, room] = &mut *tables;
        LentSolver::new(t, room);
        Lent { tables: Some(tables) }
    }
    fn add(&mut self, d: &Demand) -> bool {
        let terms: Vec<knobharbor::Term> = d.terms.iter().map(|&(v, k)| knobharbor::Term { variable: named(v), coefficient: k }).collect();
        let op = match d.kind {
            AtMost => RelationalOperator::LessOrEqual,
            Equal => RelationalOperator::Equal,
            AtLeast => RelationalOperator::GreaterOrEqual,
        };
        self.solver().add(d.number, &terms, d.constant, op, d.strength).is_ok()
    }
    fn remove(&mut self, d: &Demand) -> bool {
        self.solver().remove(d.number).is_ok()
    }
    fn add_edit(&mut self, v: u32, strength: f64) -> bool {
        self.solver().add_edit(named(v), strength).is_ok()
    }
    fn suggest(&mut self, v: u32, x: f64) -> bool {
        self.solver().suggest(named(v), x).is_ok()
    }
    fn fetch(&mut self) -> usize {
        self.solver().fetch().len()
    }
    fn drag(&mut self, v: u32, x: f64) -> usize {
        let (dragged, changes) = self.solver().drag(named(v), x);
        assert!(dragged.is_ok());
        changes.len()
    }
    fn value(&mut self, v: u32) -> f64 {
        self.solver().value(named(v))
    }
    fn has_constraint(&mut self, d: &Demand) -> bool {
        self.solver().has(d.number)
    }
    fn has_edit(&mut self, v: u32) -> bool {
        self.solver().has_edit(named(v))
    }
}

// ---- the patched crate

pub struct Patched {
    pub solver: cassowary_patched::Solver,
}

impl Engine for Patched {
    const NAME: &'static str = "patched";
    fn new(_: u32) -> Patched {
        Patched { solver: cassowary_patched::Solver::new() }
    }
    fn add(&mut self, d: &Demand) -> bool {
        use cassowary_patched::{Constraint, Expression, Name, RelationalOperator, Term, Variable};
        let terms = d.terms.iter().map(|&(v, k)| Term::new(Variable(v), k)).collect();
        let op = match d.kind {
            AtMost => RelationalOperator::LessOrEqual,
            Equal => RelationalOperator::Equal,
            AtLeast => RelationalOperator::GreaterOrEqual,
        };
        self.solver.add_constraint(Constraint::new(Name::Number(d.number), Expression::new(terms, d.constant), op, d.strength), BUDGET).refusal == 0
    }
    fn remove(&mut self, d: &Demand) -> bool {
        self.solver.remove_constraint(d.number, BUDGET).refusal == 0
    }
    fn add_edit(&mut self, v: u32, strength: f64) -> bool {
        self.solver.add_edit_variable(cassowary_patched::Variable(v), strength, BUDGET).refusal == 0
    }
    fn suggest(&mut self, v: u32, x: f64) -> bool {
        self.solver.suggest_value(cassowary_patched::Variable(v), x, BUDGET).refusal == 0
    }
    fn fetch(&mut self) -> usize {
        self.solver.fetch_changes().len()
    }
    fn value(&mut self, v: u32) -> f64 {
        self.solver.get_value(cassowary_patched::Variable(v))
    }
    fn has_constraint(&mut self, d: &Demand) -> bool {
        self.solver.has_constraint(d.number)
    }
    fn has_edit(&mut self, v: u32) -> bool {
        self.solver.has_edit_variable(&cassowary_patched::Variable(v))
    }
}
