//! EDIT 20: the whole state as plain numbers, out of a solver and into one. A state that no run reaches can be made from it,
//! so that calls on lent tables have a second opinion too.
use std::collections::BTreeMap;
use super::{ Constraint, Expression, Name, RelationalOperator, Row, Solver, Symbol, Term, Variable };
use super::solver_impl::{ EditInfo, Tag };

pub type Cells = Vec<(Symbol, f64)>;

#[derive(Clone, Debug)]
pub struct VariableState {
    pub number: u32,
    pub symbol: Symbol,
    pub old: f64,
    pub uses: usize,
    pub changed: bool
}

/// `other` is the invalid symbol where there is none
#[derive(Clone, Debug)]
pub struct ConstraintState {
    pub number: u32,
    pub group: u64,
    pub op: RelationalOperator,
    pub strength: f64,
    pub constant: f64,
    pub terms: Vec<(u32, f64)>,
    pub marker: Symbol,
    pub other: Symbol
}

#[derive(Clone, Debug)]
pub struct EditState {
    pub variable: u32,
    pub strength: f64,
    pub marker: Symbol,
    pub other: Symbol,
    pub suggestion: f64
}

#[derive(Clone, Debug)]
pub struct RowState {
    pub symbol: Symbol,
    pub constant: f64,
    pub cells: Cells
}

#[derive(Clone, Debug)]
pub struct State {
    pub cutoff: f64,
    pub next: usize,
    pub clear: bool,
    pub whole: bool,
    pub variables: Vec<VariableState>,
    pub gone: Vec<u32>,
    pub constraints: Vec<ConstraintState>,
    pub edits: Vec<EditState>,
    pub rows: Vec<RowState>,
    pub objective: Cells
}

impl State {
    /// The symbols of the live variables and tags, by ascending id.
    pub fn live(&self) -> Vec<Symbol> {
        let mut out: Vec<Symbol> = self.variables.iter().map(|v| v.symbol).collect();
        out.extend(self.constraints.iter().flat_map(|c| vec![c.marker, c.other]));
        out.extend(self.edits.iter().flat_map(|e| vec![e.marker, e.other]));
        out.retain(|s| *s != Symbol::invalid());
        out.sort();
        out
    }

    /// A row's cell by the ids, 0 for the objective and for the constant. False if there is none such.
    pub fn set_cell(&mut self, row: usize, cell: usize, value: f64) -> bool {
        let symbol = self.live().into_iter().find(|s| s.0 == cell);
        if row == 0 {
            return symbol.map(|s| put(&mut self.objective, s, value)).is_some();
        }
        match (self.rows.iter_mut().find(|r| r.symbol.0 == row), symbol) {
            (Some(r), Some(s)) => put(&mut r.cells, s, value),
            (Some(r), None) if cell == 0 => r.constant = value,
            _ => return false
        }
        true
    }
}

// "A row holds a symbol if its cell isn't 0.0."
fn put(cells: &mut Cells, s: Symbol, value: f64) {
    cells.retain(|c| c.0 != s);
    if value != 0.0 {
        cells.push((s, value));
        cells.sort_by_key(|c| c.0);
    }
}

fn cells_of(row: &Row) -> Cells {
    row.cells.iter().map(|(s, v)| (*s, *v)).collect()
}

fn stored(name: Name, op: RelationalOperator, strength: f64, constant: f64, terms: &[(u32, f64)]) -> Constraint {
    let terms = terms.iter().map(|&(v, k)| Term::new(Variable(v), k)).collect();
    Constraint::new(name, Expression::new(terms, constant), op, strength)
}

impl Solver {
    pub fn state(&self) -> State {
        let constraints = self.cns.iter().filter_map(|(name, &(ref c, tag))| match *name {
            Name::Number(number) => Some(ConstraintState {
                number: number,
                group: c.group(),
                op: c.op(),
                strength: c.strength(),
                constant: c.expr().constant,
                terms: c.expr().terms.iter().map(|t| (t.variable.0, t.coefficient)).collect(),
                marker: tag.marker,
                other: tag.other
            }),
            Name::EditOf(_) => None
        }).collect();
        State {
            cutoff: self.cutoff,
            next: self.id_tick,
            clear: self.should_clear_changes,
            whole: self.whole,
            variables: self.var_data.iter().map(|(v, &(old, symbol, uses))| VariableState { number: v.0, symbol: symbol, old: old, uses: uses, changed: self.changed.contains(v) }).collect(),
            gone: self.gone.iter().map(|v| v.0).collect(),
            constraints: constraints,
            edits: self.edits.iter().map(|(v, e)| EditState { variable: v.0, strength: e.constraint.strength(), marker: e.tag.marker, other: e.tag.other, suggestion: e.constant }).collect(),
            rows: self.rows.iter().map(|(s, r)| RowState { symbol: *s, constant: r.constant, cells: cells_of(r) }).collect(),
            objective: cells_of(&self.objective.borrow())
        }
    }

    pub fn from_state(s: &State) -> Solver {
        let mut out = Solver::new();
        out.reset(s.cutoff);
        out.id_tick = s.next;
        out.should_clear_changes = s.clear;
        out.whole = s.whole;
        for v in &s.variables {
            out.var_data.insert(Variable(v.number), (v.old, v.symbol, v.uses));
            out.var_for_symbol.insert(v.symbol, Variable(v.number));
            if v.changed {
                out.changed.insert(Variable(v.number));
            }
        }
        out.gone.extend(s.gone.iter().map(|n| Variable(*n)));
        for c in &s.constraints {
            let name = Name::Number(c.number);
            out.cns.insert(name, (stored(name, c.op, c.strength, c.constant, &c.terms).in_group(c.group), Tag { marker: c.marker, other: c.other }));
        }
        for e in &s.edits {
            let name = Name::EditOf(Variable(e.variable));
            let (c, tag) = (stored(name, RelationalOperator::Equal, e.strength, 0.0, &[(e.variable, 1.0)]), Tag { marker: e.marker, other: e.other });
            out.cns.insert(name, (c.clone(), tag));
            out.edits.insert(Variable(e.variable), EditInfo { tag: tag, constraint: c, constant: e.suggestion });
        }
        for r in &s.rows {
            let mut row = Row::new(r.constant, s.cutoff);
            row.cells = r.cells.iter().cloned().collect::<BTreeMap<_, _>>();
            out.rows.insert(r.symbol, Box::new(row));
        }
        out.objective.borrow_mut().cells = s.objective.iter().cloned().collect();
        out
    }
}
