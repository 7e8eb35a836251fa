//! What tables hold as a state that names symbols by id and kind and variables by number, and back: the form that states are made up in.
use crate::layout::{code, id_of, kind_of, Held, HeldConstraint, HeldEdit, HeldTag, HeldVariable, NONE, SPAN};

#[derive(Clone, Debug, Default)]
pub struct VariableWords {
    pub number: u64,
    pub symbol: u64,
    pub uses: u64,
    pub changed: u64,
    pub old: f64,
}

#[derive(Clone, Debug, Default)]
pub struct ConstraintWords {
    pub number: u64,
    pub group: u64,
    /// 0 at most, 1 equal, 2 at least
    pub relation: u64,
    pub constant: f64,
    pub marker: u64,
    pub other: u64,
    pub strength: f64,
    pub terms: Vec<(u64, f64)>,
}

#[derive(Clone, Debug, Default)]
pub struct EditWords {
    pub variable: u64,
    pub marker: u64,
    pub other: u64,
    pub strength: f64,
    pub suggestion: f64,
}

#[derive(Clone, Debug, Default)]
pub struct RowWords {
    pub symbol: u64,
    pub constant: f64,
    /// along the symbols, 0.0 where there is none
    pub cells: Vec<f64>,
}

#[derive(Clone, Debug, Default)]
pub struct Words {
    pub cutoff: f64,
    pub next: u64,
    pub clear: u64,
    pub whole: u64,
    pub symbols: Vec<u64>,
    pub rows: Vec<RowWords>,
    pub objective: Vec<f64>,
    pub variables: Vec<VariableWords>,
    pub gone: Vec<u64>,
    pub constraints: Vec<ConstraintWords>,
    pub edits: Vec<EditWords>,
}

impl Words {
    /// Of tables that read.
    pub fn of(h: &Held) -> Words {
        let symbol = |place: u8| h.symbols.get(usize::from(place).wrapping_sub(1)).map_or(NONE, |s| code(s.0, u64::from(s.1)));
        let number = |place: u8| h.variables.iter().find(|v| v.place == place).map_or(0, |v| v.number);
        let row = |i: usize, &(place, constant): &(u8, f64)| {
            let mut cells = vec![0.0; h.symbols.len()];
            for &(key, value) in h.cells.iter().filter(|c| usize::from(c.0) / SPAN == i + 1) {
                cells[usize::from(key) % SPAN - 1] = value;
            }
            RowWords { symbol: symbol(place), constant, cells }
        };
        let mut terms = h.terms.iter().map(|&(place, k)| (number(place), k));
        Words {
            cutoff: h.cutoff,
            next: h.next,
            clear: h.clear,
            whole: h.whole,
            symbols: h.symbols.iter().map(|s| code(s.0, u64::from(s.1))).collect(),
            rows: h.rows.iter().enumerate().map(|(i, r)| row(i, r)).collect(),
            objective: h.objective.clone(),
            variables: h
                .variables
                .iter()
                .map(|v| VariableWords { number: v.number, symbol: symbol(v.place), uses: v.uses, changed: u64::from(v.changed), old: v.old })
                .collect(),
            gone: h.gone.clone(),
            constraints: h
                .constraints
                .iter()
                .map(|c| ConstraintWords {
                    number: c.number,
                    group: c.group,
                    relation: c.relation.into(),
                    constant: c.constant,
                    marker: symbol(c.tag.marker),
                    other: symbol(c.tag.other),
                    strength: c.tag.strength,
                    terms: terms.by_ref().take(usize::from(c.count)).collect(),
                })
                .collect(),
            edits: h
                .edits
                .iter()
                .map(|e| EditWords {
                    variable: number(e.variable),
                    marker: symbol(e.tag.marker),
                    other: symbol(e.tag.other),
                    strength: e.tag.strength,
                    suggestion: e.suggestion,
                })
                .collect(),
        }
    }

    /// A symbol that is not there, and a variable, get a place that none has.
    pub fn held(&self) -> Held {
        let past = self.symbols.len() as u8 + 1;
        let live = |s: u64| self.symbols.iter().position(|x| *x == s).map_or(past, |i| i as u8 + 1);
        let other = |s: u64| if s == NONE { 0 } else { live(s) };
        let place = |n: u64| self.variables.iter().find(|v| v.number == n).map_or(past, |v| live(v.symbol));
        let tag = |marker: u64, o: u64, strength: f64| HeldTag { marker: live(marker), other: other(o), strength };
        let key = |i: usize, p: usize| ((i + 1) * SPAN + p + 1) as u16;
        Held {
            cutoff: self.cutoff,
            next: self.next,
            clear: self.clear,
            whole: self.whole,
            symbols: self.symbols.iter().map(|s| (id_of(*s), kind_of(*s) as u8)).collect(),
            rows: self.rows.iter().map(|r| (live(r.symbol), r.constant)).collect(),
            cells: self
                .rows
                .iter()
                .enumerate()
                .flat_map(|(i, r)| r.cells.iter().enumerate().filter(|(_, x)| **x != 0.0).map(move |(p, x)| (key(i, p), *x)))
                .collect(),
            objective: self.objective.clone(),
            variables: self
                .variables
                .iter()
                .map(|v| HeldVariable { number: v.number, place: live(v.symbol), uses: v.uses, changed: v.changed as u8, old: v.old })
                .collect(),
            gone: self.gone.clone(),
            constraints: self
                .constraints
                .iter()
                .map(|c| HeldConstraint { number: c.number, group: c.group, relation: c.relation as u8, constant: c.constant, tag: tag(c.marker, c.other, c.strength), count: c.terms.len() as u8 })
                .collect(),
            terms: self.constraints.iter().flat_map(|c| &c.terms).map(|&(n, k)| (place(n), k)).collect(),
            edits: self
                .edits
                .iter()
                .map(|e| HeldEdit { variable: place(e.variable), tag: tag(e.marker, e.other, e.strength), suggestion: e.suggestion })
                .collect(),
            ..Held::default()
        }
        .counted()
    }
}
