//! EDIT 20: aids of the bench, no part of the crate nor calls of document 01: the whole state as a line, whether it
//! reads as one, and the next id set.
use std::collections::{ BTreeMap, BTreeSet };
use super::{ Name, RelationalOperator, Row, Solver, Symbol, SymbolType, Variable };

fn named(s: Symbol) -> String {
    match s.type_() {
        SymbolType::Invalid => "-".to_string(),
        SymbolType::External => format!("x{}", s.0),
        SymbolType::Slack => format!("s{}", s.0),
        SymbolType::Error => format!("e{}", s.0),
        SymbolType::Dummy => format!("d{}", s.0)
    }
}

fn cells(row: &Row) -> String {
    row.cells.iter().map(|(s, v)| format!(" {}={:016x}", named(*s), v.to_bits())).collect()
}

fn with_space<I: Iterator<Item = String>>(words: I) -> String {
    words.map(|w| format!(" {}", w)).collect()
}

impl Solver {
    /// "11: next id is above 4,294,900,000" is not met by calls in reasonable time.
    pub fn set_next(&mut self, id: u32) {
        self.id_tick = id as usize;
    }

    /// Parts split by ` ; `: the next id and the fetch toggle; each variable with its symbol, old value and uses; each
    /// numbered constraint with its marker and other; each edit with these and its suggestion; each row with its symbol,
    /// constant and cells; the objective; the changed set; the gone variables that the next fetch lists.
    pub fn dump(&self) -> String {
        let mut parts = vec![format!("next {} clear {}", self.id_tick, self.should_clear_changes as u8)];
        for (v, &(old, symbol, uses)) in &self.var_data {
            parts.push(format!("var {} {} old {:016x} uses {}", v.0, named(symbol), old.to_bits(), uses));
        }
        for (name, &(_, tag)) in &self.cns {
            if let Name::Number(n) = *name {
                parts.push(format!("con {} {} {}", n, named(tag.marker), named(tag.other)));
            }
        }
        for (v, e) in &self.edits {
            parts.push(format!("edit {} {} {} last {:016x}", v.0, named(e.tag.marker), named(e.tag.other), e.constant.to_bits()));
        }
        for (s, row) in &self.rows {
            parts.push(format!("row {} {:016x} :{}", named(*s), row.constant.to_bits(), cells(row)));
        }
        parts.push(format!("obj{}", cells(&self.objective.borrow())));
        parts.push(format!("chg{}", with_space(self.changed.iter().map(|v| v.0.to_string()))));
        parts.push(format!("gone{}", with_space(self.gone.iter().map(|v| v.0.to_string()))));
        parts.join(" ; ")
    }

    /// "A state reads as one if ..."
    pub fn reads_as_one(&self) -> bool {
        let mut live = BTreeSet::new(); // the symbols of live variables and tags
        let mut all_fresh = true;
        let mut uses: BTreeMap<Variable, usize> = BTreeMap::new();
        for &(_, symbol, _) in self.var_data.values() {
            all_fresh &= symbol.type_() == SymbolType::External && live.insert(symbol.0);
        }
        for (name, &(ref c, tag)) in &self.cns {
            all_fresh &= live.insert(tag.marker.0);
            if tag.other != Symbol::invalid() {
                all_fresh &= live.insert(tag.other.0);
            }
            // "each tag's kinds are those Add gives"
            let required = !(c.strength() < ::strength::REQUIRED);
            let given = match (c.op(), required) {
                (RelationalOperator::Equal, true) => (SymbolType::Dummy, SymbolType::Invalid),
                (RelationalOperator::Equal, false) => (SymbolType::Error, SymbolType::Error),
                (_, true) => (SymbolType::Slack, SymbolType::Invalid),
                (_, false) => (SymbolType::Slack, SymbolType::Error)
            };
            let terms = &c.expr().terms;
            // EDIT 23: "no constraint with a number is in group 0"; "edits are in group 0"
            let of_edit = if let Name::EditOf(_) = *name { true } else { false };
            let fits = (tag.marker.type_(), tag.other.type_()) == given
                && of_edit == (c.group() == 0)
                && terms.len() <= 16
                && terms.iter().all(|t| t.coefficient.is_finite())
                && c.expr().constant.is_finite() // EDIT 25
                && c.strength().is_finite();
            if !fits {
                return false;
            }
            for t in terms {
                *uses.entry(t.variable).or_insert(0) += 1;
            }
            if let Name::EditOf(v) = *name {
                if !self.edits.contains_key(&v) {
                    return false;
                }
            }
        }
        let row_reads = |row: &Row| row.constant.is_finite()
            && row.cells.iter().all(|(s, v)| v.is_finite() && live.contains(&s.0) && !self.rows.contains_key(s));
        all_fresh
            && 0.0 < self.cutoff && self.cutoff <= ::GREATEST_CUTOFF // EDIT 22
            && live.iter().all(|id| 1 <= *id && *id < self.id_tick)
            && self.var_data.len() <= 32
            && self.cns.len() <= 48
            && self.rows.len() <= self.cns.len()
            && self.rows.iter().all(|(s, row)| live.contains(&s.0) && row_reads(row))
            && row_reads(&self.objective.borrow())
            && self.var_data.iter().all(|(v, d)| d.2 == uses.get(v).cloned().unwrap_or(0) && !d.0.is_infinite())
            && self.edits.iter().all(|(v, e)| e.constant.is_finite() && self.cns.contains_key(&Name::EditOf(*v)))
            // EDIT 24: one that is live again was not reported since
            && self.gone.len() <= 32
            && self.gone.iter().all(|v| self.var_data.get(v).map_or(true, |d| d.0.is_nan()))
    }
}
