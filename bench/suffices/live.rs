//! Which variables are live, by the calls that were accepted: those that a constraint's terms or an edit name, terms near zero left out.
use crate::format::Call;
use std::collections::{BTreeMap, BTreeSet};

#[derive(Default)]
pub struct Live {
    cutoff: f64,
    /// by number: the group, and the variables of the terms that count
    constraints: BTreeMap<u32, (u16, Vec<u32>)>,
    edits: BTreeSet<u32>,
}

impl Live {
    pub fn accepted(&mut self, call: Call) {
        match call {
            Call::Reset(cutoff) => *self = Live { cutoff, ..Live::default() },
            Call::Add { group, number, terms, .. } => {
                let variables = terms.iter().filter(|t| t.1.abs() >= self.cutoff).map(|t| t.0).collect();
                self.constraints.insert(number, (group, variables));
            }
            Call::Remove { number, .. } => {
                self.constraints.remove(&number);
            }
            Call::Drop { group, .. } => self.constraints.retain(|_, c| c.0 != group),
            Call::AddEdit { variable, .. } => {
                self.edits.insert(variable);
            }
            Call::RemoveEdit { variable, .. } => {
                self.edits.remove(&variable);
            }
            _ => (),
        }
    }

    pub fn variables(&self) -> BTreeSet<u32> {
        self.constraints.values().flat_map(|c| &c.1).chain(&self.edits).copied().collect()
    }
}
