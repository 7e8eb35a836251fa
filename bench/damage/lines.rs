//! The archive as a program of the text format, through its C names, with the bench's own words: a dump and a check are of the state
//! that the tables hold. With the word `held` the calls are those behind the test, but for tables that the bench's words have made unreadable.
#[path = "../format.rs"]
mod format;

mod archive;
mod held;
#[allow(dead_code)]
mod layout;
#[allow(dead_code)]
mod memory;
#[allow(dead_code)]
mod model;
#[allow(dead_code)]
mod reading;
mod state;

use archive::{ask, clip, create, fetch, show, Call, Shown, ANSWER, FETCHED};
use cassowary_patched::{Solver, State};
use format::{bits, fetched, shown, Given, Relation};
use layout::{Held, Tables, CHANGES};
use memory::{Fetches, Set, Shows};
use state::Words;

fn kind(r: Relation) -> u32 {
    match r {
        Relation::AtMost => 0,
        Relation::Equal => 1,
        Relation::AtLeast => 2,
    }
}

fn relation(kind: u64) -> Relation {
    match kind {
        0 => Relation::AtMost,
        1 => Relation::Equal,
        _ => Relation::AtLeast,
    }
}

/// Out of the places in which it is shown.
fn given(s: &Shown) -> Result<Given, u32> {
    if s.words[1] != 0 {
        return Err(s.words[1] as u32);
    }
    let terms = s.variables.iter().copied().zip(s.coefficients).take(s.words[4] as usize).collect();
    Ok(Given { relation: relation(s.words[3]), strength: s.reals[1], group: s.words[5], constant: s.reals[0], terms })
}

struct Program {
    held: bool,
    tables: Tables,
    lent: Set,
    room: Set,
    changes: Fetches,
    shows: Shows,
}

impl Program {
    /// Whether the call may be made behind the test.
    fn behind(&self) -> bool {
        self.held && reading::reads(&Held::of(&self.tables), None)
    }

    /// By the call behind the test, if there is one: where it is accepted, tables and room change places, but for a suggestion.
    fn make_behind(&mut self, call: &Call) -> Option<String> {
        let room = Tables::filled(|| 7, || 7.0);
        let a = held::make(call, self.lent.lend(&self.tables, true), self.room.lend(&room, true), call.records().as_deref())?;
        let kept = self.lent.back().expect("what is not lent stays");
        let room = self.room.back().expect("what is not lent stays");
        let in_place = held::in_place(call);
        assert!(in_place && a.number == 0 || kept.same(&self.tables, false), "tables that are only read stay, and those of a refused suggestion");
        if a.number == 0 {
            self.tables = if in_place { kept } else { room };
        }
        Some(format!("{} {} {}", a.number, a.pivots, a.whole))
    }

    fn make(&mut self, call: Call) -> String {
        if let Some(answer) = self.behind().then(|| self.make_behind(&call)).flatten() {
            return answer;
        }
        let nothing: (&[u32], &[f64]) = (&[], &[]);
        let (vars, coefs) = if let Call::Add { vars, coefs, .. } = &call { (&vars[..], &coefs[..]) } else { nothing };
        let room = Tables::filled(|| 7, || 7.0);
        let a = call.make(self.lent.lend(&self.tables, true), self.room.lend(&room, true), &mut [7; ANSWER], vars, coefs, call.records().as_deref());
        self.tables = self.lent.back().expect("what is not lent stays");
        format!("{} {} {}", a.number, a.pivots, a.whole)
    }

    fn fetch(&mut self) -> String {
        let lists = self.changes.lend(&([7; CHANGES], [7.0; CHANGES], [7; CHANGES]), true);
        let call = if self.behind() { held::fetch } else { fetch };
        let f = call(self.lent.lend(&self.tables, true), &mut [7; FETCHED], lists);
        self.tables = self.lent.back().expect("what is not lent stays");
        let (numbers, values, gone) = self.changes.back().expect("what is not lent stays");
        fetched((0..f.count as usize).map(|i| (numbers[i] as u32, Some(values[i]).filter(|_| gone[i] == 0))))
    }

    fn ask(&mut self, n: u32) -> (f64, bool, bool) {
        let call = if self.behind() { held::ask } else { ask };
        call(self.lent.lend(&self.tables, true), n)
    }

    fn show(&mut self, n: u32) -> String {
        show(self.lent.lend(&self.tables, true), n, self.shows.lend(&Shown::refused(7), true));
        shown(given(&self.shows.back().expect("what is not lent stays")))
    }

    fn change(&mut self, change: impl FnOnce(&mut State) -> bool) -> String {
        let mut state = model::state(&Words::of(&Held::of(&self.tables)));
        let found = change(&mut state);
        model::words(&state).held().lay(&mut self.tables);
        if found { "set" } else { "no" }.to_string()
    }

    fn answer(&mut self, call: format::Call) -> String {
        let held = Held::of(&self.tables);
        let call = match call {
            format::Call::Value(v) => return bits(self.ask(v).0),
            format::Call::HasConstraint(n) => return (self.ask(n).1 as u8).to_string(),
            format::Call::HasEdit(v) => return (self.ask(v).2 as u8).to_string(),
            format::Call::Show(n) => return self.show(n),
            format::Call::Fetch => return self.fetch(),
            format::Call::Create(a, b, c, w) => return bits(create(a, b, c, w)),
            format::Call::Clip(s) => return bits(clip(s)),
            format::Call::Dump => return Solver::from_state(&model::state(&Words::of(&held))).dump(),
            format::Call::Check => return if reading::reads(&held, None) { "reads" } else { "no" }.to_string(),
            format::Call::SetNext(id) => {
                return self.change(|s| {
                    s.next = id as usize;
                    true
                })
            }
            format::Call::SetCell(row, cell, value) => return self.change(|s| s.set_cell(row as usize, cell as usize, value)),
            format::Call::SetGone(first, last) => {
                return self.change(|s| {
                    s.gone = (first..=last).collect();
                    true
                })
            }
            format::Call::Reset(cutoff) => Call::Reset { cutoff },
            format::Call::Add { group, number, budget, relation, strength, constant, terms } => {
                let (vars, coefs) = terms.into_iter().unzip();
                Call::Add { group, number, vars, coefs, constant, kind: kind(relation), strength, budget }
            }
            format::Call::Remove { number, budget } => Call::Remove { number, budget },
            format::Call::Drop { group, budget } => Call::Drop { group, budget },
            format::Call::AddEdit { variable, strength, budget } => Call::AddEdit { variable, strength, budget },
            format::Call::RemoveEdit { variable, budget } => Call::RemoveEdit { variable, budget },
            format::Call::Suggest { variable, value, budget } => Call::Suggest { variable, suggestion: value, budget },
        };
        self.make(call)
    }
}

fn main() {
    let tables = Tables::filled(|| 7, || 7.0);
    let held = std::env::args().any(|a| a == "held");
    let mut program = Program { held, tables, lent: Set::new(), room: Set::new(), changes: Fetches::new(), shows: Shows::new() };
    program.make(Call::Reset { cutoff: format::USUAL_CUTOFF });
    format::serve(|call| program.answer(call));
}
