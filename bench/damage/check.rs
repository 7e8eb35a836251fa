//! One call of the archive on lent tables, held against the oracle: whether the tables read (`reading.rs`), and what the patched
//! crate's model comes to where they do (`model.rs`).
use crate::archive::{self, Answer, Call, Fetched, Shown, Term, ANSWER, FETCHED};
use crate::held;
use crate::layout::{Held, Tables, CHANGES};
use crate::memory::{Content, Fetches, Lists, Set, Shows};
use crate::model;
use crate::reading::{self, cutoff_fits, CLAUSES};
use crate::state::Words;

/// What a call is asked for beside tables that read. (Lengths of tables cannot be said through C.)
const ASKED: &[&str] = &["an add's two lists are of one length", "an add's kind is one of three"];
const KINDS: u32 = 3;

pub fn clause_names() -> Vec<&'static str> {
    CLAUSES.iter().map(|c| c.0).chain(ASKED.iter().copied()).collect()
}

pub type Difference = String;

pub struct Checker {
    tables: Set,
    room: Set,
    terms: Lists<u32, f64>,
    records: Lists<Term, u8>,
    changes: Fetches,
    shows: Shows,
    /// of a changing call, and of a fetch
    answers: Lists<u32, u32>,
    /// the clause that the oracle leaves out
    pub left_out: Option<usize>,
}

fn differ<T>(what: &str, about: &dyn std::fmt::Debug) -> Result<T, Difference> {
    Err(format!("{what}: {about:?}"))
}

/// A cell of the objective that is -0.0 is absent, and stays or goes as steps touch it; the model has no absent cells.
fn has_negative_zero(h: &Held) -> bool {
    h.objective.iter().any(|x| x.to_bits() == (-0.0f64).to_bits())
}

impl Checker {
    pub fn new(left_out: Option<usize>) -> Checker {
        Checker { tables: Set::new(), room: Set::new(), terms: Lists::new(), records: Lists::new(), changes: Fetches::new(), shows: Shows::new(), answers: Lists::new(), left_out }
    }

    /// All of these hold, but for the one that is left out.
    fn asked(&self, hold: [bool; ASKED.len()]) -> bool {
        hold.iter().enumerate().all(|(i, held)| *held || self.left_out == Some(CLAUSES.len() + i))
    }

    fn reads(&self, h: &Held) -> bool {
        reading::reads(h, self.left_out)
    }

    fn fits(&self, call: &Call) -> bool {
        match call {
            Call::Add { vars, coefs, kind, .. } => self.asked([vars.len() == coefs.len(), *kind < KINDS]),
            _ => true,
        }
    }

    /// The call with this room, against the first or the last page; the tables afterwards, or what differs.
    pub fn call(&mut self, call: &Call, t: &Tables, room: &Tables, last: bool) -> Result<(Answer, Tables), Difference> {
        let (vars, coefs): (&[u32], &[f64]) = match call {
            Call::Add { vars, coefs, .. } => (vars, coefs),
            _ => (&[], &[]),
        };
        let (lent_vars, lent_coefs) = self.terms.lend(vars, coefs, last);
        let (lent, lent_room) = (self.tables.lend(t, last), self.room.lend(room, last));
        let records = call.records();
        let lent_records = &*self.records.lend(records.as_deref().unwrap_or(&[]), &[], last).0;
        let place = self.answers.lend_arrays(&[7; ANSWER], &[7; FETCHED], last).0;
        let answer = call.make(lent, lent_room, place, lent_vars, lent_coefs, records.as_ref().map(|_| lent_records));
        let (Some(after), Some(room_after), Some(lists), Some(_), Some(_)) = (self.tables.back(), self.room.back(), self.terms.back(), self.records.back(), self.answers.back()) else {
            return differ("what is not lent changed", call);
        };
        let bits = |list: &[Term]| -> Vec<(u32, u64)> { list.iter().map(|t| (t.variable, t.coefficient.to_bits())).collect() };
        if records.is_some_and(|r| bits(&r) != bits(lent_records)) {
            return differ("an add's records changed", call);
        }
        if lists.0 != vars || !lists.1.iter().map(|x| x.to_bits()).eq(coefs.iter().map(|x| x.to_bits())) {
            return differ("an add's lists changed", call);
        }
        let lends_room = !matches!(call, Call::Reset { .. });
        if lends_room && room_after.bits().any(|b| b != 0) || !lends_room && !room_after.same(room, false) {
            return differ("the room is not all zero, or was not lent and changed", call);
        }
        self.judge(call, t, answer, &after)?;
        if reading::reads(&Held::of(t), None) {
            self.call_behind(call, t, room, last, answer, &after)?;
        }
        if let Call::Suggest { variable, suggestion, budget } = *call {
            self.drag(t, room, last, (variable, suggestion, budget), answer, &after)?;
        }
        Ok((answer, after))
    }

    /// The same call behind the test, of tables that read: the same answer; the tables stay, and the state of an accepted one is in the room;
    /// of a suggestion the tables are those that the tested one leaves.
    fn call_behind(&mut self, call: &Call, t: &Tables, room: &Tables, last: bool, answer: Answer, after: &Tables) -> Result<(), Difference> {
        let records = call.records();
        let lent_records = &*self.records.lend(records.as_deref().unwrap_or(&[]), &[], last).0;
        let (lent, lent_room) = (self.tables.lend(t, last), self.room.lend(room, last));
        let Some(got) = held::make(call, lent, lent_room, records.as_ref().map(|_| lent_records)) else { return Ok(()) };
        let (Some(kept), Some(room_after), Some(_)) = (self.tables.back(), self.room.back(), self.records.back()) else {
            return differ("behind the test: what is not lent changed", call);
        };
        let in_place = held::in_place(call);
        if got != answer || !kept.same(if in_place { after } else { t }, false) {
            return differ("behind the test: another answer, or the tables changed", &(call, got, answer));
        }
        if in_place {
            return Ok(());
        }
        let mut swapped = t.clone();
        Held::of(&room_after).lay(&mut swapped);
        if answer.number == 0 && !swapped.same(after, has_negative_zero(&Held::of(t))) {
            return differ("behind the test: the room has another state", &(call, answer));
        }
        Ok(())
    }

    /// A drag is the suggestion, whose answer and tables are given, and a fetch of what it leaves.
    fn drag(&mut self, t: &Tables, room: &Tables, last: bool, asked: (u32, f64, u16), answer: Answer, after: &Tables) -> Result<(), Difference> {
        let none = ([7; CHANGES], [7.0; CHANGES], [7; CHANGES]);
        let lists = self.changes.lend(&none, last);
        let place = self.answers.lend_arrays(&[7; ANSWER], &[7; FETCHED], last).1;
        let fetched = archive::fetch(self.tables.lend(after, last), place, lists);
        let (Some(end), Some(list)) = (self.tables.back(), self.changes.back()) else { return differ("what is not lent changed", &asked) };
        let (lent, lent_room, lists) = (self.tables.lend(t, last), self.room.lend(room, last), self.changes.lend(&none, last));
        let got = archive::drag(lent, lent_room, lists, asked);
        let (Some(dragged), Some(room_after), Some(dragged_list)) = (self.tables.back(), self.room.back(), self.changes.back()) else {
            return differ("drag: what is not lent changed", &asked);
        };
        let bits = |x: &[f64]| -> Vec<u64> { x.iter().map(|x| x.to_bits()).collect() };
        let lists_same = list.0 == dragged_list.0 && bits(&list.1) == bits(&dragged_list.1) && list.2 == dragged_list.2;
        if got != (answer, fetched) || !lists_same || !dragged.same(&end, false) || room_after.bits().any(|b| b != 0) {
            return differ("drag, and a suggestion and a fetch", &(asked, got, (answer, fetched)));
        }
        Ok(())
    }

    fn judge(&self, call: &Call, t: &Tables, answer: Answer, after: &Tables) -> Result<(), Difference> {
        let h = Held::of(t);
        let taken = match call {
            Call::Reset { .. } => true,
            _ => self.reads(&h) && self.fits(call),
        };
        if taken != (answer.number != 18) {
            return differ(if taken { "it reads, and the answer is 18" } else { "it does not read, and the answer is not 18" }, &(call, answer));
        }
        if !taken {
            let right = answer == Answer { number: 18, pivots: 0, whole: 0 } && after.same(t, false);
            return if right { Ok(()) } else { differ("18 has no pivots and no mark, and changes no table", &(call, answer)) };
        }
        let (expected, tables) = match call {
            Call::Reset { cutoff } => self.reset(*cutoff, &h, t),
            _ => model::call(&Words::of(&h), t, call),
        };
        if answer != expected {
            return differ("answer, and what the model answers", &(call, answer, expected));
        }
        if !after.same(&tables, answer.number == 0 && has_negative_zero(&h)) {
            return differ("the tables are not the model's after", &(call, answer));
        }
        Ok(())
    }

    /// "above 0 and at most 1E-6": else 24, with the stored mark if there is one, and no table changes. Any content will do.
    fn reset(&self, cutoff: f64, h: &Held, t: &Tables) -> (Answer, Tables) {
        if cutoff_fits(cutoff) {
            return (Answer { number: 0, pivots: 0, whole: 1 }, emptied(cutoff, t));
        }
        let whole = if self.reads(h) { h.whole as u32 } else { 0 };
        (Answer { number: 24, pivots: 0, whole }, t.clone())
    }

    /// The three lists hold this before.
    pub fn fetch(&mut self, t: &Tables, content: &Content, last: bool) -> Result<(Fetched, Tables), Difference> {
        let lists = self.changes.lend(content, last);
        let lent = self.tables.lend(t, last);
        let place = self.answers.lend_arrays(&[7; ANSWER], &[7; FETCHED], last).1;
        let answer = archive::fetch(lent, place, lists);
        let (Some(after), Some(got), Some(_)) = (self.tables.back(), self.changes.back(), self.answers.back()) else {
            return differ("fetch: what is not lent changed", &answer);
        };
        let h = Held::of(t);
        let taken = self.reads(&h);
        if taken != (answer.number != 18) {
            return differ("fetch: whether it reads", &(answer, taken));
        }
        let (list, tables) = if taken { model::fetch(&Words::of(&h), t) } else { (Vec::new(), t.clone()) };
        let expected = Fetched { number: if taken { 0 } else { 18 }, count: list.len() as u32 };
        let right = (0..CHANGES).all(|i| (got.0[i], got.1[i].to_bits(), got.2[i]) == listed(list.get(i)));
        if answer != expected || !right {
            return differ("fetch: the lists are not the model's", &(answer, expected, list));
        }
        if !after.same(&tables, taken && has_negative_zero(&h)) {
            return differ("fetch: the tables are not the model's", &answer);
        }
        if reading::reads(&h, None) {
            self.fetch_behind(t, content, last, answer, &got, &after)?;
        }
        Ok((answer, after))
    }

    /// The same fetch behind the test, of tables that read.
    fn fetch_behind(&mut self, t: &Tables, content: &Content, last: bool, answer: Fetched, list: &Content, after: &Tables) -> Result<(), Difference> {
        let (lists, lent) = (self.changes.lend(content, last), self.tables.lend(t, last));
        let place = self.answers.lend_arrays(&[7; ANSWER], &[7; FETCHED], last).1;
        let behind = held::fetch(lent, place, lists);
        let (Some(end), Some(got), Some(_)) = (self.tables.back(), self.changes.back(), self.answers.back()) else {
            return differ("fetch behind the test: what is not lent changed", &behind);
        };
        let entry = |c: &Content, i: usize| (c.0[i], c.1[i].to_bits(), c.2[i]);
        if behind != answer || !end.same(after, false) || (0..CHANGES).any(|i| entry(&got, i) != entry(list, i)) {
            return differ("fetch behind the test, and the public one", &(behind, answer));
        }
        Ok(())
    }

    pub fn ask(&mut self, t: &Tables, n: u32, last: bool) -> Result<(), Difference> {
        let lent = self.tables.lend(t, last);
        let (value, constraint, edit) = archive::ask(lent, n);
        let Some(after) = self.tables.back() else { return differ("queries: what is not lent changed", &n) };
        let h = Held::of(t);
        // of tables that do not read the model says nothing: a clause that is left out shows by the calls
        let really = reading::reads(&h, None);
        let expected = if really { model::ask(&Words::of(&h), n) } else { (0.0, false, false) };
        if (value.to_bits(), constraint, edit) != (expected.0.to_bits(), expected.1, expected.2) || !after.same(t, false) {
            return differ("queries, and what the model says", &(n, value, constraint, edit, expected));
        }
        if really {
            let behind = held::ask(self.tables.lend(t, last), n);
            if (behind.0.to_bits(), behind.1, behind.2) != (value.to_bits(), constraint, edit) {
                return differ("queries behind the test, and the public ones", &(n, behind, expected));
            }
        }
        Ok(())
    }

    /// The places hold this before: each is written, with zeros where there is nothing to show.
    pub fn show(&mut self, t: &Tables, n: u32, content: &Shown, last: bool) -> Result<(), Difference> {
        let (lent, places) = (self.tables.lend(t, last), self.shows.lend(content, last));
        archive::show(lent, n, places);
        let (Some(after), Some(got)) = (self.tables.back(), self.shows.back()) else { return differ("show: what is not lent changed", &n) };
        let h = Held::of(t);
        let expected = if reading::reads(&h, None) { model::show(&Words::of(&h), n) } else { Shown::refused(18) };
        if !got.same(&expected) || !after.same(t, false) {
            return differ("show, and what the model shows", &(n, got, expected));
        }
        Ok(())
    }
}

/// An entry of a fetch's list in its three places, the value by its bits; zero where there is none.
fn listed(entry: Option<&(u64, Option<f64>)>) -> (u64, u64, u8) {
    entry.map_or((0, 0, 0), |&(n, x)| (n, x.unwrap_or(0.0).to_bits(), x.is_none().into()))
}

/// "Reset": the counts, the flags and the cutoff alone are written.
fn emptied(cutoff: f64, t: &Tables) -> Tables {
    let mut out = t.clone();
    Held::empty(cutoff).lay(&mut out);
    out
}
