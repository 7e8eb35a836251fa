//! Lends tables of many kinds to the archive's calls, and compares what they answer and every word that they leave with an oracle
//! that has nothing of the archive. `bench/run damage TRIALS SEED`, `bench/run damage-clauses TRIALS SEED`.
mod archive;
mod breaks;
mod check;
mod craft;
mod held;
mod layout;
mod memory;
mod model;
mod random;
mod reading;
mod state;

use archive::{Call, Shown};
use check::{clause_names, Checker, Difference};
use layout::{Held, Tables, Word, CHANGES, LINE_REALS, LINE_TERMS, LINE_WORDS};
use memory::TRIAL;
use random::{Random, USUAL_CUTOFF};
use std::sync::atomic::Ordering;

#[derive(Default)]
struct Counts {
    answers: [u64; 28],
    fetches: [u64; 2],
    kinds: [[u64; 2]; KINDS.len()],
}

const KINDS: [&str; 6] = ["of a run", "a word or more changed", "made up", "made up, one thing wrong", "made up, a word or more changed", "random"];

struct Run {
    g: Random,
    checker: Checker,
    counts: Counts,
    live: Tables,
}

fn any_tables(g: &mut Random) -> Tables {
    let (mut a, mut b) = (Random(g.word()), Random(g.word()));
    Tables::filled(|| a.word(), || f64::from_bits(b.word()))
}

/// Random words: all of them, or small ones with numbers that are finite.
fn random_tables(g: &mut Random) -> Tables {
    if g.one_in(2) {
        return any_tables(g);
    }
    let most = g.pick(&[2, 3, 6, 40]);
    let (mut a, mut b) = (Random(g.word()), Random(g.word()));
    Tables::filled(|| a.below(most) as u64, || b.tame())
}

fn other_count(g: &mut Random, x: u64) -> u64 {
    match g.below(8) {
        0 => g.word(),
        1 => x ^ (1 << g.below(64)),
        2 => x.wrapping_add(1),
        3 => x.wrapping_sub(1),
        4 => x.wrapping_add(4),
        5 => g.below(300) as u64,
        6 => 0,
        _ => x ^ (1 + g.below(3) as u64),
    }
}

fn damage(g: &mut Random, t: &mut Tables) {
    let place = if g.one_in(4) { g.below(usize::MAX) } else { t.live_place(|n| g.below(n)) };
    match t.word_at(place) {
        Word::Count(x) => *x = other_count(g, *x),
        Word::Key(x) => *x = other_count(g, u64::from(*x)) as u16,
        Word::Byte(x) => *x = other_count(g, u64::from(*x)) as u8,
        Word::Number(x) => {
            *x = match g.below(8) {
                0 => f64::from_bits(g.word()),
                1 => f64::from_bits(x.to_bits() ^ (1 << g.below(64))),
                2 => g.not_finite(),
                3 => g.pick(&[0.0, -0.0, f64::MIN_POSITIVE / 2.0, f64::MAX]),
                4 => -*x,
                5 => *x + 1.0,
                _ => g.wild(),
            }
        }
    }
}

impl Run {
    fn made_up(&mut self, h: Held) -> Tables {
        let mut t = any_tables(&mut self.g);
        h.lay(&mut t);
        t
    }

    fn tables(&mut self, kind: usize) -> Tables {
        let held = if kind == 3 { breaks::broken(&mut self.g) } else { craft::state(&mut self.g).held() };
        let mut t = match kind {
            1 => self.live.clone(),
            2..=4 => self.made_up(held),
            _ => random_tables(&mut self.g),
        };
        if kind == 1 || kind == 4 {
            let many = if self.g.one_in(3) { 1 + self.g.below(6) } else { 1 };
            (0..many).for_each(|_| damage(&mut self.g, &mut t));
        }
        t
    }

    fn call(&mut self, t: &Tables) -> Result<(u32, Tables), Difference> {
        let h = Held::of(t);
        let numbers = |list: Vec<u64>| -> Vec<u32> { list.into_iter().map(|n| n as u32).collect() };
        let variables = numbers(h.variables.iter().map(|v| v.number).collect());
        let constraints = numbers(h.constraints.iter().map(|c| c.number).collect());
        let edits = numbers(h.edits.iter().map(|e| h.variables.iter().find(|v| v.place == e.variable).map_or(0, |v| v.number)).collect());
        let groups: Vec<u16> = h.constraints.iter().map(|c| c.group as u16).collect();
        let call = self.g.call(&variables, &constraints, &edits, &groups);
        let (room, last) = (any_tables(&mut self.g), self.g.one_in(2));
        let (answer, after) = self.checker.call(&call, t, &room, last)?;
        self.counts.answers[answer.number as usize] += 1;
        self.checker.ask(t, self.g.pick(&variables.iter().chain(&constraints).chain(&edits).chain(&[0, 7]).copied().collect::<Vec<_>>()), last)?;
        self.show(t, &constraints, last)?;
        Ok((answer.number, after))
    }

    fn show(&mut self, t: &Tables, constraints: &[u32], last: bool) -> Result<(), Difference> {
        let mut number = || f64::from_bits(self.g.word());
        let (reals, coefficients) = ([0.0; LINE_REALS].map(|_: f64| number()), [0.0; LINE_TERMS].map(|_: f64| number()));
        let words = [0; LINE_WORDS].map(|_: u64| self.g.word());
        let variables = [0; LINE_TERMS].map(|_: u32| self.g.word() as u32);
        let n = if constraints.is_empty() || self.g.one_in(5) { self.g.pick(&[0, 1, 7, u32::MAX]) } else { self.g.pick(constraints) };
        self.checker.show(t, n, &Shown { words, reals, variables, coefficients }, last)
    }

    fn fetch(&mut self, t: &Tables) -> Result<(u32, Tables), Difference> {
        let numbers = [0; CHANGES].map(|_: u64| self.g.word());
        let values = [0.0; CHANGES].map(|_: f64| f64::from_bits(self.g.word()));
        let gone = [0; CHANGES].map(|_: u8| self.g.word() as u8);
        let last = self.g.one_in(2);
        let (answer, after) = self.checker.fetch(t, &(numbers, values, gone), last)?;
        self.counts.fetches[(answer.number == 18) as usize] += 1;
        Ok((answer.number, after))
    }

    fn some_call(&mut self, kind: usize, t: &Tables) -> Result<Tables, Difference> {
        let (number, after) = if self.g.one_in(6) { self.fetch(t)? } else { self.call(t)? };
        self.counts.kinds[kind][(number == 18) as usize] += 1;
        Ok(after)
    }

    /// One call more on the tables of the run, which now and then begins anew; then one on tables of some other kind.
    fn trial(&mut self) -> Result<(), Difference> {
        if self.g.one_in(80) {
            let (t, room) = (any_tables(&mut self.g), any_tables(&mut self.g));
            let reset = Call::Reset { cutoff: self.g.good_cutoff() };
            self.live = self.checker.call(&reset, &t, &room, true)?.1;
        }
        let live = self.live.clone();
        self.live = self.some_call(0, &live)?;
        let kind = self.g.pick(&[1, 1, 1, 2, 2, 2, 3, 3, 3, 4, 4, 5]);
        let t = self.tables(kind);
        self.some_call(kind, &t).map(|_| ())
    }
}

fn run(trials: u64, seed: u64, left_out: Option<usize>) -> (Run, Result<(), (u64, Difference)>) {
    let mut g = Random(seed);
    let mut live = any_tables(&mut g);
    Held::empty(USUAL_CUTOFF).lay(&mut live);
    let mut run = Run { g, checker: Checker::new(left_out), counts: Counts::default(), live };
    for trial in 0..trials {
        TRIAL.store(trial, Ordering::SeqCst);
        if let Err(difference) = run.trial() {
            return (run, Err((trial, difference)));
        }
    }
    (run, Ok(()))
}

/// Every clause of the reading left out in turn: a difference is due each time.
fn clauses(trials: u64, seed: u64) -> bool {
    let mut missed = 0;
    for (i, name) in clause_names().iter().enumerate() {
        match run(trials, seed, Some(i)).1 {
            Err((trial, difference)) => println!("{name:45} trial {trial:6}: {:.90}", difference),
            Ok(()) => {
                missed += 1;
                println!("{name:45} no difference in {trials} trials");
            }
        }
    }
    println!("clauses: {}, left out without a difference: {missed}", clause_names().len());
    missed == 0
}

fn told(c: &Counts, trials: u64, seed: u64) {
    println!("trials: {trials}, seed {seed}");
    for (name, [read, not]) in KINDS.iter().zip(c.kinds) {
        println!("{name:35} accepted or refused by the rules {read:7}, 18 {not:7}");
    }
    let answers: Vec<String> = c.answers.iter().enumerate().filter(|(_, n)| **n > 0).map(|(i, n)| format!("{i}: {n}")).collect();
    println!("answers: {}; fetches of 0 and of 18: {} {}", answers.join(", "), c.fetches[0], c.fetches[1]);
}

fn main() {
    let args: Vec<String> = std::env::args().skip(1).collect();
    let number = |i: usize, other: u64| args.get(i).and_then(|s| s.parse().ok()).unwrap_or(other);
    let (trials, seed) = (number(1, 100000), number(2, 1));
    memory::tell_faults();
    if args.first().map(String::as_str) == Some("clauses") {
        std::process::exit(!clauses(trials, seed) as i32);
    }
    let (run, result) = run(trials, seed, None);
    told(&run.counts, trials, seed);
    if let Err((trial, difference)) = result {
        println!("trial {trial}: {difference}\ndifferences: 1");
        std::process::exit(1);
    }
    println!("differences: 0");
}
