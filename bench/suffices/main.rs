//! "Changes suffice" (document 02, T-10), judged on any program's answers: a reader that is given the fetched lists alone, beside what asking every
//! live variable one by one gives. `bench/run suffices` makes the calls and runs it.
//!
//! usage: suffices SESSIONS ANSWERS [silent]
//!
//! Which variables are live is told by the calls that were accepted, not by a solver. With `silent` the gone entries are taken out of the lists,
//! as document 01's fetch had none: then differences are due, and it fails if there are none.
#[allow(dead_code)] // the calls alone are read
#[path = "../format.rs"]
mod format;
mod live;
mod reader;

use format::Call;
use live::Live;
use reader::Reader;
use std::collections::BTreeSet;

const SHOWN: usize = 3;

#[derive(Default)]
struct Counts {
    sessions: u64,
    fetches: u64,
    values: u64,
    gone: u64,
    asked: u64,
}

struct Judge {
    silent: bool,
    live: Live,
    reader: Reader,
    /// right behind a fetch: the live variables that have not been asked yet
    to_ask: Option<BTreeSet<u32>>,
    counts: Counts,
    /// the line and what differs there
    differences: Vec<(usize, String)>,
}

fn stop(line: usize, why: &str) -> ! {
    eprintln!("line {}: {}", line + 1, why);
    std::process::exit(2)
}

fn bits(word: &str) -> Option<f64> {
    u64::from_str_radix(word, 16).ok().map(f64::from_bits)
}

impl Judge {
    fn fetched(&mut self, at: usize, answer: &str) {
        let Some(list) = reader::list(answer) else { stop(at, "no list of a fetch") };
        self.counts.fetches += 1;
        self.counts.gone += list.iter().filter(|e| e.1.is_none()).count() as u64;
        self.counts.values += list.iter().filter(|e| e.1.is_some()).count() as u64;
        let silent = self.silent;
        list.iter().filter(|e| !silent || e.1.is_some()).for_each(|e| self.reader.take(e));
        let live = self.live.variables();
        if let Some(n) = self.reader.known().find(|n| !live.contains(n)) {
            self.differences.push((at, format!("the reader knows {}, which is not live", n)));
        }
        self.to_ask = Some(live);
    }

    fn asked(&mut self, at: usize, variable: u32, answer: &str) {
        let Some(value) = bits(answer) else { stop(at, "no value") };
        let Some(to_ask) = &mut self.to_ask else { return };
        to_ask.remove(&variable);
        self.counts.asked += 1;
        let held = self.reader.holds(variable);
        // "compared as numbers"
        if held != value {
            self.differences.push((at, format!("the reader holds {} for {}, and {} is asked", held, variable, value)));
        }
    }

    /// A call that may change something: what stood behind the fetch must have been asked.
    fn closed(&mut self, at: usize) {
        if let Some(n) = self.to_ask.take().and_then(|left| left.into_iter().next()) {
            stop(at, &format!("the live variable {} was not asked behind the fetch", n));
        }
    }

    fn turn(&mut self, at: usize, line: &str, answer: &str) {
        match format::read(line, false) {
            Some(Call::Value(variable)) => self.asked(at, variable, answer),
            None | Some(Call::HasConstraint(_) | Call::HasEdit(_) | Call::Create(..) | Call::Clip(_)) => (),
            Some(Call::Fetch) => {
                self.closed(at);
                self.fetched(at, answer);
            }
            Some(call) => {
                self.closed(at);
                if answer.split(' ').next() != Some("0") {
                    return; // refused
                }
                // "starts empty at reset"
                if let Call::Reset(_) = call {
                    self.reader = Reader::default();
                    self.counts.sessions += 1;
                }
                self.live.accepted(call);
            }
        }
    }
}

fn lines(path: &str) -> Vec<String> {
    std::fs::read_to_string(path).expect("a file of lines").lines().map(String::from).collect()
}

/// The session's calls up to the difference.
fn show(sessions: &[String], answers: &[String], at: usize, what: &str) {
    println!("line {}: {}", at + 1, what);
    let start = (0..=at).rev().find(|i| sessions[*i] == "reset").unwrap_or(0);
    (start..=at).filter(|i| *i == at || !sessions[*i].starts_with("value ")).for_each(|i| println!("    {}   -> {}", sessions[i], answers[i]));
}

fn main() {
    let args: Vec<String> = std::env::args().skip(1).collect();
    let silent = args.get(2).map_or(false, |a| a == "silent");
    if args.len() < 2 || args.len() > 3 || silent != (args.len() == 3) {
        eprintln!("usage: suffices SESSIONS ANSWERS [silent]");
        std::process::exit(2);
    }
    let (sessions, answers) = (lines(&args[0]), lines(&args[1]));
    if sessions.len() != answers.len() {
        stop(answers.len(), "calls and answers are not as many");
    }
    let mut judge = Judge { silent, live: Live::default(), reader: Reader::default(), to_ask: None, counts: Counts::default(), differences: Vec::new() };
    sessions.iter().zip(&answers).enumerate().for_each(|(at, (line, answer))| judge.turn(at, line, answer));
    judge.closed(sessions.len());
    let (c, differences) = (judge.counts, judge.differences);
    if silent {
        println!("differences if the lists had no gone entries: {}", differences.len());
        std::process::exit(differences.is_empty() as i32);
    }
    differences.iter().take(SHOWN).for_each(|(at, what)| show(&sessions, &answers, *at, what));
    println!("{} resets, {} calls; {} fetches with {} values and {} gone; {} values asked behind them", c.sessions, sessions.len(), c.fetches, c.values, c.gone, c.asked);
    println!("differences: {}", differences.len());
    std::process::exit(!differences.is_empty() as i32);
}
