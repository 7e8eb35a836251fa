//! Kiwi, the solver in C++, through Python's python3-kiwisolver where that is installed: kiwi.py is handed the layouts, and times what it is asked to.
use crate::layouts::{Demand, Kind, Layout};
use std::fmt::Write as _;
use std::io::{BufRead, BufReader, Write};
use std::process::{Child, ChildStdin, ChildStdout, Command, Stdio};

pub struct Kiwi {
    child: Child,
    asked: ChildStdin,
    answers: BufReader<ChildStdout>,
    /// its version
    pub name: String,
}

fn said(d: &Demand) -> String {
    let kind = match d.kind {
        Kind::AtMost => "<=",
        Kind::Equal => "==",
        Kind::AtLeast => ">=",
    };
    let mut s = format!("{kind} {:?} {:?}", d.strength, d.constant);
    for (v, k) in &d.terms {
        write!(s, " {v}:{k:?}").unwrap();
    }
    s
}

fn told(l: &Layout) -> String {
    let mut s = format!("layout {}\n", l.name);
    for d in &l.demands {
        writeln!(s, "demand {}", said(d)).unwrap();
    }
    for (word, pairs) in [("edit", &l.edits), ("start", &l.starts), ("drag", &l.drags)] {
        for (v, x) in pairs {
            writeln!(s, "{word} {v} {x:?}").unwrap();
        }
    }
    writeln!(s, "extra {}", said(&l.extra)).unwrap();
    s
}

impl Kiwi {
    /// None where no Python of this machine has it.
    pub fn start(script: &str, layouts: &[Layout]) -> Option<Kiwi> {
        ["python3", "/usr/bin/python3"].into_iter().find_map(|python| Kiwi::of(python, script, layouts))
    }

    fn of(python: &str, script: &str, layouts: &[Layout]) -> Option<Kiwi> {
        let mut child = Command::new(python).arg(script).stdin(Stdio::piped()).stdout(Stdio::piped()).stderr(Stdio::null()).spawn().ok()?;
        let asked = child.stdin.take()?;
        let mut answers = BufReader::new(child.stdout.take()?);
        let mut name = String::new();
        answers.read_line(&mut name).ok()?;
        if name.trim().is_empty() {
            child.wait().ok()?;
            return None;
        }
        let mut kiwi = Kiwi { child, asked, answers, name: name.trim().to_string() };
        for l in layouts {
            kiwi.asked.write_all(told(l).as_bytes()).ok()?;
        }
        Some(kiwi)
    }

    /// Nanoseconds of one operation, what its calls cost in Python taken off.
    pub fn time(&mut self, layout: &str, case: &str, turns: usize) -> f64 {
        writeln!(self.asked, "time {layout} {case} {turns}").unwrap();
        let mut line = String::new();
        self.answers.read_line(&mut line).unwrap();
        line.trim().parse().unwrap_or_else(|_| panic!("kiwi.py answers {line:?}"))
    }
}

impl Drop for Kiwi {
    fn drop(&mut self) {
        let _ = writeln!(self.asked, "end");
        let _ = self.child.wait();
    }
}
