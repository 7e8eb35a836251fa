//! Times both solvers of the Rust crate over the archive, the crate as published, the patched crate and kiwi on the same layouts, in one run;
//! `bench/run speed` builds and runs it. The values after each case are compared: with the patched crate bit by bit, with the
//! published one as numbers.
#[path = "../black_box.rs"]
mod black_box;
use black_box::black_box;
mod clock;
mod engines;
mod floor;
mod kiwi;
mod layouts;

use clock::ran;
use engines::{built, Engine, Held, Lent, Patched, Untouched};
use kiwi::Kiwi;
use layouts::Layout;

#[derive(Clone, Copy, PartialEq)]
enum Case {
    Build,
    Drag,
    DragOnce,
    AddRemove,
    Value,
    HasConstraint,
    HasEdit,
}

const CASES: [Case; 7] = [Case::Build, Case::Drag, Case::DragOnce, Case::AddRemove, Case::Value, Case::HasConstraint, Case::HasEdit];

impl Case {
    fn name(self) -> &'static str {
        match self {
            Case::Build => "build",
            Case::Drag => "drag and fetch",
            Case::DragOnce => "the same in one call",
            Case::AddRemove => "add and remove",
            Case::Value => "value",
            Case::HasConstraint => "has constraint",
            Case::HasEdit => "has edit",
        }
    }

    fn turns(self) -> usize {
        match self {
            Case::Build => 20,
            Case::Drag | Case::DragOnce | Case::AddRemove => 300,
            _ => 3000,
        }
    }

    /// kiwi's word for it; it lists no changes, but sets every variable, and its queries are not timed
    fn kiwi(self) -> Option<&'static str> {
        match self {
            Case::Build => Some("build"),
            Case::Drag => Some("drag"),
            Case::AddRemove => Some("add"),
            _ => None,
        }
    }
}

/// Nanoseconds of one operation, and the values that stand afterwards.
fn sample<E: Engine>(l: &Layout, case: Case) -> (f64, Vec<f64>) {
    let turns = case.turns();
    let mut e = built::<E>(l);
    e.fetch();
    let start = ran();
    match case {
        Case::Build => {
            for _ in 0..turns {
                black_box(built::<E>(l));
            }
        }
        Case::Drag => {
            for i in 0..turns {
                let (v, x) = l.drags[i % l.drags.len()];
                assert!(e.suggest(v, x));
                black_box(e.fetch());
            }
        }
        Case::DragOnce => {
            for i in 0..turns {
                let (v, x) = l.drags[i % l.drags.len()];
                black_box(e.drag(v, x));
            }
        }
        Case::AddRemove => {
            for _ in 0..turns {
                assert!(e.add(&l.extra) & e.remove(&l.extra));
            }
        }
        Case::Value => {
            for v in (1..=l.variables).cycle().take(turns) {
                black_box(e.value(v));
            }
        }
        Case::HasConstraint => {
            for d in l.demands.iter().cycle().take(turns) {
                assert!(e.has_constraint(d));
            }
        }
        Case::HasEdit => {
            for v in (1..=l.variables).cycle().take(turns) {
                black_box(e.has_edit(v));
            }
        }
    }
    let each = (ran() - start) as f64 / turns as f64;
    let values = (1..=l.variables).map(|v| e.value(v)).collect();
    (each, values)
}

fn median(mut xs: Vec<f64>) -> f64 {
    xs.sort_by(f64::total_cmp);
    xs[xs.len() / 2]
}

/// A row of the first table: all engines in turn, round by round.
fn row(l: &Layout, case: Case, rounds: usize, kiwi: &mut Option<Kiwi>) {
    let mut times: [Vec<f64>; 5] = Default::default();
    for round in 0..rounds {
        let (h, held) = sample::<Held>(l, case);
        let (t, lent) = sample::<Lent>(l, case);
        let (u, theirs) = sample::<Untouched>(l, case);
        let (p, patched) = sample::<Patched>(l, case);
        for (ours, name) in [(&held, Held::NAME), (&lent, Lent::NAME)] {
            let same = ours.iter().zip(&patched).all(|(p, q)| p.to_bits() == q.to_bits());
            assert!(same, "{}, {}, {name}: values differ from the patched crate's: {ours:?} {patched:?}", l.name, case.name());
        }
        if round == 0 && held.iter().zip(&theirs).any(|(p, q)| (p - q).abs() > 1e-6) {
            eprintln!("{}, {}: an equal best layout other than the untouched crate's: {held:?} {theirs:?}", l.name, case.name());
        }
        for (list, ns) in times.iter_mut().zip([h, t, u, p]) {
            list.push(ns);
        }
        if let (Some(kiwi), Some(word)) = (kiwi.as_mut(), case.kiwi()) {
            times[4].push(kiwi.time(l.name, word, case.turns()));
        }
    }
    let [h, t, u, p, k] = times.map(|list| (!list.is_empty()).then(|| median(list) / 1000.0));
    let us = |x: Option<f64>| x.map_or("-".to_string(), |x| format!("{x:.3}"));
    let over = |x: Option<f64>, y: Option<f64>| x.zip(y).map_or("-".to_string(), |(x, y)| format!("{:.2}", x / y));
    let ratios = [over(h, u), over(t, u), over(h, k)].join(" | ");
    println!("| {} | {} | {} | {} | {} | {} | {} | {ratios} |", l.name, case.name(), us(h), us(t), us(u), us(p), us(k));
}

/// The least nanoseconds of one of our workings.
fn least(rounds: usize, mut work: impl FnMut(usize)) -> f64 {
    const TURNS: usize = 300;
    (0..rounds)
        .map(|_| {
            let start = ran();
            (0..TURNS).for_each(&mut work);
            (ran() - start) as f64 / TURNS as f64
        })
        .fold(f64::MAX, f64::min)
}

/// Nanoseconds of a value, of a suggestion that is refused by a test (for a variable without an edit, after the tables are tested and
/// copied), of one that is accepted, and of a fetch.
fn parts<E: Engine>(l: &Layout, rounds: usize) -> [f64; 4] {
    let mut e = built::<E>(l);
    e.fetch();
    let value = least(rounds, |_| {
        black_box(e.value(1));
    });
    let refused = least(rounds, |_| assert!(!e.suggest(1, 0.0)));
    let suggest = least(rounds, |i| {
        let (v, x) = l.drags[i % l.drags.len()];
        assert!(e.suggest(v, x));
    });
    let fetch = least(rounds, |_| {
        black_box(e.fetch());
    });
    [value, refused, suggest, fetch]
}

/// What a drag is made of, and what each promise of the tested calls costs beside that.
fn workings(l: &Layout, rounds: usize) {
    let [value, refused, suggest, fetch] = parts::<Held>(l, rounds);
    let [tested_value, tested_refused, tested_suggest, _] = parts::<Lent>(l, rounds);
    let test = tested_value - value;
    let clear = tested_refused - refused - test;
    let rest = tested_suggest - suggest - test - clear;
    let us = [refused, suggest - refused, fetch, test, clear, rest].map(|ns| format!("{:.2}", ns / 1000.0));
    println!("| {} | {} |", l.name, us.join(" | "));
}

fn main() {
    let mut arguments = std::env::args().skip(1);
    let rounds: usize = arguments.next().and_then(|a| a.parse().ok()).unwrap_or(31);
    let layouts = layouts::all();
    let mut kiwi = arguments.next().and_then(|script| Kiwi::start(&script, &layouts));
    println!("| layout | case | `Solver`, us | `LentSolver`, us | untouched, us | patched, us | kiwi, us | `Solver` / untouched | `LentSolver` / untouched | `Solver` / kiwi |");
    println!("|---|---|---|---|---|---|---|---|---|---|");
    for l in &layouts {
        for case in CASES {
            row(l, case, rounds, &mut kiwi);
        }
    }
    println!();
    match &kiwi {
        Some(kiwi) => println!("{}, through Python, its calls' cost there taken off.", kiwi.name),
        None => println!("kiwi was not timed: no Python here has python3-kiwisolver."),
    }
    println!();
    println!("| layout | the copy into the room, us | a drag's steps, and what it changes written back, us | a fetch, us | the test that the tables read, us | the room cleared, us | what is left of a public suggestion, us |");
    println!("|---|---|---|---|---|---|---|");
    for l in &layouts {
        workings(l, rounds);
    }
    println!();
    println!("| layout | rows and their cells | every live cell read once, us | copied once, us | the room cleared, us | two reads, two copies, one clearing, us |");
    println!("|---|---|---|---|---|---|");
    for l in &layouts {
        floor::floor(l, rounds);
    }
}
