//! The kinds of sessions that differ in their numbers and in how often each call comes.
use crate::random::{self, number, Random};

/// What a kind of session is made of. Weights are out of their sum.
pub struct Kind {
    pub name: &'static str,
    variables: u64,
    constraints: u64,
    most_terms: u64,
    coefficient: fn(&mut Random) -> f64,
    constant: fn(&mut Random) -> f64,
    strength: fn(&mut Random) -> f64,
    suggestion: fn(&mut Random) -> f64,
    budget: fn(&mut Random) -> u64,
    relations: &'static [&'static str],
    // add, remove, addedit, removeedit, suggest, value, fetch, hascon or hasedit, create or clip
    weights: [u64; 9],
}

pub const ALL_RELATIONS: &[&str] = &["le", "eq", "ge"];
const MIXED: [u64; 9] = [40, 10, 8, 3, 15, 10, 8, 3, 1];

pub const KINDS: &[Kind] = &[
    // small whole numbers, differences of variables for the most part
    Kind { name: "whole", variables: 6, constraints: 12, most_terms: 3, coefficient: random::small_coefficient, constant: random::small_constant, strength: random::usual_strength, suggestion: random::small_constant, budget: random::ample, relations: ALL_RELATIONS, weights: MIXED },
    // f64 of all digits, sizes from 1/1000 to 1000
    Kind { name: "general", variables: 5, constraints: 10, most_terms: 4, coefficient: random::general, constant: random::general, strength: random::general_strength, suggestion: random::general, budget: random::ample, relations: ALL_RELATIONS, weights: MIXED },
    // numbers around the cutoff 1E-8, beside ordinary ones
    Kind { name: "tiny", variables: 4, constraints: 9, most_terms: 3, coefficient: random::tiny, constant: random::tiny, strength: random::tiny_strength, suggestion: random::tiny, budget: random::ample, relations: ALL_RELATIONS, weights: MIXED },
    // 1E150 to 1E308 and the reciprocals of such, beside ordinary ones
    Kind { name: "huge", variables: 4, constraints: 9, most_terms: 3, coefficient: random::huge, constant: random::huge, strength: random::usual_strength, suggestion: random::huge, budget: random::ample, relations: ALL_RELATIONS, weights: MIXED },
    // both
    Kind { name: "extreme", variables: 4, constraints: 9, most_terms: 3, coefficient: random::extreme, constant: random::extreme, strength: random::extreme_strength, suggestion: random::extreme, budget: random::ample, relations: ALL_RELATIONS, weights: MIXED },
    // budgets 0 to 3
    Kind { name: "budget", variables: 5, constraints: 10, most_terms: 3, coefficient: random::small_coefficient, constant: random::small_constant, strength: random::usual_strength, suggestion: random::small_constant, budget: random::scarce, relations: ALL_RELATIONS, weights: MIXED },
    // constants of 0 or one other value, coefficients 1 and -1: ratios tie and pivots are degenerate
    Kind { name: "ties", variables: 5, constraints: 14, most_terms: 3, coefficient: random::sign, constant: random::few_constants, strength: random::equal_strength, suggestion: random::few_constants, budget: random::ample, relations: ALL_RELATIONS, weights: MIXED },
    // as many removals as adds
    Kind { name: "removals", variables: 5, constraints: 8, most_terms: 3, coefficient: random::small_coefficient, constant: random::small_constant, strength: random::usual_strength, suggestion: random::small_constant, budget: random::ample, relations: ALL_RELATIONS, weights: [35, 30, 6, 5, 6, 8, 8, 1, 1] },
    // edits and suggestions over bounds
    Kind { name: "drags", variables: 5, constraints: 8, most_terms: 2, coefficient: random::sign, constant: random::drag_bound, strength: random::usual_strength, suggestion: random::drag_value, budget: random::ample, relations: ALL_RELATIONS, weights: [18, 3, 12, 3, 45, 8, 9, 1, 1] },
    // required inequalities for the most part: the temporary slack and refusal 12
    Kind { name: "required", variables: 4, constraints: 12, most_terms: 3, coefficient: random::small_coefficient, constant: random::small_constant, strength: random::mostly_required, suggestion: random::small_constant, budget: random::ample, relations: &["le", "ge", "le", "ge", "eq"], weights: [55, 8, 6, 2, 12, 8, 6, 2, 1] },
];

// numbers around the session's cutoff, which resets name
const AROUND: Kind = Kind { name: "cutoffs", variables: 4, constraints: 9, most_terms: 3, coefficient: random::around, constant: random::around, strength: random::strength_around, suggestion: random::around, budget: random::ample, relations: ALL_RELATIONS, weights: MIXED };

struct Session<'a> {
    random: &'a mut Random,
    kind: &'a Kind,
    lines: Vec<String>,
    // guesses, since refusals are not known here
    added: Vec<u64>,
    edited: Vec<u64>,
}

impl Session<'_> {
    fn variable(&mut self) -> u64 {
        self.random.from(1, self.kind.variables)
    }

    fn edit(&mut self) -> u64 {
        if self.edited.is_empty() || self.random.one_in(15) {
            return self.variable();
        }
        let i = self.random.below(self.edited.len() as u64);
        self.edited[i as usize]
    }

    /// A constraint that is live for the most part.
    fn standing(&mut self) -> u64 {
        if self.added.is_empty() || self.random.one_in(15) {
            return self.random.from(1, self.kind.constraints);
        }
        let i = self.random.below(self.added.len() as u64);
        self.added[i as usize]
    }

    /// A number that is not live for the most part.
    fn fresh(&mut self) -> u64 {
        let free: Vec<u64> = (1..=self.kind.constraints).filter(|c| !self.added.contains(c)).collect();
        if free.is_empty() || self.random.one_in(15) {
            return self.random.from(1, self.kind.constraints);
        }
        free[self.random.below(free.len() as u64) as usize]
    }

    fn add(&mut self) -> String {
        let kind = self.kind;
        let count = if self.random.one_in(15) { 0 } else { self.random.from(1, kind.most_terms) };
        let terms: String = (0..count)
            .map(|_| {
                let v = self.variable();
                format!(" {} {}", v, number((kind.coefficient)(self.random)))
            })
            .collect();
        let relation = kind.relations[self.random.below(kind.relations.len() as u64) as usize];
        let (strength, constant) = ((kind.strength)(self.random), (kind.constant)(self.random));
        let (c, budget) = (self.fresh(), (kind.budget)(self.random));
        self.added.push(c);
        format!("add {} {} {} {} {} {}{}", c, budget, relation, number(strength), number(constant), count, terms)
    }

    /// A reset that is refused changes nothing.
    fn reset(&mut self, cutoff: f64) -> String {
        if random::cutoff_fits(cutoff) {
            self.random.cutoff = cutoff;
            self.added.clear();
            self.edited.clear();
        }
        format!("reset {}", number(cutoff))
    }

    fn call(&mut self) -> String {
        let kind = self.kind;
        let budget = (kind.budget)(self.random);
        let full = self.added.len() as u64 >= kind.constraints;
        match self.random.weighted(&kind.weights) {
            0 if !full || self.random.one_in(4) => self.add(),
            0 | 1 => {
                let c = self.standing();
                self.added.retain(|x| *x != c);
                format!("remove {} {}", c, budget)
            }
            n if n == 2 || (n <= 4 && self.edited.is_empty()) => {
                let v = self.variable();
                self.edited.push(v);
                format!("addedit {} {} {}", v, number(random::edit_strength(self.random)), budget)
            }
            3 => {
                let v = self.edit();
                self.edited.retain(|x| *x != v);
                format!("removeedit {} {}", v, budget)
            }
            4 => {
                let v = self.edit();
                format!("suggest {} {} {}", v, number((kind.suggestion)(self.random)), budget)
            }
            5 => format!("value {}", self.variable()),
            6 => "fetch".to_string(),
            7 if self.random.one_in(2) => format!("hascon {}", self.random.from(1, kind.constraints)),
            7 => format!("hasedit {}", self.variable()),
            _ if self.random.one_in(2) => {
                let parts: Vec<String> = (0..4).map(|_| number(random::part(self.random))).collect();
                format!("create {}", parts.join(" "))
            }
            _ => format!("clip {}", number(random::any_strength(self.random))),
        }
    }
}

pub fn mixed(kind: &Kind, calls: u64, random: &mut Random) -> Vec<String> {
    let mut s = Session { random, kind, lines: Vec::new(), added: Vec::new(), edited: Vec::new() };
    for _ in 0..calls {
        let line = s.call();
        s.lines.push(line);
    }
    s.lines
}

const GROUPED: &[&str] = &["whole", "ties", "removals", "budget", "required", "general", "tiny", "drags"];

/// Constraints in a few groups, dropped again, with little budget for the most part; now and then group 0, or one that has none.
pub fn grouped(calls: u64, random: &mut Random) -> Vec<String> {
    let name = GROUPED[random.below(GROUPED.len() as u64) as usize];
    let kind = KINDS.iter().find(|k| k.name == name).unwrap_or(&KINDS[0]);
    let mut s = Session { random, kind, lines: Vec::new(), added: Vec::new(), edited: Vec::new() };
    let mut held: Vec<(u64, u64)> = Vec::new(); // constraint and group, a guess
    for _ in 0..calls {
        held.retain(|h| s.added.contains(&h.0));
        let line = if s.random.one_in(9) {
            let group = match s.random.below(12) {
                0 => s.random.pick(&[0, 5, 65535]),
                _ if held.is_empty() => 1,
                _ => s.random.pick(&held).1,
            };
            let budget = if s.random.one_in(2) { s.random.below(4) } else { (kind.budget)(s.random) };
            s.added.retain(|c| !held.contains(&(*c, group)));
            format!("drop {} {}", group, budget)
        } else {
            s.call()
        };
        let line = match line.strip_prefix("add ") {
            Some(rest) => {
                let group = if s.random.one_in(40) { 0 } else { s.random.pick(&[1, 1, 2, 2, 3, 65535]) };
                held.push((*s.added.last().unwrap_or(&0), group));
                if group == 1 { line } else { format!("addg {} {}", group, rest) }
            }
            None => line,
        };
        s.lines.push(line);
    }
    s.lines
}

/// Resets that name a cutoff, also one that is refused, among calls whose numbers lie around it, or are whole.
pub fn cutoffs(calls: u64, random: &mut Random) -> Vec<String> {
    let kind = if random.one_in(4) { &KINDS[0] } else { &AROUND };
    let mut s = Session { random, kind, lines: Vec::new(), added: Vec::new(), edited: Vec::new() };
    for i in 0..calls {
        let line = if i == 0 || s.random.one_in(25) {
            let cutoff = random::good_cutoff(s.random);
            s.reset(cutoff)
        } else if s.random.one_in(15) {
            let cutoff = random::bad_cutoff(s.random);
            s.reset(cutoff)
        } else {
            s.call()
        };
        s.lines.push(line);
    }
    s.lines
}
