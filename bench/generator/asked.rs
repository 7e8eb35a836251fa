//! Sessions for a reader of the fetched lists: fetches anywhere among the calls, and behind each fetch every variable that was named so far is
//! asked for its value.
use crate::format::{self, Call};
use crate::random::Random;
use std::collections::BTreeSet;

fn named(line: &str) -> Vec<u32> {
    match format::read(line, false) {
        Some(Call::Add { terms, .. }) => terms.iter().map(|t| t.0).collect(),
        Some(Call::AddEdit { variable, .. }) => vec![variable],
        _ => Vec::new(),
    }
}

pub fn asked(lines: Vec<String>, r: &mut Random) -> Vec<String> {
    let mut known = BTreeSet::new();
    let mut out = Vec::new();
    let fetch = |out: &mut Vec<String>, known: &BTreeSet<u32>| {
        out.push("fetch".to_string());
        out.extend(known.iter().map(|v| format!("value {}", v)));
    };
    for line in lines {
        known.extend(named(&line));
        if line == "fetch" {
            fetch(&mut out, &known);
        } else {
            out.push(line);
        }
        // one behind another now and then: the second is of the other kind
        while r.one_in(6) {
            fetch(&mut out, &known);
        }
    }
    out
}
