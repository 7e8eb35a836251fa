//! Constraints shown now and then among the calls of any kind of session: those that were added before, live or gone again, and numbers that none has.
use crate::format::{self, Call};
use crate::random::Random;

pub fn shown(lines: Vec<String>, r: &mut Random) -> Vec<String> {
    let mut added: Vec<u32> = Vec::new();
    let mut out = Vec::new();
    for line in lines {
        match format::read(&line, false) {
            Some(Call::Add { number, .. }) if !added.contains(&number) => added.push(number),
            _ => (),
        }
        out.push(line);
        while r.one_in(9) {
            let number = if added.is_empty() || r.one_in(9) { r.pick(&[0, 1, 7, u32::MAX]) } else { r.pick(&added) };
            out.push(format!("show {}", number));
        }
    }
    out
}
