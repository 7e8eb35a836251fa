//! The reader: what the drawing code knows that reads the fetched lists and nothing else.
use crate::bits;
use std::collections::BTreeMap;

/// A variable with its value, or with none where it is gone.
pub type Entry = (u32, Option<f64>);

/// The list of a fetch's answer, `COUNT V:BITS V:gone ...`.
pub fn list(answer: &str) -> Option<Vec<Entry>> {
    let mut words = answer.split(' ');
    let count: usize = words.next()?.parse().ok()?;
    let entry = |word: &str| {
        let (variable, value) = word.split_once(':')?;
        let value = if value == "gone" { None } else { Some(bits(value)?) };
        Some((variable.parse().ok()?, value))
    };
    let out: Option<Vec<Entry>> = words.map(entry).collect();
    out.filter(|list| list.len() == count)
}

#[derive(Default)]
pub struct Reader(BTreeMap<u32, f64>);

impl Reader {
    /// "takes each fetched list in order, forgets what is listed gone"
    pub fn take(&mut self, &(variable, value): &Entry) {
        match value {
            Some(x) => self.0.insert(variable, x),
            None => self.0.remove(&variable),
        };
    }

    /// "takes anything unknown as 0.0"
    pub fn holds(&self, variable: u32) -> f64 {
        self.0.get(&variable).copied().unwrap_or(0.0)
    }

    pub fn known(&self) -> impl Iterator<Item = u32> + '_ {
        self.0.keys().copied()
    }
}
