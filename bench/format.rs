//! The text format of calls: one call a line, words split by one space. A line that is no call reads as None, and so
//! does one of more than 4,096 bytes.

#[derive(Clone, Copy)]
pub enum Relation {
    AtMost,
    Equal,
    AtLeast,
}

#[allow(dead_code)] // the untouched crate has no budget
pub enum Call {
    /// by this cutoff
    Reset(f64),
    Add { group: u16, number: u32, budget: u16, relation: Relation, strength: f64, constant: f64, terms: Vec<(u32, f64)> },
    Remove { number: u32, budget: u16 },
    Drop { group: u16, budget: u16 },
    AddEdit { variable: u32, strength: f64, budget: u16 },
    RemoveEdit { variable: u32, budget: u16 },
    Suggest { variable: u32, value: f64, budget: u16 },
    Value(u32),
    HasConstraint(u32),
    HasEdit(u32),
    /// a constraint as it was added
    Show(u32),
    Fetch,
    Create(f64, f64, f64, f64),
    Clip(f64),
    // the bench's own
    Dump,
    Check,
    SetNext(u32),
    // a row's cell by the ids, 0 for the objective and for the constant: states that read and come from no run
    SetCell(u32, u32, f64),
    // gone entries wait for the numbers from the first to the last, and for no others
    SetGone(u32, u32),
}

/// `reset` without one takes this
pub const USUAL_CUTOFF: f64 = 1e-8;
/// `add` without one takes this
const USUAL_GROUP: u16 = 1;
const LARGEST_WHOLE: u64 = 9_007_199_254_740_992;
const LONGEST_LINE: usize = 4096;

fn digits(word: &str) -> Option<u64> {
    if word.is_empty() || !word.bytes().all(|b| b.is_ascii_digit()) {
        return None;
    }
    word.parse().ok()
}

/// `decimals`: also 0.5, 1e-9 and their like, which the format itself does not have
fn number(word: &str, decimals: bool) -> Option<f64> {
    match word {
        "inf" => return Some(f64::INFINITY),
        "-inf" => return Some(f64::NEG_INFINITY),
        "nan" => return Some(f64::NAN),
        "req" => return Some(1_001_001_000.0),
        _ => (),
    }
    if let Some(hex) = word.strip_prefix("0x") {
        if hex.len() != 16 || !hex.bytes().all(|b| b.is_ascii_hexdigit()) {
            return None;
        }
        return u64::from_str_radix(hex, 16).ok().map(f64::from_bits);
    }
    let (negative, size) = match word.strip_prefix('-') {
        Some(rest) => (true, rest),
        None => (false, word),
    };
    if let Some(n) = digits(size) {
        if n <= LARGEST_WHOLE {
            return Some(if negative { -(n as f64) } else { n as f64 });
        }
    }
    if decimals && size.starts_with(|c: char| c.is_ascii_digit()) {
        return word.parse().ok();
    }
    None
}

struct Words<'a> {
    words: std::vec::IntoIter<&'a str>,
    decimals: bool,
}

impl Words<'_> {
    fn word(&mut self) -> Option<&str> {
        self.words.next()
    }
    fn u32(&mut self) -> Option<u32> {
        digits(self.words.next()?)?.try_into().ok()
    }
    fn u16(&mut self) -> Option<u16> {
        digits(self.words.next()?)?.try_into().ok()
    }
    fn f64(&mut self) -> Option<f64> {
        number(self.words.next()?, self.decimals)
    }
    /// None named: the usual one.
    fn cutoff(&mut self) -> Option<f64> {
        if self.words.len() == 0 { Some(USUAL_CUTOFF) } else { self.f64() }
    }
    fn relation(&mut self) -> Option<Relation> {
        match self.word()? {
            "le" => Some(Relation::AtMost),
            "eq" => Some(Relation::Equal),
            "ge" => Some(Relation::AtLeast),
            _ => None,
        }
    }
}

fn add(group: u16, w: &mut Words) -> Option<Call> {
    let (number, budget, relation, strength, constant) = (w.u32()?, w.u16()?, w.relation()?, w.f64()?, w.f64()?);
    let count = w.u32()?;
    let mut terms = Vec::new();
    for _ in 0..count {
        terms.push((w.u32()?, w.f64()?));
    }
    Some(Call::Add { group, number, budget, relation, strength, constant, terms })
}

pub fn read(line: &str, decimals: bool) -> Option<Call> {
    if line.len() > LONGEST_LINE {
        return None;
    }
    let words: Vec<&str> = line.split(' ').collect();
    let mut w = Words { words: words.into_iter(), decimals };
    let call = match w.word()? {
        "reset" => Call::Reset(w.cutoff()?),
        "add" => add(USUAL_GROUP, &mut w)?,
        "addg" => {
            let group = w.u16()?;
            add(group, &mut w)?
        }
        "drop" => Call::Drop { group: w.u16()?, budget: w.u16()? },
        "remove" => Call::Remove { number: w.u32()?, budget: w.u16()? },
        "addedit" => Call::AddEdit { variable: w.u32()?, strength: w.f64()?, budget: w.u16()? },
        "removeedit" => Call::RemoveEdit { variable: w.u32()?, budget: w.u16()? },
        "suggest" => Call::Suggest { variable: w.u32()?, value: w.f64()?, budget: w.u16()? },
        "value" => Call::Value(w.u32()?),
        "hascon" => Call::HasConstraint(w.u32()?),
        "hasedit" => Call::HasEdit(w.u32()?),
        "show" => Call::Show(w.u32()?),
        "fetch" => Call::Fetch,
        "create" => Call::Create(w.f64()?, w.f64()?, w.f64()?, w.f64()?),
        "clip" => Call::Clip(w.f64()?),
        "dump" => Call::Dump,
        "check" => Call::Check,
        "setnext" => Call::SetNext(w.u32()?),
        "setcell" => Call::SetCell(w.u32()?, w.u32()?, w.f64()?),
        "setgone" => Call::SetGone(w.u32()?, w.u32()?),
        _ => return None,
    };
    if w.word().is_some() {
        return None;
    }
    Some(call)
}

pub fn bits(x: f64) -> String {
    format!("{:016x}", x.to_bits())
}

/// The list of a fetch; none is for a variable that is gone.
pub fn fetched(list: impl ExactSizeIterator<Item = (u32, Option<f64>)>) -> String {
    let entry = |(v, x): (u32, Option<f64>)| format!(" {}:{}", v, x.map_or("gone".to_string(), bits));
    format!("{}{}", list.len(), list.map(entry).collect::<String>())
}

/// A constraint with its group, as an add takes it.
#[allow(dead_code)] // the generator shows none
pub struct Given {
    pub relation: Relation,
    pub strength: f64,
    pub group: u64,
    pub constant: f64,
    pub terms: Vec<(u32, f64)>,
}

/// What `show` answers, as the program `writer` reads it; the error is why there is none.
#[allow(dead_code)]
pub fn shown(given: Result<Given, u32>) -> String {
    let float = |x: f64| format!("0x{}", bits(x));
    match given {
        Err(number) => format!("no {}", number),
        Ok(g) => {
            let relation = match g.relation {
                Relation::AtMost => "le",
                Relation::Equal => "eq",
                Relation::AtLeast => "ge",
            };
            let terms: String = g.terms.iter().map(|&(v, k)| format!(" {} {}", v, float(k))).collect();
            format!("{} {} {} {} {}{}", relation, float(g.strength), g.group, float(g.constant), g.terms.len(), terms)
        }
    }
}

/// Reads standard input, a call a line, and writes an answer a line. With `-d` decimals are read, and empty lines and
/// what follows `#` left out.
pub fn serve<F: FnMut(Call) -> String>(mut answer: F) {
    use std::io::{BufRead, Write};
    let decimals = std::env::args().any(|a| a == "-d");
    let mut out = std::io::BufWriter::new(std::io::stdout());
    for line in std::io::stdin().lock().lines() {
        let line = line.expect("a line of text");
        let mut line = line.as_str();
        if decimals {
            line = line.split('#').next().unwrap_or("").trim();
            if line.is_empty() {
                continue;
            }
        }
        let reply = match read(line, decimals) {
            Some(call) => answer(call),
            None => "?".to_string(),
        };
        writeln!(out, "{}", reply).expect("standard output");
        out.flush().expect("standard output");
    }
}
