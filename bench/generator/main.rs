//! Random sessions of many kinds in the text format of calls, the same for the same arguments.
//!
//! usage: generator KINDS SESSIONS CALLS SEED [plain | asked]
//!
//! KINDS is `all` or names joined by commas, taken in turn. With `all` the kinds of document 02's calls come after SESSIONS of the
//! others, as many of each as of any other. `plain` leaves out the bench's own calls (dump, check,
//! setnext) and the kind that needs one, so that any program of the format can be given the sessions. `asked` does too, and puts fetches among the
//! calls, behind each of which every variable is asked.
mod asked;
#[allow(dead_code)] // the lines alone are read
#[path = "../format.rs"]
mod format;
mod gone;
mod mixed;
mod random;
mod shown;
mod special;

use asked::asked;
use gone::gone;
use mixed::{cutoffs, grouped, mixed, KINDS};
use random::Random;
use shown::shown;
use special::{ids, layouts, limits, malformed, panes, redundant, refusals, trolley};

const OTHERS: &[&str] = &["redundant", "refusals", "limits", "trolley", "ids", "malformed", "layouts"];
/// Of document 02's calls. With `all` they come after the others, which stay as they were without them.
const LATER: &[&str] = &["cutoffs", "groups", "panes", "gone"];

fn session(name: &str, calls: u64, r: &mut Random) -> Vec<String> {
    match name {
        "redundant" => redundant(calls, r),
        "refusals" => refusals(calls, r),
        "limits" => limits(calls, r),
        "trolley" => trolley(calls, r),
        "ids" => ids(calls, r),
        "layouts" => layouts(calls, r),
        "malformed" => malformed(calls, r),
        "cutoffs" => cutoffs(calls, r),
        "groups" => grouped(calls, r),
        "panes" => panes(calls, r),
        "gone" => gone(calls, r),
        _ => match KINDS.iter().find(|k| k.name == name) {
            Some(kind) => mixed(kind, calls, r),
            None => usage(),
        },
    }
}

fn usage() -> ! {
    let names: Vec<&str> = KINDS.iter().map(|k| k.name).chain(OTHERS.iter().cloned()).chain(LATER.iter().cloned()).collect();
    eprintln!("usage: generator KINDS SESSIONS CALLS SEED [plain | asked]\nkinds: all, {}", names.join(", "));
    std::process::exit(2)
}

fn main() {
    let args: Vec<String> = std::env::args().skip(1).collect();
    if args.len() < 4 {
        usage();
    }
    let (plain, asking) = match args.get(4).map(String::as_str) {
        None => (false, false),
        Some("plain") => (true, false),
        Some("asked") => (true, true),
        Some(_) => usage(),
    };
    let (sessions, calls, seed): (u64, u64, u64) = match (args[1].parse(), args[2].parse(), args[3].parse()) {
        (Ok(a), Ok(b), Ok(c)) => (a, b, c),
        _ => usage(),
    };
    // the definitions have no answer to a line that is no call and are slow on large layouts, and a plain program has no setnext
    let left_out: &[&str] = if plain { &["ids"] } else { &["malformed", "layouts", "panes"] };
    let kinds: Vec<&str> = match args[0].as_str() {
        "all" => KINDS.iter().map(|k| k.name).chain(OTHERS.iter().cloned()).filter(|k| !left_out.contains(k)).collect(),
        names => names.split(',').collect(),
    };
    let mut places: Vec<(u64, &str)> = (0..sessions).map(|i| (i, kinds[(i % kinds.len() as u64) as usize])).collect();
    if args[0] == "all" {
        let each = (sessions + kinds.len() as u64 - 1) / kinds.len() as u64;
        for (k, kind) in LATER.iter().enumerate().filter(|(_, kind)| !left_out.contains(kind)) {
            let first = (k as u64 + 1) << 32;
            places.extend((first..first + each).map(|i| (i, *kind)));
        }
    }
    let mut out = String::new();
    for (i, kind) in places {
        let mut r = Random::new(seed, i);
        out.push_str("reset\n");
        let lines = session(kind, calls, &mut r);
        for line in if asking { asked(lines, &mut r) } else { shown(lines, &mut r) } {
            out.push_str(&line);
            out.push('\n');
            if !plain && r.one_in(8) {
                out.push_str("dump\n");
            }
        }
        if !plain {
            out.push_str("dump\ncheck\n");
        }
    }
    use std::io::Write;
    let _ = std::io::stdout().write_all(out.as_bytes());
}
