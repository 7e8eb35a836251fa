//! The kinds of sessions that are built in a way of their own.
use crate::mixed::{mixed, ALL_RELATIONS, KINDS};
use crate::random::{self, number, Random};

/// Calls refused before the steps for the most part: numbers not finite, negative strengths, unknown and live numbers,
/// edits that stand already or cannot, too many terms.
pub fn refusals(calls: u64, r: &mut Random) -> Vec<String> {
    let mut lines = Vec::new();
    for _ in 0..calls {
        let (c, v, budget) = (r.from(1, 6), r.from(1, 4), r.from(0, 9));
        let (k, b, s) = (number(random::any(r)), number(random::any(r)), number(random::any_strength(r)));
        lines.push(match r.below(12) {
            0 | 1 => format!("add {} {} {} {} {} 1 {} {}", c, budget, ALL_RELATIONS[r.below(3) as usize], s, b, v, k),
            2 => {
                let count = r.from(15, 18);
                let terms: String = (0..count).map(|_| format!(" {} {}", r.from(1, 4), number(random::seldom_bad(r)))).collect();
                format!("add {} {} {} {} {} {}{}", c, budget, ALL_RELATIONS[r.below(3) as usize], s, number(random::seldom_bad(r)), count, terms)
            }
            3 | 4 => format!("add {} {} {} {} {} 1 {} 1", c, budget, ALL_RELATIONS[r.below(3) as usize], number(random::usual_strength(r)), number(random::small_constant(r)), v),
            5 => format!("remove {} {}", c, budget),
            6 => format!("addedit {} {} {}", v, s, budget),
            7 => format!("removeedit {} {}", v, budget),
            8 | 9 => format!("suggest {} {} {}", v, b, budget),
            10 => format!("value {}", r.from(1, 6)),
            _ => ["fetch".to_string(), format!("hascon {}", c), format!("hasedit {}", v)][r.below(3) as usize].clone(),
        });
    }
    lines
}

/// Required equalities that agree with each other, many of them redundant, added and removed beside weaker ones: rows of
/// dummies, and removals by the first rank.
pub fn redundant(calls: u64, r: &mut Random) -> Vec<String> {
    let values: Vec<i64> = (0..5).map(|_| r.below(21) as i64 - 10).collect();
    let mut lines = Vec::new();
    let mut added = [false; 10]; // a guess
    for _ in 0..calls {
        let (c, v) = (r.from(1, 9), r.below(5));
        // an add of one that stands or a removal of one that doesn't is seldom kept
        let place = match (r.below(20), added[c as usize]) {
            (n @ 0..=9, true) if !r.one_in(20) => 10 + n % 6,
            (n @ 10..=15, false) if !r.one_in(20) => n - 10,
            (n, _) => n,
        };
        lines.push(match place {
            0..=9 => {
                added[c as usize] = true;
                let count = r.from(1, 3);
                let terms: Vec<(u64, i64)> = (0..count).map(|_| (r.below(5), random::small_coefficient(r) as i64)).collect();
                let sum: i64 = terms.iter().map(|&(v, k)| k * values[v as usize]).sum();
                let text: String = terms.iter().map(|&(v, k)| format!(" {} {}", v + 1, k)).collect();
                let required = !r.one_in(4);
                let (relation, strength) = if required { ("eq", 1_001_001_000.0) } else { (ALL_RELATIONS[r.below(3) as usize], random::usual_strength(r)) };
                let off = if required { 0 } else { r.below(9) as i64 - 4 };
                format!("add {} 30 {} {} {} {}{}", c, relation, number(strength), off - sum, count, text)
            }
            10..=15 => {
                added[c as usize] = false;
                format!("remove {} 30", c)
            }
            16 => format!("addedit {} 1 30", v + 1),
            17 => format!("suggest {} {} 30", v + 1, r.below(31) as i64 - 15),
            18 => format!("value {}", v + 1),
            _ => "fetch".to_string(),
        });
    }
    lines
}

/// Up to and over 32 variables, 48 constraints and 16 terms.
pub fn limits(calls: u64, r: &mut Random) -> Vec<String> {
    let mut lines = Vec::new();
    let base = [1, 100, 4_294_967_200][r.below(3) as usize];
    let by_variables = r.one_in(2);
    // first, cheap ones to come near a limit: new variables each alone in a constraint, or constraints of few variables
    for i in 0..(if by_variables { r.from(28, 32) } else { r.from(44, 48) }) {
        let v = if by_variables { base + i } else { base + r.below(3) };
        let strength = number(random::usual_strength(r));
        lines.push(if !by_variables && r.one_in(3) {
            format!("add {} 20 le {} 0 0", i + 1, strength)
        } else {
            format!("add {} 20 {} {} {} 1 {} 1", i + 1, ALL_RELATIONS[r.below(3) as usize], strength, number(-(r.below(5) as f64)), v)
        });
    }
    for _ in 0..calls {
        let c = r.from(1, 54);
        lines.push(match r.below(10) {
            0..=3 => {
                let count = [1, 2, 3, 16, 17][r.below(5) as usize];
                let terms: String = (0..count).map(|_| format!(" {} {}", base + r.below(36), number(random::sign(r)))).collect();
                format!("add {} 20 {} {} {} {}{}", c, ALL_RELATIONS[r.below(3) as usize], number(random::usual_strength(r)), number(random::small_constant(r)), count, terms)
            }
            4 => format!("add {} 20 le 1 0 2 {} 1 {} 1", c, base + r.below(36), base + r.below(36)),
            5 | 6 => format!("remove {} 20", c),
            7 => format!("addedit {} {} 20", base + r.below(36), number(random::edit_strength(r))),
            8 => format!("suggest {} {} 20", base + r.below(36), number(random::small_constant(r))),
            _ => ["fetch".to_string(), format!("value {}", base + r.below(36))][r.below(2) as usize].clone(),
        });
    }
    lines
}

/// The trolley's layout: six panes side by side, 14 constraints, five splitters as edits, dragged.
/// Variables 1 to 7 are the panes' edges. 1 and 2: the first edge is 0, the last the screen's width; 3 to 8: least widths;
/// 9 to 14: wished widths at a strength.
pub fn trolley(calls: u64, r: &mut Random) -> Vec<String> {
    let screen = r.from(600, 1300);
    let mut lines = vec!["add 1 99 eq req 0 1 1 1".to_string(), format!("add 2 99 eq req -{} 1 7 1", screen)];
    for pane in 1..=6 {
        lines.push(format!("add {} 99 ge req -{} 2 {} 1 {} -1", pane + 2, r.from(20, 80), pane + 1, pane));
    }
    for pane in 1..=6 {
        let strength = [1, 10, 1000, 1_000_000][r.below(4) as usize];
        lines.push(format!("add {} 99 eq {} -{} 2 {} 1 {} -1", pane + 8, strength, r.from(80, 260), pane + 1, pane));
    }
    for splitter in 2..=6 {
        lines.push(format!("addedit {} {} 99", splitter, [1000, 1_000_000, 2_000_000][r.below(3) as usize]));
    }
    let mut at = r.from(0, screen) as i64;
    let mut held = r.from(2, 6);
    for _ in 0..calls {
        match r.below(12) {
            0 => held = r.from(2, 6),
            1 => at = r.from(0, screen + 100) as i64,
            2 => lines.push("fetch".to_string()),
            3 => lines.push(format!("value {}", r.from(1, 7))),
            4 if r.one_in(4) => lines.push(format!("removeedit {} 99", held)),
            4 if r.one_in(3) => lines.push(format!("addedit {} 1000 99", held)),
            4 if r.one_in(2) => lines.push(format!("remove {} 99", r.from(3, 14))),
            _ => {
                at += r.below(61) as i64 - 30;
                lines.push(format!("suggest {} {} 99", held, at));
            }
        }
    }
    lines
}

/// Layouts at the limits, with budget to spare: up to 32 edges in order, least and wished distances between near ones, bounds,
/// edits, up to 48 constraints; then removals and new ones in turn, and drags.
pub fn layouts(calls: u64, r: &mut Random) -> Vec<String> {
    let mut lines = Vec::new();
    let mut added = [false; 44];
    let edges = [10, 16, 24, 32][r.below(4) as usize];
    let edits = r.from(0, 5);
    for edit in 0..edits {
        lines.push(format!("addedit {} {} 65535", 1 + edit * 2, [1, 1000, 1_000_000][r.below(3) as usize]));
    }
    for i in 0..calls + 43 {
        let c = if i < 43 { i + 1 } else { r.from(1, 43) };
        if edits > 0 && i >= 43 && r.one_in(15) {
            let v = 1 + 2 * r.below(edits);
            lines.push(format!("removeedit {} 65535", v));
            lines.push(format!("addedit {} {} 65535", v, [1, 1000, 1_000_000][r.below(3) as usize]));
        } else if edits > 0 && i >= 43 && r.one_in(4) {
            lines.push(format!("suggest {} {} 65535", 1 + 2 * r.below(edits), r.below(900)));
        } else if added[c as usize] {
            added[c as usize] = false;
            lines.push(format!("remove {} 65535", c));
        } else {
            added[c as usize] = true;
            let (a, apart) = (r.from(1, edges - 1), r.from(1, 6));
            let b = (a + apart).min(edges);
            let strength = [1_001_001_000, 1, 1, 10, 1000, 1_000_000][r.below(6) as usize];
            lines.push(match r.below(5) {
                0 => format!("add {} 65535 ge req -{} 2 {} 1 {} -1", c, r.below(30), b, a),
                1 | 2 => format!("add {} 65535 eq {} -{} 2 {} 1 {} -1", c, strength.min(1_000_000), r.below(90), b, a),
                3 => format!("add {} 65535 ge {} -{} 1 {} 1", c, strength, r.below(40), a),
                _ => format!("add {} 65535 le {} -{} 1 {} 1", c, strength, r.from(300, 900), b),
            });
        }
    }
    lines
}

/// Closing panes: up to 40 constraints of one group among 48, bounds and differences over up to 20 edges, and drops of it with budgets from
/// none to plenty until one suffices; then the pane opens again.
pub fn panes(calls: u64, r: &mut Random) -> Vec<String> {
    let mut lines = Vec::new();
    let (edges, edits) = (r.from(4, 20), r.from(0, 4));
    for edit in 0..edits {
        lines.push(format!("addedit {} {} 65535", 1 + edit, [1, 1000, 1_000_000][r.below(3) as usize]));
    }
    let others = r.from(0, 4);
    while (lines.len() as u64) < calls + 50 {
        let pane = r.from(1, 40);
        for c in 1..=pane + others {
            let group = if c > pane { 2 } else { r.pick(&[7, 7, 7, 7, 7, 7, 7, 9]) };
            let (a, b) = (r.from(1, edges), r.from(1, edges));
            let strength = number(random::usual_strength(r));
            let terms = if a == b { format!("1 {} 1", a) } else { format!("2 {} 1 {} -1", a, b) };
            let relation = r.pick(ALL_RELATIONS);
            // a required equality seldom fits the others
            let strength = if relation == "eq" && strength == "1001001000" && !r.one_in(6) { "10".to_string() } else { strength };
            lines.push(format!("addg {} {} 65535 {} {} {} {}", group, c, relation, strength, number(random::drag_bound(r)), terms));
            if edits > 0 && r.one_in(6) {
                lines.push(format!("suggest {} {} 65535", r.from(1, edits), number(random::drag_value(r))));
            }
        }
        for budget in [r.below(2), r.below(6), r.below(20), 65535] {
            lines.push(format!("drop 7 {}", budget));
            lines.push(format!("hascon {}", r.from(1, pane)));
            lines.push(format!("value {}", r.from(1, edges)));
        }
        lines.push("fetch".to_string());
        lines.push(format!("drop 9 {}", r.below(9)));
    }
    lines
}

/// The next id near 4,294,900,000, which needs the bench's own call.
pub fn ids(calls: u64, r: &mut Random) -> Vec<String> {
    let mut lines = mixed(&KINDS[0], calls / 2, r);
    lines.push(format!("setnext {}", 4_294_900_000 - r.below(8)));
    lines.extend(mixed(&KINDS[0], calls - calls / 2, r));
    lines
}

/// Lines that are no call, among calls.
pub fn malformed(calls: u64, r: &mut Random) -> Vec<String> {
    let mut lines = Vec::new();
    for line in mixed(&KINDS[0], calls, r) {
        if r.one_in(4) {
            let mut words: Vec<String> = line.split(' ').map(String::from).collect();
            let i = r.below(words.len() as u64) as usize;
            match r.below(7) {
                0 => words[i].push('x'),
                1 => words[i] = String::new(),
                2 => words.push("1".to_string()),
                3 => words[i] = "0x123".to_string(),
                4 => words[i] = "9007199254740993".to_string(),
                5 => words[i] = "4294967296".to_string(),
                _ => {
                    words.pop();
                }
            }
            lines.push(words.join(" "));
        } else {
            lines.push(line);
        }
    }
    lines
}
