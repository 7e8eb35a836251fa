//! States in which one thing is wrong and all else fits to it, so that the one clause that forbids it must be what refuses them.
use crate::craft::{count_uses, state, LARGEST, MOST_GONE, MOST_TAGS, MOST_TERMS, MOST_VARIABLES, REQUIRED};
use crate::layout::{code, id_of, kind_of, Held, CELLS, DUMMY, ERROR, EXTERNAL, NONE, SLACK, SPAN, SYMBOL_ROOM};
use crate::random::Random;
use crate::state::{RowWords, Words};

/// A symbol's word another word wherever it stands.
fn rename(w: &mut Words, old: u64, new: u64) {
    let change = |s: &mut u64| {
        if *s == old {
            *s = new;
        }
    };
    w.symbols.iter_mut().for_each(change);
    w.rows.iter_mut().for_each(|r| change(&mut r.symbol));
    w.variables.iter_mut().for_each(|v| change(&mut v.symbol));
    w.constraints.iter_mut().for_each(|c| [&mut c.marker, &mut c.other].into_iter().for_each(change));
    w.edits.iter_mut().for_each(|e| [&mut e.marker, &mut e.other].into_iter().for_each(change));
}

/// One more symbol at the end, with cells of 0.0.
fn append(w: &mut Words, symbol: u64) {
    w.symbols.push(symbol);
    w.objective.push(0.0);
    w.rows.iter_mut().for_each(|r| r.cells.push(0.0));
}

fn last_id(w: &Words) -> u64 {
    w.symbols.last().map_or(0, |s| id_of(*s))
}

fn some<'a, T>(g: &mut Random, from: &'a mut [T]) -> Option<&'a mut T> {
    if from.is_empty() { None } else { let i = g.below(from.len()); Some(&mut from[i]) }
}

fn swap<T>(g: &mut Random, list: &mut [T]) {
    if list.len() > 1 {
        let i = g.below(list.len() - 1);
        list.swap(i, i + 1);
    }
}

/// A place among the cells of a symbol that is not basic.
fn free_cell(g: &mut Random, w: &Words) -> Option<usize> {
    let places: Vec<usize> = (0..w.symbols.len()).filter(|i| w.rows.iter().all(|r| id_of(r.symbol) != id_of(w.symbols[*i]))).collect();
    if places.is_empty() { None } else { Some(g.pick(&places)) }
}

fn basic_cell(g: &mut Random, w: &Words) -> Option<usize> {
    let r = w.rows.get(g.below(w.rows.len().max(1)))?;
    w.symbols.iter().position(|s| *s == r.symbol)
}

type Break = fn(&mut Random, &mut Words) -> Option<()>;

const COUNTS_AND_ORDER: &[Break] = &[
    |g, w| {
        let variable = some(g, &mut w.variables)?.number;
        let many = MOST_TERMS + 1 + g.below(3);
        some(g, &mut w.constraints)?.terms.resize(many, (variable, 1.0));
        Some(count_uses(w))
    },
    |g, w| Some(swap(g, &mut w.variables)),
    |g, w| Some(swap(g, &mut w.constraints)),
    |g, w| Some(swap(g, &mut w.edits)),
    |g, w| Some(swap(g, &mut w.rows)),
    |g, w| {
        let i = g.below(w.symbols.len().checked_sub(1)?.max(1));
        w.symbols.get(i + 1)?;
        w.symbols.swap(i, i + 1);
        w.objective.swap(i, i + 1);
        w.rows.iter_mut().for_each(|r| r.cells.swap(i, i + 1));
        Some(())
    },
    |_, w| {
        let first = *w.symbols.first()?;
        Some(rename(w, first, code(0, kind_of(first))))
    },
    |g, w| {
        let i = g.below(w.variables.len().checked_sub(1)?.max(1));
        let (kept, gone) = (w.variables[i].symbol, w.variables.get(i + 1)?.symbol);
        remove_symbol(w, gone);
        w.variables[i + 1].symbol = kept;
        Some(())
    },
    |g, w| Some(w.next = last_id(w).checked_sub(g.word() % 2)?.max(1)).filter(|_| !w.symbols.is_empty()),
    |_, w| Some(*w = Words { cutoff: w.cutoff, ..Words::default() }),
    |_, w| {
        let tags = w.constraints.len() + w.edits.len();
        let free = w.symbols.iter().copied().find(|s| w.rows.iter().all(|r| r.symbol != *s))?;
        let place = w.symbols.iter().position(|s| *s == free)?;
        w.objective[place] = 0.0;
        w.rows.iter_mut().for_each(|r| r.cells[place] = 0.0);
        let cells = vec![0.0; w.symbols.len()];
        w.rows.push(RowWords { symbol: free, constant: 1.0, cells });
        w.rows.sort_by_key(|r| r.symbol);
        Some(()).filter(|_| w.rows.len() == tags + 1)
    },
];

fn remove_symbol(w: &mut Words, gone: u64) {
    w.rows.retain(|r| r.symbol != gone);
    if let Some(place) = w.symbols.iter().position(|s| *s == gone) {
        w.symbols.remove(place);
        w.objective.remove(place);
        w.rows.iter_mut().for_each(|r| {
            r.cells.remove(place);
        });
    }
}

const SYMBOLS: &[Break] = &[
    |g, w| {
        let i = basic_cell(g, w)?;
        some(g, &mut w.rows)?.cells[i] = 1.0;
        Some(())
    },
    |g, w| {
        let i = basic_cell(g, w)?;
        Some(w.objective[i] = -1.0)
    },
    |g, w| {
        let id = last_id(w) + 1;
        w.next = w.next.max(id + 1);
        Some(append(w, code(id, g.pick(&[EXTERNAL, SLACK, ERROR, DUMMY]))))
    },
    |g, w| {
        let s = g.pick(&[*w.symbols.first()?]);
        Some(remove_symbol(w, s))
    },
    |_, w| {
        let id = last_id(w) + 1;
        Some(w.rows.last_mut()?.symbol = code(id, SLACK))
    },
    |g, w| {
        let v = some(g, &mut w.variables)?;
        Some(v.uses = g.pick(&[v.uses + 1, v.uses.wrapping_sub(1)]))
    },
    |g, w| {
        let variable = w.variables.last().map_or(0, |v| v.number) + 1;
        let c = some(g, &mut w.constraints)?;
        c.terms.push((variable, 1.0));
        Some(()).filter(|_| c.terms.len() <= MOST_TERMS)
    },
    |_, w| Some(w.edits.last_mut()?.variable = w.variables.last()?.number + 1).map(|_| count_uses(w)),
];

const NUMBERS: &[Break] = &[
    |g, w| {
        let i = free_cell(g, w)?;
        Some(w.objective[i] = g.not_finite())
    },
    |g, w| {
        let bad = g.not_finite();
        Some(some(g, &mut w.rows)?.constant = bad)
    },
    |g, w| {
        let (i, bad) = (free_cell(g, w)?, g.not_finite());
        Some(some(g, &mut w.rows)?.cells[i] = bad)
    },
    |g, w| {
        let bad = g.pick(&[f64::INFINITY, f64::NEG_INFINITY]);
        Some(some(g, &mut w.variables)?.old = bad)
    },
    |g, w| {
        let c = some(g, &mut w.constraints)?;
        // one that leaves the tag's kinds as they fit
        Some(c.strength = if c.strength < REQUIRED { f64::NEG_INFINITY } else { g.pick(&[f64::INFINITY, f64::NAN]) })
    },
    |g, w| {
        let bad = g.not_finite();
        let c = some(g, &mut w.constraints)?;
        Some(some(g, &mut c.terms)?.1 = bad)
    },
    |g, w| Some(some(g, &mut w.edits)?.strength = f64::NEG_INFINITY),
    |g, w| {
        let bad = g.not_finite();
        Some(some(g, &mut w.edits)?.suggestion = bad)
    },
    |g, w| {
        let old = some(g, &mut w.variables)?.symbol;
        Some(rename(w, old, code(id_of(old), g.pick(&[SLACK, ERROR, DUMMY]))))
    },
    |g, w| {
        let c = some(g, &mut w.constraints)?;
        let old = if c.other != NONE && g.one_in(2) { c.other } else { c.marker };
        Some(rename(w, old, code(id_of(old), (kind_of(old) + 1 + g.word() % 3) % 4)))
    },
    |g, w| {
        let c = some(g, &mut w.constraints)?;
        Some(c.strength = if c.strength < REQUIRED { REQUIRED } else { 1.0 })
    },
    |g, w| {
        let e = some(g, &mut w.edits)?;
        let old = g.pick(&[e.marker, e.other]);
        Some(rename(w, old, code(id_of(old), g.pick(&[EXTERNAL, SLACK, DUMMY]))))
    },
    |g, w| Some(some(g, &mut w.edits)?.strength = REQUIRED),
    |g, w| Some(w.next = LARGEST + 1 + g.word() % 1000),
    |_, w| {
        let (old, new) = (w.variables.last()?.number, LARGEST + 1 + w.variables.last()?.number);
        w.variables.last_mut()?.number = new;
        w.constraints.iter_mut().flat_map(|c| &mut c.terms).filter(|t| t.0 == old).for_each(|t| t.0 = new);
        w.edits.iter_mut().filter(|e| e.variable == old).for_each(|e| e.variable = new);
        Some(())
    },
    |_, w| Some(w.constraints.last_mut()?.number += LARGEST + 1),
    |g, w| Some(some(g, &mut w.constraints)?.group = 0),
    |g, w| {
        let bad = g.not_finite();
        Some(some(g, &mut w.constraints)?.constant = bad)
    },
    // one that leaves an inequality one
    |g, w| {
        let bad = 3 + g.word() % 200;
        let c = some(g, &mut w.constraints)?;
        Some(c.relation = bad).filter(|_| kind_of(c.marker) == SLACK)
    },
    |g, w| {
        let other = g.pick(&[0, 2]);
        let c = some(g, &mut w.constraints)?;
        Some(c.relation = if kind_of(c.marker) == SLACK { 1 } else { other })
    },
    |g, w| Some(w.cutoff = g.bad_cutoff()),
    |g, w| Some(w.cutoff = g.bad_cutoff()),
    |g, w| Some(w.clear = 2 + g.word() % 9),
    |g, w| Some(w.whole = 2 + g.word() % 9),
    |g, w| Some(some(g, &mut w.variables)?.changed = 2 + g.word() % 9),
];

/// A number more among those that wait.
fn waits(w: &mut Words, number: u64) -> Option<()> {
    w.gone.push(number);
    w.gone.sort();
    Some(()).filter(|_| w.gone.len() <= MOST_GONE)
}

const WAITING: &[Break] = &[
    |g, w| Some(swap(g, &mut w.gone)),
    |g, w| {
        let again = *some(g, &mut w.gone)?;
        waits(w, again)
    },
    |g, w| waits(w, LARGEST + 1 + g.word() % 9),
    |g, w| {
        let reported: Vec<u64> = w.variables.iter().filter(|v| !v.old.is_nan()).map(|v| v.number).collect();
        if reported.is_empty() { None } else { waits(w, g.pick(&reported)) }
    },
];

type HeldBreak = fn(&mut Random, &mut Held) -> Option<()>;

/// A row's number and a symbol's place that have a cell, and which one it is.
fn some_cell(g: &mut Random, h: &Held) -> Option<usize> {
    if h.cells.is_empty() { None } else { Some(g.below(h.cells.len())) }
}

fn key(row: usize, place: usize) -> u16 {
    (row * SPAN + place) as u16
}

fn insert_cell(h: &mut Held, key: u16) -> Option<()> {
    let at = h.cells.iter().position(|c| c.0 >= key).unwrap_or(h.cells.len());
    Some(h.cells.insert(at, (key, 1.0))).filter(|_| h.cells.len() <= CELLS)
}

/// What only the sparse form can say.
const CELLS_AND_PLACES: &[HeldBreak] = &[
    |g, h| {
        let i = g.below(h.cells.len().checked_sub(1)?.max(1));
        h.cells.get(i + 1)?;
        Some(h.cells.swap(i, i + 1))
    },
    |g, h| {
        let i = some_cell(g, h)?;
        Some(h.cells.insert(i, h.cells[i])).filter(|_| h.cells.len() <= CELLS)
    },
    |g, h| {
        let i = some_cell(g, h)?;
        Some(h.cells[i].1 = g.pick(&[0.0, -0.0]))
    },
    |g, h| {
        let (row, place) = (1 + g.below(h.rows.len().max(1)), h.symbols.len() + 1 + g.below(3));
        h.rows.get(row - 1)?;
        insert_cell(h, key(row, place))
    },
    |g, h| {
        let row = 1 + g.below(h.rows.len().max(1));
        h.rows.get(row - 1)?;
        insert_cell(h, key(row, 0))
    },
    |g, h| {
        let place = 1 + g.below(h.symbols.len().max(1));
        h.symbols.get(place - 1)?;
        let row = g.pick(&[0, h.rows.len() + 1]);
        insert_cell(h, key(row, place))
    },
    |g, h| {
        let s = some(g, &mut h.symbols)?;
        Some(s.1 = 4 + g.below(9) as u8)
    },
    |g, h| Some(some(g, &mut h.variables)?.place = 0),
    |g, h| Some(some(g, &mut h.rows)?.0 = 0),
    |g, h| Some(some(g, &mut h.constraints)?.tag.marker = 0),
    |g, h| {
        let past = h.symbols.len() as u8 + 1 + g.below(3) as u8;
        Some(some(g, &mut h.constraints)?.tag.other = past)
    },
    |g, h| {
        let past = h.symbols.len() as u8 + 1 + g.below(3) as u8;
        Some(some(g, &mut h.edits)?.tag.other = past)
    },
    |g, h| {
        let owner = some(g, &mut h.constraints)?.tag.marker;
        Some(some(g, &mut h.terms)?.0 = owner)
    },
];

/// Counts above the room, of tables that hold no more than the room.
const COUNTS: &[HeldBreak] = &[
    |g, h| Some(h.symbol_count = SYMBOL_ROOM as u64 + 1 + g.word() % 9),
    |g, h| Some(h.cell_count = CELLS as u64 + 1 + g.word() % 9),
    |g, h| Some(h.variable_count = MOST_VARIABLES as u64 + 1 + g.word() % 9).filter(|_| h.variables.len() == MOST_VARIABLES),
    |g, h| Some(h.constraint_count = MOST_TAGS as u64 + 1 + g.word() % 9).filter(|_| h.constraints.len() == MOST_TAGS),
    |g, h| Some(h.gone_count = MOST_GONE as u64 + 1 + g.word() % 9).filter(|_| h.gone.len() == MOST_GONE),
];

/// What is held of a state in which one thing is wrong, or of a state where it has no place for it.
pub fn broken(g: &mut Random) -> Held {
    let w = state(g);
    let held = w.held();
    let breaks: Vec<Break> = [COUNTS_AND_ORDER, SYMBOLS, NUMBERS, WAITING].concat();
    match g.below(4) {
        0 => {
            let mut out = held.clone();
            let made = g.pick(CELLS_AND_PLACES)(g, &mut out);
            if made.is_some() { out.counted() } else { held }
        }
        1 => {
            let mut out = held.clone();
            let made = g.pick(COUNTS)(g, &mut out);
            if made.is_some() { out } else { held }
        }
        _ => {
            let mut out = w;
            let made = g.pick(&breaks)(g, &mut out);
            if made.is_some() { out.held() } else { held }
        }
    }
}
