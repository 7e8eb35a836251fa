//! The lent tables: how long they are, which place holds what, what they hold as lists, and lists laid into them. No other file knows a
//! number of the layout.

// ---- lengths and places

pub const WORDS: usize = 338;
pub const CELLS: usize = 6579;
pub const BYTES: usize = 1360;
pub const REALS: usize = 1180;
/// The lengths that tables have: words, keys, bytes, reals, values.
pub const LENGTHS: [usize; 5] = [WORDS, CELLS, BYTES, REALS, CELLS];
/// The places of each of fetch's three lists.
pub const CHANGES: usize = 64;
/// The places of what is shown beside the terms, and of these.
pub const LINE_WORDS: usize = 6;
pub const LINE_REALS: usize = 2;
pub const LINE_TERMS: usize = 16;

const NEXT: usize = 0;
const SYMBOL_COUNT: usize = 1;
const ROW_COUNT: usize = 2;
const CELL_COUNT: usize = 3;
const VARIABLE_COUNT: usize = 4;
const CONSTRAINT_COUNT: usize = 5;
const EDIT_COUNT: usize = 6;
const CLEAR: usize = 7;
const WHOLE: usize = 8;
const GONE_COUNT: usize = 9;
const HEADING: usize = 10;

// of words; symbols and rows are counted from 1
const IDS: usize = 16;
const NUMBERS: usize = 146;
const USES: usize = 178;
const CONSTRAINTS: usize = 210;
const GROUPS: usize = 258;
const GONE: usize = 306;

// of bytes
const KINDS: usize = 1;
const BASICS: usize = 137;
const PLACES: usize = 192;
const CHANGED: usize = 224;
const MARKERS: usize = 256;
const OTHERS: usize = 304;
const TERM_COUNTS: usize = 352;
const EDITED: usize = 400;
const EDIT_MARKERS: usize = 448;
const EDIT_OTHERS: usize = 496;
const TERMS: usize = 544;
const RELATIONS: usize = 1312;

// of reals
const CONSTANTS: usize = 1;
const OLD: usize = 56;
const OBJECTIVE: usize = 88;
const CUTOFF: usize = 219;
const STRENGTHS: usize = 220;
const EDIT_STRENGTHS: usize = 268;
const SUGGESTIONS: usize = 316;
const COEFFICIENTS: usize = 364;
const CONSTRAINT_CONSTANTS: usize = 1132;

// how much a list may hold
pub const SYMBOL_ROOM: usize = 129;
const ROW_ROOM: usize = 50;
const VARIABLE_ROOM: usize = USES - NUMBERS;
const RECORD_ROOM: usize = GROUPS - CONSTRAINTS;
const GONE_ROOM: usize = WORDS - GONE;
const TERM_ROOM: usize = RELATIONS - TERMS;

/// How far the keys of one row lie from those of the next.
pub const SPAN: usize = 256;

// ---- symbols: an id and a kind in one word

const KIND_COUNT: u64 = 4;
pub const EXTERNAL: u64 = 0;
pub const SLACK: u64 = 1;
pub const ERROR: u64 = 2;
pub const DUMMY: u64 = 3;
/// No other symbol.
pub const NONE: u64 = 0;

pub fn code(id: u64, kind: u64) -> u64 {
    id.wrapping_mul(KIND_COUNT).wrapping_add(kind)
}

pub fn id_of(code: u64) -> u64 {
    code / KIND_COUNT
}

pub fn kind_of(code: u64) -> u64 {
    code % KIND_COUNT
}

// ---- the five tables

#[derive(Clone)]
pub struct Tables {
    pub words: Vec<u64>,
    pub keys: Vec<u16>,
    pub bytes: Vec<u8>,
    pub reals: Vec<f64>,
    pub values: Vec<f64>,
}

fn number_bits(list: &[f64]) -> impl Iterator<Item = u64> + '_ {
    list.iter().map(|x| x.to_bits())
}

impl Tables {
    /// Each word, key and byte by `word`, each number by `number`.
    pub fn filled(mut word: impl FnMut() -> u64, mut number: impl FnMut() -> f64) -> Tables {
        Tables {
            words: (0..WORDS).map(|_| word()).collect(),
            keys: (0..CELLS).map(|_| word() as u16).collect(),
            bytes: (0..BYTES).map(|_| word() as u8).collect(),
            reals: (0..REALS).map(|_| number()).collect(),
            values: (0..CELLS).map(|_| number()).collect(),
        }
    }

    /// All that stands there, as bits.
    pub fn bits(&self) -> impl Iterator<Item = u64> + '_ {
        let small = self.keys.iter().map(|k| u64::from(*k)).chain(self.bytes.iter().map(|b| u64::from(*b)));
        self.words.iter().copied().chain(small).chain(number_bits(&self.reals)).chain(number_bits(&self.values))
    }

    /// All the same. Where `loose`, a zero of the objective is any zero: which sign an absent cell has is the lender's.
    pub fn same(&self, other: &Tables, loose: bool) -> bool {
        let aim = OBJECTIVE..OBJECTIVE + SYMBOL_ROOM;
        let alike = |(i, (a, b)): (usize, (&f64, &f64))| a.to_bits() == b.to_bits() || (loose && aim.contains(&i) && *a == 0.0 && *b == 0.0);
        self.words == other.words
            && self.keys == other.keys
            && self.bytes == other.bytes
            && self.reals.len() == other.reals.len()
            && self.reals.iter().zip(&other.reals).enumerate().all(alike)
            && number_bits(&self.values).eq(number_bits(&other.values))
    }

    /// One thing that stands there, by its place among all.
    pub fn word_at(&mut self, place: usize) -> Word<'_> {
        let mut place = place % LENGTHS.iter().sum::<usize>();
        if place < WORDS {
            return Word::Count(&mut self.words[place]);
        }
        place -= WORDS;
        if place < CELLS {
            return Word::Key(&mut self.keys[place]);
        }
        place -= CELLS;
        if place < BYTES {
            return Word::Byte(&mut self.bytes[place]);
        }
        place -= BYTES;
        if place < REALS {
            return Word::Number(&mut self.reals[place]);
        }
        Word::Number(&mut self.values[place - REALS])
    }

    /// A place of the live part, or near it: `pick` gives a number below its argument.
    pub fn live_place(&self, mut pick: impl FnMut(usize) -> usize) -> usize {
        let h = Held::of(self);
        let (k, r, n, v) = (h.symbols.len(), h.rows.len(), h.cells.len(), h.variables.len());
        let (c, e, m, g) = (h.constraints.len(), h.edits.len(), h.terms.len(), h.gone.len());
        let (keys, bytes) = (WORDS, WORDS + CELLS);
        let (reals, values) = (bytes + BYTES, bytes + BYTES + REALS);
        let parts = [
            (0, HEADING),
            (IDS, k),
            (NUMBERS, v),
            (USES, v),
            (CONSTRAINTS, c),
            (GROUPS, c),
            (GONE, g),
            (keys, n),
            (bytes + KINDS, k),
            (bytes + BASICS, r),
            (bytes + PLACES, v),
            (bytes + CHANGED, v),
            (bytes + MARKERS, c),
            (bytes + OTHERS, c),
            (bytes + TERM_COUNTS, c),
            (bytes + EDITED, e),
            (bytes + EDIT_MARKERS, e),
            (bytes + EDIT_OTHERS, e),
            (bytes + TERMS, m),
            (bytes + RELATIONS, c),
            (reals + CONSTANTS, r),
            (reals + OLD, v),
            (reals + OBJECTIVE, k),
            (reals + CUTOFF, 1),
            (reals + STRENGTHS, c),
            (reals + EDIT_STRENGTHS, e),
            (reals + SUGGESTIONS, e),
            (reals + COEFFICIENTS, m),
            (reals + CONSTRAINT_CONSTANTS, c),
            (values, n),
        ];
        let (start, count) = parts[pick(parts.len())];
        start + pick(count + 1)
    }
}

pub enum Word<'a> {
    Count(&'a mut u64),
    Key(&'a mut u16),
    Byte(&'a mut u8),
    Number(&'a mut f64),
}

// ---- what tables hold, as it stands there: symbols by their places, 0 for none

#[derive(Clone, Debug, Default)]
pub struct HeldVariable {
    pub number: u64,
    pub place: u8,
    pub uses: u64,
    pub changed: u8,
    pub old: f64,
}

/// The marker and the other, and the strength.
#[derive(Clone, Copy, Debug, Default)]
pub struct HeldTag {
    pub marker: u8,
    pub other: u8,
    pub strength: f64,
}

#[derive(Clone, Debug, Default)]
pub struct HeldConstraint {
    pub number: u64,
    pub group: u64,
    pub relation: u8,
    pub constant: f64,
    pub tag: HeldTag,
    pub count: u8,
}

#[derive(Clone, Debug, Default)]
pub struct HeldEdit {
    pub variable: u8,
    pub tag: HeldTag,
    pub suggestion: f64,
}

/// The counts as they stand, which may be above the room; the lists hold no more than the room does.
#[derive(Clone, Debug, Default)]
pub struct Held {
    pub cutoff: f64,
    pub next: u64,
    pub clear: u64,
    pub whole: u64,
    pub symbol_count: u64,
    pub row_count: u64,
    pub cell_count: u64,
    pub variable_count: u64,
    pub constraint_count: u64,
    pub edit_count: u64,
    pub gone_count: u64,
    /// id and kind
    pub symbols: Vec<(u64, u8)>,
    /// the basic symbol's place and the constant
    pub rows: Vec<(u8, f64)>,
    pub cells: Vec<(u16, f64)>,
    pub objective: Vec<f64>,
    pub variables: Vec<HeldVariable>,
    /// the numbers that the next fetch lists as gone
    pub gone: Vec<u64>,
    pub constraints: Vec<HeldConstraint>,
    /// of all constraints, one after the other: the variable's place and the coefficient
    pub terms: Vec<(u8, f64)>,
    pub edits: Vec<HeldEdit>,
}

fn held(count: u64, room: usize) -> usize {
    count.min(room as u64) as usize
}

impl Held {
    /// What a reset with this cutoff leaves.
    pub fn empty(cutoff: f64) -> Held {
        Held { cutoff, next: 1, whole: 1, ..Held::default() }
    }

    pub fn of(t: &Tables) -> Held {
        let (w, b, f) = (&t.words, &t.bytes, &t.reals);
        let mut h = Held {
            cutoff: f[CUTOFF],
            next: w[NEXT],
            clear: w[CLEAR],
            whole: w[WHOLE],
            symbol_count: w[SYMBOL_COUNT],
            row_count: w[ROW_COUNT],
            cell_count: w[CELL_COUNT],
            variable_count: w[VARIABLE_COUNT],
            constraint_count: w[CONSTRAINT_COUNT],
            edit_count: w[EDIT_COUNT],
            gone_count: w[GONE_COUNT],
            ..Held::default()
        };
        let k = held(h.symbol_count, SYMBOL_ROOM);
        h.symbols = (0..k).map(|i| (w[IDS + i], b[KINDS + i])).collect();
        h.objective = f[OBJECTIVE..OBJECTIVE + k].to_vec();
        h.rows = (0..held(h.row_count, ROW_ROOM)).map(|i| (b[BASICS + i], f[CONSTANTS + i])).collect();
        h.cells = (0..held(h.cell_count, CELLS)).map(|i| (t.keys[i], t.values[i])).collect();
        h.variables = (0..held(h.variable_count, VARIABLE_ROOM))
            .map(|i| HeldVariable { number: w[NUMBERS + i], place: b[PLACES + i], uses: w[USES + i], changed: b[CHANGED + i], old: f[OLD + i] })
            .collect();
        h.gone = w[GONE..GONE + held(h.gone_count, GONE_ROOM)].to_vec();
        h.read_records(t);
        h
    }

    fn read_records(&mut self, t: &Tables) {
        let (w, b, f) = (&t.words, &t.bytes, &t.reals);
        self.constraints = (0..held(self.constraint_count, RECORD_ROOM))
            .map(|i| {
                let tag = HeldTag { marker: b[MARKERS + i], other: b[OTHERS + i], strength: f[STRENGTHS + i] };
                let (relation, constant) = (b[RELATIONS + i], f[CONSTRAINT_CONSTANTS + i]);
                HeldConstraint { number: w[CONSTRAINTS + i], group: w[GROUPS + i], relation, constant, tag, count: b[TERM_COUNTS + i] }
            })
            .collect();
        let terms = self.constraints.iter().map(|c| usize::from(c.count)).sum::<usize>().min(TERM_ROOM);
        self.terms = (0..terms).map(|j| (b[TERMS + j], f[COEFFICIENTS + j])).collect();
        self.edits = (0..held(self.edit_count, RECORD_ROOM))
            .map(|i| {
                let tag = HeldTag { marker: b[EDIT_MARKERS + i], other: b[EDIT_OTHERS + i], strength: f[EDIT_STRENGTHS + i] };
                HeldEdit { variable: b[EDITED + i], tag, suggestion: f[SUGGESTIONS + i] }
            })
            .collect();
    }

    /// Each count is that of its list.
    pub fn counted(mut self) -> Held {
        self.symbol_count = self.symbols.len() as u64;
        self.row_count = self.rows.len() as u64;
        self.cell_count = self.cells.len() as u64;
        self.variable_count = self.variables.len() as u64;
        self.constraint_count = self.constraints.len() as u64;
        self.edit_count = self.edits.len() as u64;
        self.gone_count = self.gone.len() as u64;
        self
    }

    /// Over the live part of tables of the right lengths: what is past it stays. A list may be longer than its room by what
    /// the next one leaves free.
    pub fn lay(&self, t: &mut Tables) {
        let heading = [
            self.next,
            self.symbol_count,
            self.row_count,
            self.cell_count,
            self.variable_count,
            self.constraint_count,
            self.edit_count,
            self.clear,
            self.whole,
            self.gone_count,
        ];
        t.words[..HEADING].copy_from_slice(&heading);
        t.reals[CUTOFF] = self.cutoff;
        for (i, &(id, kind)) in self.symbols.iter().enumerate() {
            (t.words[IDS + i], t.bytes[KINDS + i]) = (id, kind);
        }
        t.reals[OBJECTIVE..OBJECTIVE + self.objective.len()].copy_from_slice(&self.objective);
        for (i, &(place, constant)) in self.rows.iter().enumerate() {
            (t.bytes[BASICS + i], t.reals[CONSTANTS + i]) = (place, constant);
        }
        for (i, &(key, value)) in self.cells.iter().enumerate() {
            (t.keys[i], t.values[i]) = (key, value);
        }
        for (i, v) in self.variables.iter().enumerate() {
            (t.words[NUMBERS + i], t.words[USES + i]) = (v.number, v.uses);
            (t.bytes[PLACES + i], t.bytes[CHANGED + i], t.reals[OLD + i]) = (v.place, v.changed, v.old);
        }
        t.words[GONE..GONE + self.gone.len()].copy_from_slice(&self.gone);
        self.lay_records(t);
    }

    fn lay_records(&self, t: &mut Tables) {
        for (i, c) in self.constraints.iter().enumerate() {
            (t.words[CONSTRAINTS + i], t.words[GROUPS + i], t.bytes[TERM_COUNTS + i]) = (c.number, c.group, c.count);
            (t.bytes[MARKERS + i], t.bytes[OTHERS + i], t.reals[STRENGTHS + i]) = (c.tag.marker, c.tag.other, c.tag.strength);
            (t.bytes[RELATIONS + i], t.reals[CONSTRAINT_CONSTANTS + i]) = (c.relation, c.constant);
        }
        for (j, &(place, coefficient)) in self.terms.iter().enumerate() {
            (t.bytes[TERMS + j], t.reals[COEFFICIENTS + j]) = (place, coefficient);
        }
        for (i, e) in self.edits.iter().enumerate() {
            (t.bytes[EDITED + i], t.reals[SUGGESTIONS + i]) = (e.variable, e.suggestion);
            (t.bytes[EDIT_MARKERS + i], t.bytes[EDIT_OTHERS + i], t.reals[EDIT_STRENGTHS + i]) = (e.tag.marker, e.tag.other, e.tag.strength);
        }
    }
}
