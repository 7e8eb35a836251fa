//! The calls of lines, of the service cable and of strengths, and a constraint shown.
use super::{Tables, BYTES, CABLE, CELLS, LINE, LINE_REALS, LINE_WORDS, REALS, TERMS, WORDS};
use crate::{RelationalOperator, Term};

extern "C" {
    fn knobharbor_show(
        words: &[u64; WORDS],
        keys: &[u16; CELLS],
        bytes: &[u8; BYTES],
        reals: &[f64; REALS],
        values: &[f64; CELLS],
        number: u32,
        line_words: *mut u64,
        line_reals: *mut f64,
        variables: *mut u32,
        coefficients: *mut f64,
    );
    fn knobharbor_read_line(line: *const u8, length: u64, words: *mut u64, reals: *mut f64, variables: *mut u32, coefficients: *mut f64);
    fn knobharbor_write_line(
        buffer: *mut u8,
        length: u64,
        kind: u32,
        strength: f64,
        group: u16,
        constant: f64,
        vars: *const u32,
        var_count: u64,
        coefs: *const f64,
        coef_count: u64,
    ) -> u32;
    fn knobharbor_cable_take(
        cable: *mut u8,
        piece: *const u8,
        length: u64,
        words: *mut u64,
        reals: *mut f64,
        variables: *mut u32,
        coefficients: *mut f64,
    ) -> bool;
    fn knobharbor_cable_close(cable: *mut u8, words: *mut u64, reals: *mut f64, variables: *mut u32, coefficients: *mut f64) -> bool;
    fn knobharbor_strength_create(a: f64, b: f64, c: f64, w: f64) -> f64;
    fn knobharbor_strength_clip(s: f64) -> f64;
}

/// What a line's reader hands over, or of the solver's own a constraint that is shown, in the places of include/knobharbor.h; what an answer
/// does not say is 0.
pub struct Handed {
    words: [u64; LINE_WORDS],
    reals: [f64; LINE_REALS],
    pub variables: [u32; TERMS],
    pub coefficients: [f64; TERMS],
}

impl Handed {
    const NONE: Handed = Handed { words: [0; LINE_WORDS], reals: [0.0; LINE_REALS], variables: [0; TERMS], coefficients: [0.0; TERMS] };

    pub fn taken(&self) -> usize {
        self.words[0] as usize
    }

    pub fn number(&self) -> u32 {
        self.words[1] as u32
    }

    pub fn offset(&self) -> usize {
        self.words[2] as usize
    }

    pub fn kind(&self) -> u64 {
        self.words[3]
    }

    pub fn count(&self) -> usize {
        self.words[4] as usize
    }

    pub fn group(&self) -> u16 {
        self.words[5] as u16
    }

    pub fn constant(&self) -> f64 {
        self.reals[0]
    }

    pub fn strength(&self) -> f64 {
        self.reals[1]
    }
}

macro_rules! hand_over {
    ($f:ident($($arg:expr),*)) => {{
        let mut h = Handed::NONE;
        // The pointers are to whole arrays that nobody else holds during the call, and to what it only reads.
        let answered = unsafe {
            $f($($arg,)* h.words.as_mut_ptr(), h.reals.as_mut_ptr(), h.variables.as_mut_ptr(), h.coefficients.as_mut_ptr())
        };
        (answered, h)
    }};
}

pub fn read_line(line: &[u8]) -> Handed {
    let (_, handed) = hand_over!(knobharbor_read_line(line.as_ptr(), line.len() as u64));
    handed
}

/// The constraint of this number as it was added.
pub fn show(t: &Tables, number: u32) -> Handed {
    let (_, handed) = hand_over!(knobharbor_show(&t.words, &t.keys, &t.bytes, &t.reals, &t.values, number));
    handed
}

/// One term more than a line has, so that too many of them are seen to be.
const ENOUGH: usize = TERMS + 1;

pub fn write_line(buffer: &mut [u8; LINE], terms: &[Term], constant: f64, op: RelationalOperator, strength: f64, group: u16) -> u32 {
    let (mut vars, mut coefs) = ([0; ENOUGH], [0.0; ENOUGH]);
    for (term, (v, k)) in terms.iter().zip(vars.iter_mut().zip(&mut coefs)) {
        (*v, *k) = (term.variable.number(), term.coefficient);
    }
    let n = terms.len().min(ENOUGH) as u64;
    // The buffer is a whole array that nobody else holds during the call, and both lists have at least n elements.
    unsafe {
        knobharbor_write_line(buffer.as_mut_ptr(), LINE as u64, op.kind(), strength, group, constant, vars.as_ptr(), n, coefs.as_ptr(), n)
    }
}

/// Whether a line ends in the piece, and what is handed over.
pub fn cable_take(cable: &mut [u8; CABLE], piece: &[u8]) -> (bool, Handed) {
    hand_over!(knobharbor_cable_take(cable.as_mut_ptr(), piece.as_ptr(), piece.len() as u64))
}

/// Whether a line had begun, and what is handed over.
pub fn cable_close(cable: &mut [u8; CABLE]) -> (bool, Handed) {
    hand_over!(knobharbor_cable_close(cable.as_mut_ptr()))
}

pub fn strength_create(a: f64, b: f64, c: f64, w: f64) -> f64 {
    // numbers alone, no pointer
    unsafe { knobharbor_strength_create(a, b, c, w) }
}

pub fn strength_clip(s: f64) -> f64 {
    // numbers alone, no pointer
    unsafe { knobharbor_strength_clip(s) }
}
