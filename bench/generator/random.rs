//! A small generator of random numbers (splitmix64), and the numbers that sessions are made of.

pub struct Random {
    state: u64,
    /// of the session's last reset
    pub cutoff: f64,
}

const GREATEST_CUTOFF: f64 = 1e-6;

impl Random {
    /// The session's own numbers, whatever other sessions took.
    pub fn new(seed: u64, session: u64) -> Random {
        let mut r = Random { state: seed, cutoff: 1e-8 };
        r.state = r.next() ^ session.wrapping_mul(0xd1b5_4a32_d192_ed03);
        r
    }

    fn next(&mut self) -> u64 {
        self.state = self.state.wrapping_add(0x9e37_79b9_7f4a_7c15);
        let mut z = self.state;
        z = (z ^ (z >> 30)).wrapping_mul(0xbf58_476d_1ce4_e5b9);
        z = (z ^ (z >> 27)).wrapping_mul(0x94d0_49bb_1331_11eb);
        z ^ (z >> 31)
    }

    pub fn below(&mut self, n: u64) -> u64 {
        self.next() % n
    }

    pub fn from(&mut self, least: u64, most: u64) -> u64 {
        least + self.below(most - least + 1)
    }

    pub fn one_in(&mut self, n: u64) -> bool {
        self.below(n) == 0
    }

    /// A place, by weight.
    pub fn weighted(&mut self, weights: &[u64]) -> usize {
        let mut left = self.below(weights.iter().sum());
        for (i, w) in weights.iter().enumerate() {
            if left < *w {
                return i;
            }
            left -= w;
        }
        weights.len() - 1
    }

    pub fn pick<T: Copy>(&mut self, xs: &[T]) -> T {
        xs[self.below(xs.len() as u64) as usize]
    }

    fn choice(&mut self, xs: &[f64]) -> f64 {
        xs[self.below(xs.len() as u64) as usize]
    }

    /// From 2^least to 2^(most + 1), the power and all digits random, of either sign.
    fn between_powers(&mut self, least: i64, most: i64) -> f64 {
        let power = (1023 + least) as u64 + self.below((most - least + 1) as u64);
        f64::from_bits((self.below(2) << 63) | (power << 52) | (self.next() >> 12))
    }
}

/// NaNs that are no quiet ones, of both signs.
fn signalling(r: &mut Random) -> f64 {
    let payload = [1, 0x0004_0000_0000_0000, 0x0007_ffff_ffff_ffff][r.below(3) as usize];
    f64::from_bits((r.below(2) << 63) | 0x7ff0_0000_0000_0000 | payload)
}

/// As the text format has it: a whole number of at most 2^53 in decimal, another by its bits.
pub fn number(x: f64) -> String {
    if x == 1_001_001_000.0 {
        "req".to_string()
    } else if x == x.trunc() && x.abs() <= 9_007_199_254_740_992.0 && x.to_bits() != (-0.0f64).to_bits() {
        format!("{}", x as i64)
    } else if x.to_bits() == f64::NAN.to_bits() {
        "nan".to_string()
    } else if x.is_infinite() {
        if x > 0.0 { "inf" } else { "-inf" }.to_string()
    } else {
        format!("0x{:016x}", x.to_bits())
    }
}

// ---- budgets

pub fn ample(r: &mut Random) -> u64 {
    if r.one_in(30) { r.below(3) } else { r.from(15, 40) }
}

pub fn scarce(r: &mut Random) -> u64 {
    r.below(4)
}

// ---- coefficients, constants, suggestions

pub fn sign(r: &mut Random) -> f64 {
    r.choice(&[1.0, -1.0])
}

pub fn small_coefficient(r: &mut Random) -> f64 {
    if r.one_in(8) { r.choice(&[2.0, -2.0, 3.0, -3.0, 0.0, 5.0]) } else { sign(r) }
}

pub fn small_constant(r: &mut Random) -> f64 {
    if r.one_in(5) { r.choice(&[0.0, 0.0, -0.0]) } else { r.below(61) as f64 - 30.0 }
}

pub fn few_constants(r: &mut Random) -> f64 {
    r.choice(&[0.0, 0.0, 0.0, 5.0, -5.0])
}

pub fn drag_bound(r: &mut Random) -> f64 {
    r.choice(&[0.0, -10.0, -20.0, -30.0, -50.0, -80.0, 10.0])
}

pub fn drag_value(r: &mut Random) -> f64 {
    r.below(141) as f64 - 20.0
}

pub fn general(r: &mut Random) -> f64 {
    if r.one_in(8) {
        return r.choice(&[0.0, 1.0, -1.0, 0.1, -0.1, 0.3, 1.0 / 3.0]);
    }
    r.between_powers(-10, 10)
}

pub fn tiny(r: &mut Random) -> f64 {
    match r.below(6) {
        0 | 1 => small_coefficient(r),
        2 => r.choice(&[1e-8, -1e-8, 1e-9, -1e-9, 1e-7, -1e-7, 9.999999999999999e-9, 2e-8, -2e-8, 5e-9, 1.0 + 1e-8, 1.0 - 1e-8]),
        3 => r.choice(&[1e-4, -1e-4, 1e4, -1e4, 1e8, -1e8]),
        _ => r.between_powers(-30, -24),
    }
}

/// On both sides of the session's cutoff, and numbers whose sums and products come there.
pub fn around(r: &mut Random) -> f64 {
    let c = r.cutoff;
    let sign = sign(r);
    match r.below(6) {
        0 | 1 => small_coefficient(r),
        2 => sign * r.choice(&[c, f64::from_bits(c.to_bits() - 1), f64::from_bits(c.to_bits() + 1)]),
        3 => sign * r.choice(&[c * 0.5, c * 2.0, c * 0.9, c * 1.1, c.sqrt(), c.sqrt() * 0.9, c.sqrt() * 1.1]),
        4 => sign * r.choice(&[1.0 + c, 1.0 - c, 1.0 + c * 3.0, 1.0 - c * 0.7]),
        _ => general(r),
    }
}

pub fn huge(r: &mut Random) -> f64 {
    match r.below(6) {
        0 | 1 => small_coefficient(r),
        2 => small_constant(r),
        3 => r.choice(&[1.7e308, -1.7e308, 1e154, -1e154, 1e300, -1e300, 1e200, 1e-150, -1e-200, f64::MAX, f64::MIN_POSITIVE]),
        4 => r.between_powers(498, 1023),
        _ => r.between_powers(0, 200),
    }
}

pub fn extreme(r: &mut Random) -> f64 {
    match r.below(3) {
        0 => tiny(r),
        1 => huge(r),
        _ => general(r),
    }
}

// ---- strengths

pub fn usual_strength(r: &mut Random) -> f64 {
    r.choice(&[1_001_001_000.0, 1_001_001_000.0, 1.0, 1.0, 1000.0, 1_000_000.0, 2.0, 10.0, 0.0])
}

pub fn mostly_required(r: &mut Random) -> f64 {
    if r.one_in(4) { usual_strength(r) } else { 1_001_001_000.0 }
}

pub fn equal_strength(r: &mut Random) -> f64 {
    r.choice(&[1_001_001_000.0, 1.0, 1.0])
}

pub fn general_strength(r: &mut Random) -> f64 {
    if r.one_in(2) { usual_strength(r) } else { general(r).abs() }
}

pub fn tiny_strength(r: &mut Random) -> f64 {
    if r.one_in(3) { tiny(r).abs() } else { usual_strength(r) }
}

pub fn strength_around(r: &mut Random) -> f64 {
    if r.one_in(3) { around(r).abs() } else { usual_strength(r) }
}

pub fn extreme_strength(r: &mut Random) -> f64 {
    if r.one_in(3) { extreme(r).abs() } else { usual_strength(r) }
}

pub fn edit_strength(r: &mut Random) -> f64 {
    r.choice(&[1.0, 1.0, 1000.0, 1_000_000.0, 10.0, 0.0, -1.0, 0.5])
}

pub fn any_strength(r: &mut Random) -> f64 {
    match r.below(3) {
        _ if r.one_in(12) => signalling(r),
        0 => r.choice(&[f64::NAN, f64::INFINITY, f64::NEG_INFINITY, -1.0, -0.0, 1_001_001_000.0, 2_000_000_000.0, 1_001_000_999.0]),
        1 => extreme(r),
        _ => usual_strength(r),
    }
}

/// A part of a strength, or its weight.
pub fn part(r: &mut Random) -> f64 {
    match r.below(4) {
        _ if r.one_in(12) => signalling(r),
        0 => r.choice(&[0.0, -0.0, 1.0, 1000.0, 1001.0, 999.0, -1.0, f64::NAN, f64::INFINITY, f64::NEG_INFINITY]),
        1 => extreme(r),
        2 => general(r),
        _ => r.below(1100) as f64,
    }
}

// ---- cutoffs

pub fn cutoff_fits(x: f64) -> bool {
    0.0 < x && x <= GREATEST_CUTOFF
}

/// From the least above 0 to 1E-6, of all sizes.
pub fn good_cutoff(r: &mut Random) -> f64 {
    match r.below(4) {
        0 => r.choice(&[5e-324, f64::MIN_POSITIVE, 1e-300, 1e-100, 1e-12, 1e-8, 1e-7, 5e-7, 9.999999999999999e-7, GREATEST_CUTOFF]),
        1 => f64::from_bits(1 + r.below(GREATEST_CUTOFF.to_bits())),
        _ => r.between_powers(-40, -21).abs(),
    }
}

pub fn bad_cutoff(r: &mut Random) -> f64 {
    match r.below(4) {
        0 => r.choice(&[0.0, -0.0, -5e-324, -1e-8, -GREATEST_CUTOFF, -1.0]),
        1 => r.choice(&[f64::from_bits(GREATEST_CUTOFF.to_bits() + 1), 1e-5, 1.0, f64::MAX]),
        2 => r.choice(&[f64::NAN, f64::INFINITY, f64::NEG_INFINITY]),
        _ => signalling(r),
    }
}

// ---- numbers that a call may refuse

pub fn any(r: &mut Random) -> f64 {
    if r.one_in(12) {
        return signalling(r);
    }
    if r.one_in(3) { r.choice(&[f64::NAN, f64::INFINITY, f64::NEG_INFINITY, -0.0]) } else { extreme(r) }
}

pub fn seldom_bad(r: &mut Random) -> f64 {
    match r.below(60) {
        0 => r.choice(&[f64::NAN, f64::INFINITY]),
        1 => signalling(r),
        _ => small_coefficient(r),
    }
}
