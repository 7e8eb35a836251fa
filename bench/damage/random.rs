//! Random numbers, and random calls.
use crate::archive::Call;

pub struct Random(pub u64);

pub const USUAL_CUTOFF: f64 = 1e-8;
const GREATEST_CUTOFF: f64 = 1e-6;

impl Random {
    // splitmix64
    pub fn word(&mut self) -> u64 {
        self.0 = self.0.wrapping_add(0x9e3779b97f4a7c15);
        let z = (self.0 ^ (self.0 >> 30)).wrapping_mul(0xbf58476d1ce4e5b9);
        let z = (z ^ (z >> 27)).wrapping_mul(0x94d049bb133111eb);
        z ^ (z >> 31)
    }

    pub fn below(&mut self, n: usize) -> usize {
        (self.word() % n as u64) as usize
    }

    pub fn one_in(&mut self, n: usize) -> bool {
        self.below(n) == 0
    }

    pub fn pick<T: Copy>(&mut self, from: &[T]) -> T {
        from[self.below(from.len())]
    }

    // ---- numbers

    pub fn not_finite(&mut self) -> f64 {
        let signalling = f64::from_bits(0x7ff0_0000_0000_0001 | (self.word() << 63));
        self.pick(&[f64::NAN, f64::INFINITY, f64::NEG_INFINITY, signalling])
    }

    /// Finite, of all sizes.
    pub fn wild(&mut self) -> f64 {
        match self.below(8) {
            0 => self.pick(&[1e-9, -1e-9, 1e-8, -1e-8, 5e-9]),
            1 => self.pick(&[1e300, -1e300, 1e-300, 1.7e308, -1e154, f64::MIN_POSITIVE]),
            2 => Some(f64::from_bits(self.word())).filter(|x| x.is_finite()).unwrap_or(0.5),
            3 => self.below(1000) as f64 / 7.0 - 60.0,
            _ => self.tame(),
        }
    }

    pub fn tame(&mut self) -> f64 {
        if self.one_in(3) { self.below(61) as f64 - 30.0 } else { self.pick(&[1.0, -1.0, 1.0, -1.0, 0.0, 2.0]) }
    }

    fn coefficient(&mut self) -> f64 {
        match self.below(20) {
            0 => self.not_finite(),
            1 => self.pick(&[0.0, 1e-9, 1e-8, 1e300]),
            2..=3 => self.pick(&[0.5, 2.0, -3.0, 0.1]),
            n => if n % 2 == 0 { 1.0 } else { -1.0 },
        }
    }

    fn real(&mut self) -> f64 {
        match self.below(40) {
            0 => self.not_finite(),
            1 => self.pick(&[-1e308, 1e300, 1073741825.0]),
            2..=5 => self.below(1000) as f64 / 7.0,
            _ => self.below(400) as f64 - 100.0,
        }
    }

    fn strength(&mut self) -> f64 {
        match self.below(30) {
            0 => self.not_finite(),
            1 => self.pick(&[-1.0, 2e9]),
            2..=9 => 1001001000.0,
            _ => self.pick(&[0.0, 1.0, 10.0, 1000.0, 1000000.0]),
        }
    }

    /// From the least above 0 to 1E-6.
    pub fn good_cutoff(&mut self) -> f64 {
        match self.below(4) {
            0 => self.pick(&[5e-324, f64::MIN_POSITIVE, 1e-300, 1e-12, 9.999999999999999e-7, GREATEST_CUTOFF]),
            1 => f64::from_bits(1 + self.word() % GREATEST_CUTOFF.to_bits()),
            _ => USUAL_CUTOFF,
        }
    }

    pub fn bad_cutoff(&mut self) -> f64 {
        match self.below(3) {
            0 => self.pick(&[0.0, -0.0, -5e-324, -USUAL_CUTOFF, -GREATEST_CUTOFF, -1.0]),
            1 => self.pick(&[f64::from_bits(GREATEST_CUTOFF.to_bits() + 1), 1e-5, 1.0, f64::MAX]),
            _ => self.not_finite(),
        }
    }

    // ---- calls

    fn budget(&mut self) -> u16 {
        match self.below(400) {
            0 => u16::MAX,
            1 => self.word() as u16,
            _ => self.pick(&[0, 1, 2, 5, 50, 500]),
        }
    }

    /// Few of them, so that several constraints have one.
    pub fn some_group(&mut self) -> u16 {
        match self.below(12) {
            0 => self.pick(&[255, 256, u16::MAX]),
            1..=3 => 2,
            4 => 3,
            _ => 1,
        }
    }

    /// One of these numbers for the most part.
    fn one_of(&mut self, live: &[u32]) -> u32 {
        match self.below(12) {
            0 => self.word() as u32,
            1..=3 => 1 + self.below(40) as u32,
            _ if live.is_empty() => 1 + self.below(12) as u32,
            _ => self.pick(live),
        }
    }

    fn terms(&mut self, variables: &[u32]) -> (Vec<u32>, Vec<f64>) {
        let n = match self.below(20) {
            0 => 17 + self.below(3),
            1 => 16,
            2 => 0,
            _ => 1 + self.below(3),
        };
        let vars: Vec<u32> = (0..n).map(|_| self.one_of(variables)).collect();
        let mut coefs: Vec<f64> = (0..n).map(|_| self.coefficient()).collect();
        if n > 16 && self.one_in(2) {
            coefs.iter_mut().take(16).for_each(|k| *k = 1.0);
        }
        if self.one_in(40) {
            coefs.resize(self.below(20), 1.0);
        }
        (vars, coefs)
    }

    /// On tables whose variables, constraints and edits have these numbers, and the constraints these groups.
    pub fn call(&mut self, variables: &[u32], constraints: &[u32], edits: &[u32], groups: &[u16]) -> Call {
        let budget = self.budget();
        match self.below(20) {
            0..=6 => {
                let (vars, coefs) = self.terms(variables);
                let kind = if self.one_in(40) { self.pick(&[3, 4, u32::MAX]) } else { self.below(3) as u32 };
                let number = if self.one_in(3) { self.one_of(constraints) } else { 1 + self.below(60) as u32 };
                let group = if self.one_in(30) { 0 } else { self.some_group() };
                Call::Add { group, number, vars, coefs, constant: self.real(), kind, strength: self.strength(), budget }
            }
            7..=8 => Call::Remove { number: self.one_of(constraints), budget },
            9 if self.one_in(4) || groups.is_empty() => Call::Drop { group: self.pick(&[0, 1, 2, 7, u16::MAX]), budget },
            9 => Call::Drop { group: self.pick(groups), budget },
            10..=12 => Call::AddEdit { variable: self.one_of(variables), strength: self.strength(), budget },
            13 => Call::RemoveEdit { variable: self.one_of(edits), budget },
            14 if self.one_in(6) => Call::Reset { cutoff: self.good_cutoff() },
            14 if self.one_in(3) => Call::Reset { cutoff: self.bad_cutoff() },
            _ => Call::Suggest { variable: self.one_of(edits), suggestion: self.real(), budget },
        }
    }
}
