//! Sessions in which variables go and return between fetches.
use crate::mixed::ALL_RELATIONS;
use crate::random::{self, number, Random};

/// Each variable may have a constraint of its own, one that links it to others, and an edit: it is live while it has one of them. What stands is
/// a guess, since refusals are not known here.
struct Going<'a> {
    random: &'a mut Random,
    base: u64,
    own: Vec<bool>,
    linked: Vec<bool>,
    edited: Vec<bool>,
}

impl Going<'_> {
    fn some(&mut self) -> usize {
        self.random.below(self.own.len() as u64) as usize
    }

    fn variable(&self, i: usize) -> u64 {
        self.base + i as u64
    }

    /// 0 for the most part: what comes back there is noted by no step.
    fn constant(&mut self) -> String {
        let r = &mut *self.random;
        number(match r.below(10) {
            0..=4 => 0.0,
            5..=7 => random::small_constant(r),
            8 => random::general(r),
            _ => random::extreme(r),
        })
    }

    fn coefficient(&mut self) -> String {
        let r = &mut *self.random;
        number(if r.one_in(8) { random::extreme(r) } else { random::sign(r) })
    }

    fn budget(&mut self) -> u64 {
        if self.random.one_in(8) { self.random.below(3) } else { 30 }
    }

    fn strength(&mut self) -> String {
        number(random::usual_strength(self.random))
    }

    fn added(&mut self, number: u64, terms: &[usize]) -> String {
        let named: String = terms.iter().map(|&i| format!(" {} {}", self.variable(i), self.coefficient())).collect();
        let (group, relation) = (self.random.pick(&[1, 1, 2, 3]), self.random.pick(ALL_RELATIONS));
        format!("addg {} {} {} {} {} {} {}{}", group, number, self.budget(), relation, self.strength(), self.constant(), terms.len(), named)
    }

    fn comes(&mut self, i: usize) -> String {
        self.own[i] = true;
        self.added(i as u64 + 1, &[i])
    }

    fn links(&mut self, i: usize) -> String {
        self.linked[i] = true;
        let mut terms = vec![i];
        (0..self.random.from(1, 2)).for_each(|_| terms.push(self.some()));
        self.added(100 + i as u64, &terms)
    }

    fn removed(&mut self, number: u64) -> String {
        format!("remove {} {}", number, self.budget())
    }

    /// One that has an edit for the most part.
    fn dragged(&mut self, i: usize) -> u64 {
        let edited: Vec<usize> = (0..self.edited.len()).filter(|j| self.edited[*j]).collect();
        let i = if edited.is_empty() || self.random.one_in(8) { i } else { self.random.pick(&edited) };
        self.variable(i)
    }

    fn call(&mut self) -> String {
        let i = self.some();
        let v = self.variable(i);
        match self.random.weighted(&[30, 8, 12, 10, 4, 4, 18]) {
            0 if self.own[i] => {
                self.own[i] = false;
                self.removed(i as u64 + 1)
            }
            0 => self.comes(i),
            1 if self.linked[i] => {
                self.linked[i] = false;
                self.removed(100 + i as u64)
            }
            1 => self.links(i),
            2 if self.edited[i] => {
                self.edited[i] = false;
                format!("removeedit {} {}", v, self.budget())
            }
            2 => {
                self.edited[i] = true;
                format!("addedit {} {} {}", v, number(random::edit_strength(self.random)), self.budget())
            }
            3 => {
                let dragged = self.dragged(i);
                format!("suggest {} {} {}", dragged, self.constant(), self.budget())
            }
            4 => format!("drop {} {}", self.random.from(1, 3), self.budget()),
            5 => format!("value {}", v),
            _ => "fetch".to_string(),
        }
    }
}

/// Few variables, or up to 32 that come, go and return together, many of them at 0, by removals, drops and removed edits, with fetches of both
/// kinds between.
pub fn gone(calls: u64, random: &mut Random) -> Vec<String> {
    let many = random.one_in(4);
    let count = if many { random.from(20, 32) } else { random.from(2, 6) } as usize;
    let base = random.pick(&[1, 100, 4_294_967_200]);
    let mut s = Going { random, base, own: vec![false; count], linked: vec![false; count], edited: vec![false; count] };
    let mut lines = Vec::new();
    for i in 0..calls {
        if many && (i == 0 || s.random.one_in(30)) {
            lines.extend((0..count).map(|v| s.comes(v)));
            lines.push("fetch".to_string());
        } else if many && s.random.one_in(20) {
            lines.extend((1..=3).map(|group| format!("drop {} 65535", group)));
            s.own.fill(false);
            s.linked.fill(false);
        } else {
            lines.push(s.call());
        }
    }
    lines
}
