//! Both doors: random calls to a `Solver`, whose calls test no table, and to a `LentSolver`, whose calls test theirs, are answered alike.
use knobharbor::RelationalOperator::{Equal, GreaterOrEqual, LessOrEqual};
use knobharbor::{Change, Constraint, Expression, LentSolver, Refusal, Solver, Tables, Term, Variable, LARGEST_BUDGET};

struct Random(u64);

impl Random {
    fn below(&mut self, n: u64) -> u64 {
        self.0 ^= self.0 << 13;
        self.0 ^= self.0 >> 7;
        self.0 ^= self.0 << 17;
        (self.0 >> 11) % n
    }

    fn of<T: Copy>(&mut self, list: &[T]) -> T {
        list[self.below(list.len() as u64) as usize]
    }
}

/// One solver of each kind, and the numbers that the first gives its constraints.
struct Pair<'a> {
    held: Solver,
    lent: LentSolver<'a>,
    live: Vec<(Constraint, u16, u32)>,
    next: u32,
    variables: u64,
    seen: [usize; 28],
}

impl Pair<'_> {
    fn variable(&self, r: &mut Random) -> Variable {
        Variable::from_number(1 + r.below(self.variables) as u32)
    }

    fn constraint(&self, r: &mut Random) -> Constraint {
        let coefficients = [1.0, 1.0, 1.0, -1.0, -1.0, 2.0, 0.5, 1e-9, 3.7];
        let count = if r.below(30) == 0 { 17 } else { 1 + r.below(3) };
        let mut terms: Vec<Term> = (0..count).map(|_| self.variable(r) * r.of(&coefficients)).collect();
        if r.below(40) == 0 {
            terms[0].coefficient = r.of(&[f64::NAN, f64::INFINITY, 1e300]);
        }
        let constant = r.of(&[0.0, -5.0, 10.0, -40.0, 100.0, 0.1]);
        let strength = r.of(&[1.0, 1.0, 1000.0, 1e6, 1_001_001_000.0, 1_001_001_000.0, -1.0]);
        Constraint::new(Expression::new(terms, constant), r.of(&[LessOrEqual, Equal, GreaterOrEqual]), strength)
    }

    fn free_number(&mut self) -> u32 {
        while self.live.iter().any(|(_, _, n)| *n == self.next) {
            self.next += 1;
        }
        self.next
    }

    fn add(&mut self, r: &mut Random) -> Result<(), Refusal> {
        let (constraint, number) = match self.live.len() {
            n if n > 0 && r.below(20) == 0 => {
                let (c, _, number) = self.live[r.below(n as u64) as usize].clone();
                (c, number)
            }
            _ => (self.constraint(r), self.free_number()),
        };
        let group = r.of(&[1, 1, 2, 3, 3, 0]);
        let _ = self.held.add_constraint_in(group, constraint.clone());
        let e = constraint.expr();
        self.lent.add_in(group, number, &e.terms, e.constant, constraint.op(), constraint.strength())?;
        self.live.push((constraint, group, number));
        Ok(())
    }

    fn remove(&mut self, r: &mut Random) -> Result<(), Refusal> {
        let at = r.below(1 + self.live.len() as u64) as usize;
        let (constraint, number) = match self.live.get(at) {
            Some((c, _, number)) => (c.clone(), *number),
            None => (self.constraint(r), self.free_number()),
        };
        let _ = self.held.remove_constraint(&constraint);
        self.lent.remove(number)?;
        self.live.remove(at);
        Ok(())
    }

    fn drop_group(&mut self, r: &mut Random) -> Result<(), Refusal> {
        let group = r.of(&[0, 1, 2, 3, 4]);
        let dropped = self.held.drop_group(group);
        assert_eq!(self.lent.drop_group(group), dropped);
        if dropped.is_ok() {
            self.live.retain(|(_, g, _)| *g != group);
        }
        dropped
    }

    fn reset(&mut self, r: &mut Random) -> Result<(), Refusal> {
        let cutoff = r.of(&[1e-8, 1e-6, 1e-300, 0.0, 1e-5, f64::NAN]);
        let reset = self.held.reset_with_cutoff(cutoff);
        assert_eq!(self.lent.reset_with_cutoff(cutoff), reset);
        if reset.is_ok() {
            self.live.clear();
        }
        reset
    }

    fn edit(&mut self, r: &mut Random) -> Result<(), Refusal> {
        let v = self.variable(r);
        if r.below(4) == 0 {
            let _ = self.held.remove_edit_variable(v);
            return self.lent.remove_edit(v);
        }
        let strength = r.of(&[1.0, 1000.0, 1e6, 2e9, -3.0]);
        let _ = self.held.add_edit_variable(v, strength);
        self.lent.add_edit(v, strength)
    }

    fn suggest(&mut self, r: &mut Random) -> Result<(), Refusal> {
        let v = self.variable(r);
        let value = r.of(&[0.0, 10.0, 55.0, -20.0, 300.0, 0.25, 1e9, f64::NAN]);
        match r.below(3) {
            0 => {
                let _ = self.held.suggest_value(v, value);
                self.lent.suggest(v, value)
            }
            1 => {
                let _ = self.held.suggest_value(v, value);
                let (dragged, changes) = self.lent.drag(v, value);
                assert_eq!(self.held.fetch_changes(), &*changes);
                dragged
            }
            _ => {
                let _ = self.held.suggest_value(v, value);
                let (dragged, entries) = self.lent.drag_entries(v, value);
                assert_eq!(self.held.fetch_entries(), &*entries);
                dragged
            }
        }
    }

    fn fetch(&mut self, r: &mut Random) {
        if r.below(2) == 0 {
            assert_eq!(self.held.fetch_changes(), &*self.lent.fetch());
        } else {
            let entries: Vec<Change> = self.held.fetch_entries().to_vec();
            assert_eq!(entries, &*self.lent.fetch_entries());
        }
    }

    /// A changing call, or a fetch; then all that can be asked.
    fn call(&mut self, r: &mut Random) {
        let budget = r.of(&[0, 1, 2, LARGEST_BUDGET, LARGEST_BUDGET, LARGEST_BUDGET]);
        self.held.set_budget(budget);
        self.lent.set_budget(budget);
        let answer = match r.below(100) {
            0 => self.reset(r),
            1..=3 => self.drop_group(r),
            4..=44 => self.add(r),
            45..=54 => self.remove(r),
            55..=64 => self.edit(r),
            65..=89 => self.suggest(r),
            _ => return self.fetch(r),
        };
        let refusal = self.held.refused().map(|refused| refused.refusal());
        assert_eq!((refusal, self.held.pivots(), self.held.is_whole()), (answer.err(), self.lent.pivots(), self.lent.is_whole()));
        self.seen[refusal.map_or(0, |refusal| refusal.number() as usize)] += 1;
        for v in (0..=self.variables as u32).map(Variable::from_number) {
            assert_eq!(self.held.get_value(v).to_bits(), self.lent.value(v).to_bits());
            assert_eq!(self.held.has_edit_variable(&v), self.lent.has_edit(v));
        }
        for (constraint, _, number) in &self.live {
            assert!(self.held.has_constraint(constraint) && self.lent.has(*number));
        }
        assert!(self.held.check());
    }
}

/// The calls, and how often each refusal was answered.
fn calls(seed: u64, turns: usize, variables: u64) -> [usize; 28] {
    let (mut tables, mut room) = (Tables::new(), Tables::new());
    let lent = LentSolver::new(&mut tables, &mut room);
    let mut pair = Pair { held: Solver::new(), lent, live: Vec::new(), next: 0, variables, seen: [0; 28] };
    let mut r = Random(seed);
    for turn in 0..turns {
        if turn % 50 == 17 {
            // the snapshot goes on, and what it was taken of goes on without it
            let snapshot = pair.held.clone();
            let mut left = std::mem::replace(&mut pair.held, snapshot);
            left.reset();
            assert!(left.check() && pair.held.check());
        }
        pair.call(&mut r);
    }
    pair.seen
}

#[test]
fn both_doors_answer_alike() {
    let mut seen = [0; 28];
    for (seed, variables) in [(1, 3), (2, 6), (3, 6), (4, 12), (5, 20), (6, 40)] {
        for (all, one) in seen.iter_mut().zip(calls(seed, 3000, variables)) {
            *all += one;
        }
    }
    // accepted, and each test of a call and each step's refusal that random calls come to
    for number in [0, 1, 2, 3, 4, 5, 6, 7, 8, 9, 10, 12, 14, 24, 26, 27] {
        assert!(seen[number] > 0, "{number} was never answered: {seen:?}");
    }
}
