//! The calls over tables that the caller lends: fixed sizes, no heap.
use crate::archive::{self, Added, Answer, Tables};
use crate::changes::{Changes, Entries};
use crate::{Line, Refusal, RelationalOperator, Term, Variable, LARGEST_BUDGET, USUAL_CUTOFF, USUAL_GROUP};

/// A solver over lent tables. Constraints have numbers, which the caller chooses. Every call ends within the pivot budget, and a
/// refused call changes nothing.
///
/// ```
/// use knobharbor::strength::{REQUIRED, STRONG};
/// use knobharbor::{LentSolver, Refusal, RelationalOperator::*, Tables, Term, Variable};
///
/// const LEFT: Variable = Variable::from_number(1);
/// const RIGHT: Variable = Variable::from_number(2);
/// let (mut tables, mut room) = (Tables::new(), Tables::new()); // firmware has two `static`s
/// let mut solver = LentSolver::new(&mut tables, &mut room);
/// let width = [Term { variable: RIGHT, coefficient: 1.0 }, Term { variable: LEFT, coefficient: -1.0 }];
/// solver.add(1, &[LEFT * 1.0], 0.0, Equal, REQUIRED)?;
/// solver.add(2, &width, -40.0, GreaterOrEqual, REQUIRED)?;
/// solver.add_edit(RIGHT, STRONG)?;
/// solver.suggest(RIGHT, 10.0)?;
/// assert_eq!(solver.value(RIGHT), 40.0);
/// assert_eq!(*solver.fetch(), [(RIGHT, 40.0)]);
/// assert_eq!(solver.add(3, &width, -30.0, LessOrEqual, REQUIRED), Err(Refusal::UnsatisfiableConstraint));
/// # Ok::<(), Refusal>(())
/// ```
pub struct LentSolver<'a> {
    tables: &'a mut Tables,
    room: &'a mut Tables,
    budget: u16,
    cutoff: f64,
    last: Answer,
}

impl<'a> LentSolver<'a> {
    /// An empty solver over these tables, whatever they held, with a room to work in.
    pub fn new(tables: &'a mut Tables, room: &'a mut Tables) -> LentSolver<'a> {
        let last = archive::reset(tables, USUAL_CUTOFF);
        LentSolver { tables, room, budget: LARGEST_BUDGET, cutoff: USUAL_CUTOFF, last }
    }

    /// The same with another cutoff of near zero: see `Solver::with_cutoff`. If it is refused, the tables are as they were.
    pub fn with_cutoff(tables: &'a mut Tables, room: &'a mut Tables, cutoff: f64) -> Result<LentSolver<'a>, Refusal> {
        let last = archive::reset(tables, cutoff);
        match Refusal::of(last.number) {
            None => Ok(LentSolver { tables, room, budget: LARGEST_BUDGET, cutoff, last }),
            Some(refusal) => Err(refusal),
        }
    }

    /// The solver that these tables hold, as an earlier one left them, with its cutoff. If they hold none, every changing call but a
    /// reset is refused with `Refusal::TablesDoNotRead`. Until the first changing call, `is_whole` says no. (What the cutoff is, the
    /// tables do not tell: a `reset` after this takes the usual one.)
    pub fn resume(tables: &'a mut Tables, room: &'a mut Tables) -> LentSolver<'a> {
        LentSolver { tables, room, budget: LARGEST_BUDGET, cutoff: USUAL_CUTOFF, last: Answer { number: 0, pivots: 0, whole: false } }
    }

    /// A call that needs more pivots than this is refused with `Refusal::BudgetUsedUp`, and changes nothing.
    pub fn set_budget(&mut self, pivots: u16) {
        self.budget = pivots;
    }

    /// The pivots that a call may make.
    pub fn budget(&self) -> u16 {
        self.budget
    }

    /// The pivots that the last changing call made, refused ones too.
    pub fn pivots(&self) -> u32 {
        self.last.pivots
    }

    /// The mark that the last changing call answered: see `Solver::is_whole`.
    pub fn is_whole(&self) -> bool {
        self.last.whole
    }

    fn concluded(&mut self, answer: Answer) -> Result<(), Refusal> {
        self.last = answer;
        Refusal::of(answer.number).map_or(Ok(()), Err)
    }

    /// Empties the solver; the budget stays, and the cutoff that it was made or last reset with.
    pub fn reset(&mut self) {
        self.last = archive::reset(self.tables, self.cutoff);
    }

    /// Empties the solver, with another cutoff from here on. If that is refused, nothing changes.
    pub fn reset_with_cutoff(&mut self, cutoff: f64) -> Result<(), Refusal> {
        let answer = archive::reset(self.tables, cutoff);
        self.concluded(answer)?;
        self.cutoff = cutoff;
        Ok(())
    }

    /// Adds the constraint of this number, in group 1: the terms plus the constant are `op` zero, at this strength.
    pub fn add(&mut self, number: u32, terms: &[Term], constant: f64, op: RelationalOperator, strength: f64) -> Result<(), Refusal> {
        self.add_in(USUAL_GROUP, number, terms, constant, op, strength)
    }

    /// The same in this group, from 1 on, by which `drop_group` knows it. A number is one constraint's, whatever its group.
    pub fn add_in(
        &mut self,
        group: u16,
        number: u32,
        terms: &[Term],
        constant: f64,
        op: RelationalOperator,
        strength: f64,
    ) -> Result<(), Refusal> {
        let added = Added { group, number, terms, constant, op, strength };
        let answer = archive::add(self.tables, self.room, added, self.budget);
        self.concluded(answer)
    }

    /// Adds the constraint that a line of text reads as, required and in group 1: `2*(v1 + 3) <= v2` is 2 v1 - v2 + 6 at most zero. The line has
    /// no newline. Beside `Refusal::LineNotInGrammar` stands the first byte with which no line can go on, else 0.
    pub fn add_text(&mut self, number: u32, line: &[u8]) -> Result<(), (Refusal, usize)> {
        let a = archive::add_text(self.tables, self.room, number, line, self.budget);
        let answer = Answer { number: a.number, pivots: a.pivots, whole: a.whole };
        self.concluded(answer).map_err(|refusal| (refusal, a.offset))
    }

    /// Removes the constraint of this number.
    pub fn remove(&mut self, number: u32) -> Result<(), Refusal> {
        let answer = archive::remove(self.tables, self.room, number, self.budget);
        self.concluded(answer)
    }

    /// Removes every constraint of this group, all or none, under one budget: see `Solver::drop_group`.
    pub fn drop_group(&mut self, group: u16) -> Result<(), Refusal> {
        let answer = archive::drop_group(self.tables, self.room, group, self.budget);
        self.concluded(answer)
    }

    /// Whether there is a constraint of this number.
    pub fn has(&self, number: u32) -> bool {
        archive::has_constraint(self.tables, number)
    }

    /// The constraint of this number as it was added, with its group: terms that the add skipped, because their coefficient is near zero, are
    /// left out. `Line::to_line` writes it, so that a unit can send its whole layout over the service cable, number by number. For a number
    /// that is not live `Refusal::UnknownConstraint`, and where the tables hold no solver `Refusal::TablesDoNotRead`.
    ///
    /// ```
    /// use knobharbor::strength::REQUIRED;
    /// use knobharbor::{Line, LentSolver, Refusal, RelationalOperator::*, Tables, Variable};
    ///
    /// const LEFT: Variable = Variable::from_number(1);
    /// const RIGHT: Variable = Variable::from_number(2);
    /// let (mut tables, mut room) = (Tables::new(), Tables::new());
    /// let mut solver = LentSolver::new(&mut tables, &mut room);
    /// solver.add_in(2, 7, &[LEFT * -1.0, RIGHT * 1.0], -40.0, GreaterOrEqual, REQUIRED)?;
    /// solver.add(8, &[RIGHT * 0.5], 0.0, LessOrEqual, 1.0)?;
    /// let line = solver.show(7)?.to_line()?;
    /// assert_eq!(&*line, "-v1+v2-40>=0@1001001000,2");
    /// assert_eq!(Line::parse(line.as_bytes()).unwrap().group, 2);
    /// assert_eq!(solver.show(8)?.to_line(), Err(Refusal::LineCannotSay)); // a half
    /// assert_eq!(solver.show(9).unwrap_err(), Refusal::UnknownConstraint);
    /// # Ok::<(), Refusal>(())
    /// ```
    pub fn show(&self, number: u32) -> Result<Line, Refusal> {
        Line::shown(self.tables, number)
    }

    /// Makes the variable one that can be dragged, at this strength.
    pub fn add_edit(&mut self, v: Variable, strength: f64) -> Result<(), Refusal> {
        let answer = archive::add_edit(self.tables, self.room, v.number(), strength, self.budget);
        self.concluded(answer)
    }

    /// Removes the variable's edit, and with it the last suggestion.
    pub fn remove_edit(&mut self, v: Variable) -> Result<(), Refusal> {
        let answer = archive::remove_edit(self.tables, self.room, v.number(), self.budget);
        self.concluded(answer)
    }

    /// Whether the variable can be dragged.
    pub fn has_edit(&self, v: Variable) -> bool {
        archive::has_edit(self.tables, v.number())
    }

    /// Drags the variable. If it is refused, every value, and the aim itself, is as it was.
    pub fn suggest(&mut self, v: Variable, value: f64) -> Result<(), Refusal> {
        let answer = archive::suggest(self.tables, self.room, v.number(), value, self.budget);
        self.concluded(answer)
    }

    /// Drags the variable and then fetches, in one call and with one test of the tables: just what `suggest` and `fetch` would answer one
    /// after the other. So the fetch is made also where the suggestion is refused.
    ///
    /// ```
    /// # use knobharbor::{LentSolver, Refusal, Tables, Variable};
    /// const EDGE: Variable = Variable::from_number(1);
    /// let (mut tables, mut room) = (Tables::new(), Tables::new());
    /// let mut solver = LentSolver::new(&mut tables, &mut room);
    /// solver.add_edit(EDGE, 1.0)?;
    /// let (dragged, changes) = solver.drag(EDGE, 30.0);
    /// assert_eq!((dragged, &*changes), (Ok(()), [(EDGE, 30.0)].as_slice()));
    /// # Ok::<(), Refusal>(())
    /// ```
    pub fn drag(&mut self, v: Variable, value: f64) -> (Result<(), Refusal>, Changes) {
        let (answer, fetched) = archive::drag(self.tables, self.room, v.number(), value, self.budget);
        (self.concluded(answer), Changes::of(&fetched))
    }

    /// The same with the list entry by entry: see `fetch_entries`.
    pub fn drag_entries(&mut self, v: Variable, value: f64) -> (Result<(), Refusal>, Entries) {
        let (answer, fetched) = archive::drag(self.tables, self.room, v.number(), value, self.budget);
        (self.concluded(answer), Entries::of(&fetched))
    }

    /// The variable's value; 0 for one that the solver does not know.
    pub fn value(&self, v: Variable) -> f64 {
        archive::value(self.tables, v.number())
    }

    /// The variables whose values changed since the last fetch, one pair a variable: see `Solver::fetch_changes`.
    pub fn fetch(&mut self) -> Changes {
        Changes::of(&archive::fetch(self.tables))
    }

    /// The same list entry by entry, those that are gone told apart: see `Solver::fetch_entries`.
    pub fn fetch_entries(&mut self) -> Entries {
        Entries::of(&archive::fetch(self.tables))
    }
}
