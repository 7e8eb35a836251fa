//! The solver: its state, which it keeps to itself, and the numbers of its constraints.
use crate::archive::{Added, Answer, Held};
use crate::changes::Change;
use crate::{
    AddConstraintError, AddEditVariableError, Constraint, Line, Refusal, Refused, RemoveConstraintError, RemoveEditVariableError,
    SuggestValueError, Variable, LARGEST_BUDGET, USUAL_CUTOFF, USUAL_GROUP,
};
use alloc::vec::Vec;

/// A constraint solver with fixed tables. Every call ends within the pivot budget, and a refused call changes nothing. A clone is a
/// snapshot: both go on by themselves.
///
/// Nobody else reaches its tables, so its calls need not test at each turn that they read as a state, as those of a `LentSolver` do:
/// `check` makes that test when it is asked to.
#[derive(Clone)]
pub struct Solver {
    held: Held,
    budget: u16,
    cutoff: f64,
    constraints: Vec<(Constraint, u32)>,
    next: u32,
    changes: Vec<(Variable, f64)>,
    entries: Vec<Change>,
    last: Answer,
    refused: Option<Refused>,
}

impl Solver {
    /// An empty solver, with the largest budget and the usual cutoff.
    pub fn new() -> Solver {
        Solver::with_cutoff(USUAL_CUTOFF).unwrap_or_else(|_| unreachable!("the usual cutoff is in its range"))
    }

    /// An empty solver with another cutoff: a number is near zero, so that a coefficient counts as absent and a remainder as met, if
    /// its size is strictly below it. It is above 0 and at most `LARGEST_CUTOFF`, else `Refusal::CutoffOutOfRange`. While `is_whole`
    /// says yes, no answer depends on it.
    pub fn with_cutoff(cutoff: f64) -> Result<Solver, Refusal> {
        let (held, last) = Held::new(cutoff)?;
        let (constraints, changes, entries) = (Vec::new(), Vec::new(), Vec::new());
        Ok(Solver { held, budget: LARGEST_BUDGET, cutoff, constraints, next: 0, changes, entries, last, refused: None })
    }

    /// A call that needs more pivots than this is refused with `Refusal::BudgetUsedUp`, and changes nothing.
    pub fn set_budget(&mut self, pivots: u16) {
        self.budget = pivots;
    }

    /// The pivots that a call may make.
    pub fn budget(&self) -> u16 {
        self.budget
    }

    /// The cutoff of near zero.
    pub fn cutoff(&self) -> f64 {
        self.cutoff
    }

    /// The pivots that the last changing call made, refused ones too.
    pub fn pivots(&self) -> u32 {
        self.last.pivots
    }

    /// Whether the last changing call answered that every step since the reset was in whole numbers within bounds, refused calls'
    /// aside. If yes, the values meet every required constraint exactly, and no fractions do better.
    pub fn is_whole(&self) -> bool {
        self.last.whole
    }

    /// Why the last changing call was refused, with document 01's number and the constraint in question; none if it was accepted.
    pub fn refused(&self) -> Option<&Refused> {
        self.refused.as_ref()
    }

    fn concluded(&mut self, answer: Answer, constraint: Option<&Constraint>) -> Result<(), Refusal> {
        self.last = answer;
        let refusal = Refusal::of(answer.number);
        self.refused = refusal.map(|refusal| Refused { refusal, constraint: constraint.cloned() });
        refusal.map_or(Ok(()), Err)
    }

    fn number_of(&self, constraint: &Constraint) -> Option<u32> {
        self.constraints.iter().find(|(c, _)| c == constraint).map(|(_, n)| *n)
    }

    /// A number that no live constraint has.
    fn free_number(&mut self) -> u32 {
        while self.constraints.iter().any(|(_, n)| *n == self.next) {
            self.next = self.next.wrapping_add(1);
        }
        self.next
    }

    /// Adds a constraint, in group 1.
    pub fn add_constraint(&mut self, constraint: Constraint) -> Result<(), AddConstraintError> {
        self.add_constraint_in(USUAL_GROUP, constraint)
    }

    /// Adds a constraint in this group, from 1 on, by which `drop_group` knows it.
    pub fn add_constraint_in(&mut self, group: u16, constraint: Constraint) -> Result<(), AddConstraintError> {
        let known = self.number_of(&constraint);
        let number = known.unwrap_or_else(|| self.free_number());
        let e = constraint.expr();
        let added = Added { group, number, terms: &e.terms, constant: e.constant, op: constraint.op(), strength: constraint.strength() };
        let answer = self.held.add(added, self.budget);
        self.concluded(answer, Some(&constraint))?;
        self.constraints.push((constraint, number));
        Ok(())
    }

    /// One after the other, up to the first that is refused; those before it stay. `refused` has the one.
    pub fn add_constraints<'a, I: IntoIterator<Item = &'a Constraint>>(&mut self, constraints: I) -> Result<(), AddConstraintError> {
        for constraint in constraints {
            self.add_constraint(constraint.clone())?;
        }
        Ok(())
    }

    /// Removes a constraint that was added.
    pub fn remove_constraint(&mut self, constraint: &Constraint) -> Result<(), RemoveConstraintError> {
        let number = match self.number_of(constraint) {
            Some(number) => number,
            // a number that is not live: the archive refuses it, with the stored mark
            None => self.free_number(),
        };
        let answer = self.held.remove(number, self.budget);
        self.concluded(answer, Some(constraint))?;
        self.constraints.retain(|(c, _)| c != constraint);
        Ok(())
    }

    /// Removes every constraint of this group, one after the other and each as `remove_constraint` does, under one budget. All of them
    /// go, or none: if one removal is refused, the drop is, and nothing has changed. Edits are in no such group and stay, also those of
    /// a variable that the group's constraints alone named. There is no constraint in the group: `Refusal::EmptyGroup`.
    pub fn drop_group(&mut self, group: u16) -> Result<(), Refusal> {
        let answer = self.held.drop_group(group, self.budget);
        self.concluded(answer, None)?;
        let held = &self.held;
        self.constraints.retain(|(_, number)| held.has_constraint(*number));
        Ok(())
    }

    /// Whether the constraint is in the solver.
    pub fn has_constraint(&self, constraint: &Constraint) -> bool {
        match self.number_of(constraint) {
            Some(number) => self.held.has_constraint(number),
            None => false,
        }
    }

    /// The constraint as the solver keeps it, with its group, by which `Line::to_line` writes it: see `LentSolver::show`.
    /// `Refusal::UnknownConstraint` for one that is not in the solver.
    ///
    /// ```
    /// use knobharbor::strength::WEAK;
    /// use knobharbor::WeightedRelation::*;
    /// use knobharbor::{Refusal, Solver, Variable};
    ///
    /// let (left, right) = (Variable::from_number(1), Variable::from_number(2));
    /// let width = left + 40.0 |LE(WEAK)| right;
    /// let mut solver = Solver::new();
    /// assert_eq!(solver.line_of(&width).unwrap_err(), Refusal::UnknownConstraint);
    /// solver.add_constraint_in(3, width.clone()).unwrap();
    /// assert_eq!(&*solver.line_of(&width)?.to_line()?, "v1-v2+40<=0@1,3");
    /// # Ok::<(), Refusal>(())
    /// ```
    pub fn line_of(&self, constraint: &Constraint) -> Result<Line, Refusal> {
        let number = self.number_of(constraint).ok_or(Refusal::UnknownConstraint)?;
        Line::shown(self.held.tables(), number)
    }

    /// Makes the variable one that can be dragged, at a strength below required.
    pub fn add_edit_variable(&mut self, v: Variable, strength: f64) -> Result<(), AddEditVariableError> {
        let answer = self.held.add_edit(v.number(), strength, self.budget);
        Ok(self.concluded(answer, None)?)
    }

    /// Removes the variable's edit, and with it the last suggestion.
    pub fn remove_edit_variable(&mut self, v: Variable) -> Result<(), RemoveEditVariableError> {
        let answer = self.held.remove_edit(v.number(), self.budget);
        Ok(self.concluded(answer, None)?)
    }

    /// Whether the variable can be dragged.
    pub fn has_edit_variable(&self, v: &Variable) -> bool {
        self.held.has_edit(v.number())
    }

    /// Moves an edit's aim. If it is refused, every value, and the aim itself, is as it was.
    pub fn suggest_value(&mut self, v: Variable, value: f64) -> Result<(), SuggestValueError> {
        let answer = self.held.suggest(v.number(), value, self.budget);
        Ok(self.concluded(answer, None)?)
    }

    /// Moves an edit's aim and lists what that changed: `suggest_value`, and if it is accepted `fetch_changes`. If it is refused, nothing is
    /// fetched.
    ///
    /// ```
    /// use knobharbor::{strength::STRONG, Solver, Variable};
    ///
    /// let edge = Variable::from_number(1);
    /// let mut solver = Solver::new();
    /// assert!(solver.drag(edge, 30.0).is_err());
    /// solver.add_edit_variable(edge, STRONG).unwrap();
    /// assert_eq!(solver.drag(edge, 30.0).unwrap(), [(edge, 30.0)]);
    /// ```
    pub fn drag(&mut self, v: Variable, value: f64) -> Result<&[(Variable, f64)], SuggestValueError> {
        self.suggest_value(v, value)?;
        Ok(self.fetch_changes())
    }

    /// The variables whose values changed since the last fetch, by ascending number, one pair a variable; a second fetch straight after
    /// reports none. One that no constraint or edit names any more is reported at 0, as `get_value` has it; if it is back since, with
    /// its value. A new one that stands at 0 is not reported. So whoever takes what was never reported as 0 holds every value.
    pub fn fetch_changes(&mut self) -> &[(Variable, f64)] {
        self.changes.clear();
        self.changes.extend(self.held.fetch().pairs());
        &self.changes
    }

    /// The same fetch, entry by entry: a variable that no constraint or edit names any more is `Change::Gone`, once, and one that is back
    /// since is that and then `Change::Moved`. (A fetch by either name is a fetch: what one has listed, the other does not list again.)
    pub fn fetch_entries(&mut self) -> &[Change] {
        self.entries.clear();
        self.entries.extend(self.held.fetch().entries());
        &self.entries
    }

    /// The variable's value; 0 for one that the solver does not know.
    pub fn get_value(&self, v: Variable) -> f64 {
        self.held.value(v.number())
    }

    /// Whether the tables read as a state: the test that every call of a `LentSolver` makes, and no other of this solver. It says yes,
    /// unless the machine's memory, or code that is not safe, has changed the tables beneath it.
    pub fn check(&self) -> bool {
        self.held.check()
    }

    /// Empties the solver; the budget and the cutoff stay.
    pub fn reset(&mut self) {
        self.constraints.clear();
        self.changes.clear();
        self.entries.clear();
        self.refused = None;
        self.last = self.held.reset(self.cutoff);
    }

    /// Empties the solver, with another cutoff from here on. If that is refused, nothing changes.
    pub fn reset_with_cutoff(&mut self, cutoff: f64) -> Result<(), Refusal> {
        let answer = self.held.reset(cutoff);
        self.concluded(answer, None)?;
        self.cutoff = cutoff;
        self.constraints.clear();
        self.changes.clear();
        self.entries.clear();
        Ok(())
    }
}

impl Default for Solver {
    fn default() -> Solver {
        Solver::new()
    }
}
