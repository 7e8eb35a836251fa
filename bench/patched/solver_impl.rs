//! The crate's solver_impl.rs; each change is marked EDIT n, see lib.rs.
use {
    Symbol,
    SymbolType,
    Constraint,
    Variable,
    Expression,
    Term,
    Row,
    Name,
    Refusal,
    Answer,
    RelationalOperator,
    near_zero,
    GREATEST_CUTOFF,
    USUAL_CUTOFF,
    watch
};

use ::std::rc::Rc;
use ::std::cell::RefCell;
use ::std::collections::{ BTreeMap, BTreeSet }; // EDIT 1: was HashMap, HashSet

// EDIT 4: "32 live variables, 48 live constraints (edits counted), 16 terms in a constraint." "next id is above 4,294,900,000"
const MOST_VARIABLES: usize = 32;
const MOST_CONSTRAINTS: usize = 48;
const MOST_TERMS: usize = 16;
const LAST_ID: usize = 4_294_900_000;
// EDIT 24: "At most 32 gone entries wait."
const MOST_GONE: usize = 32;

// EDIT 20: what aids.rs looks at is pub(crate), here and in Solver
#[derive(Copy, Clone)]
pub(crate) struct Tag {
    pub(crate) marker: Symbol,
    pub(crate) other: Symbol
}

#[derive(Clone)]
pub(crate) struct EditInfo {
    pub(crate) tag: Tag,
    pub(crate) constraint: Constraint,
    pub(crate) constant: f64
}

/// A constraint solver using the Cassowary algorithm. For proper usage please see the top level crate documentation.
pub struct Solver {
    pub(crate) cns: BTreeMap<Name, (Constraint, Tag)>, // EDIT 2: by number, was by the constraint's address
    pub(crate) var_data: BTreeMap<Variable, (f64, Symbol, usize)>,
    pub(crate) var_for_symbol: BTreeMap<Symbol, Variable>,
    public_changes: Vec<(Variable, Option<f64>)>, // EDIT 24: None for one that is gone
    pub(crate) changed: BTreeSet<Variable>,
    pub(crate) gone: BTreeSet<Variable>, // EDIT 24: what the next fetch lists as gone
    pub(crate) should_clear_changes: bool,
    pub(crate) rows: BTreeMap<Symbol, Box<Row>>,
    pub(crate) edits: BTreeMap<Variable, EditInfo>,
    // EDIT 15: infeasible_rows is gone
    pub(crate) objective: Rc<RefCell<Row>>,
    artificial: Option<Rc<RefCell<Row>>>,
    pub(crate) id_tick: usize,
    pub(crate) cutoff: f64, // EDIT 22: the one that reset was given
    pub(crate) whole: bool, // EDIT 7: the stored mark
    budget: u32, // EDIT 8: of the call that runs, with the pivots it has made
    pivots: u32
}

impl Solver {
    // EDIT 19: add_constraints is left out

    /// Construct a new solver.
    pub fn new() -> Solver {
        Solver {
            cns: BTreeMap::new(),
            var_data: BTreeMap::new(),
            var_for_symbol: BTreeMap::new(),
            public_changes: Vec::new(),
            changed: BTreeSet::new(),
            gone: BTreeSet::new(),
            should_clear_changes: false,
            rows: BTreeMap::new(),
            edits: BTreeMap::new(),
            objective: Rc::new(RefCell::new(Row::objective(USUAL_CUTOFF))), // EDIT 10, 22
            artificial: None,
            id_tick: 1,
            cutoff: USUAL_CUTOFF, // EDIT 22
            whole: true,
            budget: 0,
            pivots: 0
        }
    }

    // EDIT 5: the state before the steps, to be put back if they refuse. The objective is copied, not shared.
    fn snapshot(&self) -> Solver {
        Solver {
            cns: self.cns.clone(),
            var_data: self.var_data.clone(),
            var_for_symbol: self.var_for_symbol.clone(),
            public_changes: self.public_changes.clone(),
            changed: self.changed.clone(),
            gone: self.gone.clone(),
            should_clear_changes: self.should_clear_changes,
            rows: self.rows.clone(),
            edits: self.edits.clone(),
            objective: Rc::new(RefCell::new(self.objective.borrow().clone())),
            artificial: None,
            id_tick: self.id_tick,
            cutoff: self.cutoff,
            whole: self.whole,
            budget: 0,
            pivots: 0
        }
    }

    // EDIT 3: a refusal before the steps "answers the stored mark".
    fn refused(&self, number: u8) -> Answer {
        Answer { refusal: number, pivots: 0, whole: self.whole }
    }

    // EDIT 3, 5, 7, 8: runs the steps of a call, and says what comes of them.
    fn take_steps<F: FnOnce(&mut Solver) -> Result<(), Refusal>>(&mut self, budget: u16, steps: F) -> Answer {
        let before = if cfg!(unwatched) { None } else { Some(self.snapshot()) };
        self.budget = budget as u32;
        self.pivots = 0;
        watch::begin();
        let result = steps(self);
        let pivots = self.pivots;
        let whole = self.whole && watch::all_whole();
        match result {
            Ok(()) => {
                self.whole = whole;
                Answer { refusal: 0, pivots: pivots, whole: whole }
            }
            Err(Refusal(number)) => {
                // "A refusal changes no table."
                *self = before.expect("a solver built to be timed does not undo");
                Answer { refusal: number, pivots: pivots, whole: whole }
            }
        }
    }

    // EDIT 6: 13, "a step writes a cell, a row constant or a factor not finite"
    fn check_finite() -> Result<(), Refusal> {
        if watch::all_finite() { Ok(()) } else { Err(Refusal(13)) }
    }

    // EDIT 8: 14, "a pass needs a pivot and the budget is used"
    fn check_budget(&self) -> Result<(), Refusal> {
        if self.pivots < self.budget { Ok(()) } else { Err(Refusal(14)) }
    }

    // EDIT 4: 9, "live variables plus the new ones in terms not near zero exceed 32"
    fn too_many_variables(&self, terms: &[Term]) -> bool {
        let mut live: BTreeSet<Variable> = self.var_data.keys().cloned().collect();
        live.extend(terms.iter().filter(|t| !near_zero(t.coefficient, self.cutoff)).map(|t| t.variable)); // EDIT 22
        live.len() > MOST_VARIABLES
    }

    /// Add a constraint to the solver.
    pub fn add_constraint(&mut self, constraint: Constraint, budget: u16) -> Answer {
        // EDIT 23: "26 an add or a drop naming group 0", before 1
        if constraint.group() == 0 {
            return self.refused(26);
        }
        // EDIT 4: "Add: 18, 1, 2, 3, 4, 10, 9, 11."
        let finite = constraint.expr().terms.iter().all(|t| t.coefficient.is_finite())
            && constraint.expr().constant.is_finite()
            && constraint.strength().is_finite();
        if !finite {
            return self.refused(1);
        }
        if constraint.strength() < 0.0 {
            return self.refused(2);
        }
        if constraint.expr().terms.len() > MOST_TERMS {
            return self.refused(3);
        }
        if self.cns.contains_key(&constraint.name) {
            return self.refused(4);
        }
        if self.cns.len() >= MOST_CONSTRAINTS {
            return self.refused(10);
        }
        if self.too_many_variables(&constraint.expr().terms) {
            return self.refused(9);
        }
        if self.id_tick > LAST_ID {
            return self.refused(11);
        }
        self.take_steps(budget, |solver| solver.add_constraint_steps(constraint))
    }

    // EDIT 3: the crate's add_constraint from here on
    fn add_constraint_steps(&mut self, constraint: Constraint) -> Result<(), Refusal> {
        watch::constraint(constraint.expr(), constraint.strength()); // EDIT 7: "inputs that reach the steps ... are whole"

        // Creating a row causes symbols to reserved for the variables
        // in the constraint. If this method exits with an exception,
        // then its possible those variables will linger in the var map.
        // Since its likely that those variables will be used in other
        // constraints and since exceptional conditions are uncommon,
        // i'm not too worried about aggressive cleanup of the var map.
        let (mut row, tag) = self.create_row(&constraint);
        try!(Solver::check_finite()); // EDIT 6
        let mut subject = Solver::choose_subject(&row, &tag);

        // If chooseSubject could find a valid entering symbol, one
        // last option is available if the entire row is composed of
        // dummy variables. If the constant of the row is zero, then
        // this represents redundant constraints and the new dummy
        // marker can enter the basis. If the constant is non-zero,
        // then it represents an unsatisfiable constraint.
        if subject.type_() == SymbolType::Invalid && Solver::all_dummies(&row) {
            if !near_zero(row.constant, self.cutoff) { // EDIT 22
                return Err(Refusal(12)); // EDIT 3
            } else {
                subject = tag.marker;
            }
        }

        // If an entering symbol still isn't found, then the row must
        // be added using an artificial variable. If that fails, then
        // the row represents an unsatisfiable constraint.
        if subject.type_() == SymbolType::Invalid {
            if !try!(self.add_with_artificial_variable(&row)) { // EDIT 3
                return Err(Refusal(12)); // EDIT 3
            }
        } else {
            row.solve_for_symbol(subject);
            self.substitute(subject, &row);
            if subject.type_() == SymbolType::External && row.constant != 0.0 {
                let v = self.var_for_symbol[&subject];
                self.var_changed(v);
            }
            self.rows.insert(subject, row);
            try!(Solver::check_finite()); // EDIT 6
        }

        self.cns.insert(constraint.name, (constraint.kept(self.cutoff), tag)); // EDIT 2, 21, 22

        // Optimizing after each constraint is added performs less
        // aggregate work due to a smaller average system size. It
        // also ensures the solver remains in a consistent state.
        let objective = self.objective.clone();
        self.optimise(&objective) // EDIT 3
    }

    // EDIT 24: 25, "a removal would make a 33rd gone entry", of the removal of these: a variable goes if nothing else uses it, and makes an
    // entry if it was reported and none waits for its number
    fn too_many_gone(&self, names: &[Name]) -> bool {
        let mut uses: BTreeMap<Variable, usize> = BTreeMap::new();
        for constraint in names.iter().filter_map(|name| self.cns.get(name)) {
            for term in &constraint.0.expr().terms {
                *uses.entry(term.variable).or_insert(0) += 1;
            }
        }
        let goes = |v: &Variable| self.var_data.get(v).map_or(false, |&(old, _, count)| count <= uses[v] && !old.is_nan());
        let made = uses.keys().filter(|&v| !self.gone.contains(v) && goes(v)).count();
        self.gone.len() + made > MOST_GONE
    }

    /// Remove a constraint from the solver.
    pub fn remove_constraint(&mut self, number: u32, budget: u16) -> Answer {
        // EDIT 4, 24: "Remove: 18, 5, 25."
        if !self.has_constraint(number) {
            return self.refused(5);
        }
        if self.too_many_gone(&[Name::Number(number)]) {
            return self.refused(25);
        }
        self.take_steps(budget, |solver| solver.remove_constraint_steps(Name::Number(number)))
    }

    // EDIT 23, 24: "Drop: 18, 26, 27, 25." Then whole removals one after the other; the first that is refused undoes all of them
    pub fn drop_group(&mut self, group: u16, budget: u16) -> Answer {
        if group == 0 {
            return self.refused(26);
        }
        let names: Vec<Name> = self.cns.iter().filter(|&(_, c)| c.0.group() == u64::from(group)).map(|(name, _)| *name).collect();
        if names.is_empty() {
            return self.refused(27);
        }
        if self.too_many_gone(&names) {
            return self.refused(25);
        }
        self.take_steps(budget, |solver| {
            for name in names {
                try!(solver.remove_constraint_steps(name));
            }
            Ok(())
        })
    }

    // EDIT 3: the crate's remove_constraint from here on
    fn remove_constraint_steps(&mut self, name: Name) -> Result<(), Refusal> {
        let (constraint, tag) = try!(self.cns.remove(&name).ok_or(Refusal(5))); // EDIT 2, 3
        let constraint = &constraint;

        // Remove the error effects from the objective function
        // *before* pivoting, or substitutions into the objective
        // will lead to incorrect solver results.
        self.remove_constraint_effects(constraint, &tag);
        try!(Solver::check_finite()); // EDIT 6

        // If the marker is basic, simply drop the row. Otherwise,
        // pivot the marker into the basis and then drop the row.
        if let None = self.rows.remove(&tag.marker) {
            let (leaving, mut row) = try!(self.get_marker_leaving_row(tag.marker)
                                     .ok_or(Refusal(17))); // EDIT 3
            row.solve_for_symbols(leaving, tag.marker);
            self.substitute(tag.marker, &row);
            try!(Solver::check_finite()); // EDIT 6
        }

        // EDIT 14: "drop the other's row if it's basic, then remove cells of both tag symbols"
        self.purge(tag.other);
        self.purge(tag.marker);

        // Optimizing after each constraint is removed ensures that the
        // solver remains consistent. It makes the solver api easier to
        // use at a small tradeoff for speed.
        let objective = self.objective.clone();
        try!(self.optimise(&objective)); // EDIT 3

        // Check for and decrease the reference count for variables referenced by the constraint
        // If the reference count is zero remove the variable from the variable map
        // EDIT 21: the crate stores skipped terms too, and skips them here
        for term in &constraint.expr().terms {
            let mut should_remove = false;
            if let Some(&mut (_, _, ref mut count)) = self.var_data.get_mut(&term.variable) {
                *count -= 1;
                should_remove = *count == 0;
            }
            if should_remove {
                // EDIT 14: "a variable at zero goes with its row and cells and leaves the changed set"
                let (old, symbol, _) = self.var_data[&term.variable];
                // EDIT 24: "unless it was never reported"; one that waits already is listed once
                if !old.is_nan() {
                    self.gone.insert(term.variable);
                }
                self.var_for_symbol.remove(&symbol);
                self.var_data.remove(&term.variable);
                self.changed.remove(&term.variable);
                self.purge(symbol);
            }
        }
        Ok(())
    }

    // EDIT 14: a gone symbol's row and cells go, in the objective too
    fn purge(&mut self, symbol: Symbol) {
        self.rows.remove(&symbol);
        for (_, row) in &mut self.rows {
            row.remove(symbol);
        }
        self.objective.borrow_mut().remove(symbol);
    }

    /// Test whether a constraint has been added to the solver.
    pub fn has_constraint(&self, number: u32) -> bool {
        self.cns.contains_key(&Name::Number(number)) // EDIT 2
    }

    // EDIT 25: as it is stored
    pub fn shown(&self, number: u32) -> Option<&Constraint> {
        self.cns.get(&Name::Number(number)).map(|c| &c.0)
    }

    /// Add an edit variable to the solver.
    ///
    /// This method should be called before the `suggest_value` method is
    /// used to supply a suggested value for the given edit variable.
    pub fn add_edit_variable(&mut self, v: Variable, strength: f64, budget: u16) -> Answer {
        // EDIT 4: "Add edit: 18, 6, 7, 10, 9, 11."
        if self.edits.contains_key(&v) {
            return self.refused(6);
        }
        let strength = ::strength::clip(strength);
        if strength == ::strength::REQUIRED {
            return self.refused(7);
        }
        if self.cns.len() >= MOST_CONSTRAINTS {
            return self.refused(10);
        }
        if self.too_many_variables(&[Term::new(v, 1.0)]) {
            return self.refused(9);
        }
        if self.id_tick > LAST_ID {
            return self.refused(11);
        }
        let cn = Constraint::new(Name::EditOf(v), // EDIT 2: "an edit's constraint has no number"
                                 Expression::from_term(Term::new(v.clone(), 1.0)),
                                 RelationalOperator::Equal,
                                 strength);
        self.take_steps(budget, |solver| {
            try!(solver.add_constraint_steps(cn.clone())); // EDIT 6: was unwrap
            let tag = solver.cns[&cn.name].1;
            solver.edits.insert(v.clone(), EditInfo {
                tag: tag,
                constraint: cn,
                constant: 0.0
            });
            Ok(())
        })
    }

    /// Remove an edit variable from the solver.
    pub fn remove_edit_variable(&mut self, v: Variable, budget: u16) -> Answer {
        // EDIT 4, 24: "Remove edit: 18, 8, 25."
        if !self.edits.contains_key(&v) {
            return self.refused(8);
        }
        if self.too_many_gone(&[Name::EditOf(v)]) {
            return self.refused(25);
        }
        self.take_steps(budget, |solver| {
            if let Some(constraint) = solver.edits.remove(&v).map(|e| e.constraint) {
                try!(solver.remove_constraint_steps(constraint.name));
            }
            Ok(())
        })
    }

    /// Test whether an edit variable has been added to the solver.
    pub fn has_edit_variable(&self, v: &Variable) -> bool {
        self.edits.contains_key(v)
    }

    /// Suggest a value for the given edit variable.
    ///
    /// This method should be used after an edit variable has been added to
    /// the solver in order to suggest the value for that variable.
    pub fn suggest_value(&mut self, variable: Variable, value: f64, budget: u16) -> Answer {
        // EDIT 4: "Suggest: 18, 1, 8."
        if !value.is_finite() {
            return self.refused(1);
        }
        if !self.edits.contains_key(&variable) {
            return self.refused(8);
        }
        self.take_steps(budget, |solver| solver.suggest_value_steps(variable, value))
    }

    // EDIT 3: the crate's suggest_value from here on
    fn suggest_value_steps(&mut self, variable: Variable, value: f64) -> Result<(), Refusal> {
        watch::suggestion(value); // EDIT 7
        let (info_tag_marker, info_tag_other, delta) = {
            let info = try!(self.edits.get_mut(&variable).ok_or(Refusal(8))); // EDIT 3
            let delta = value - info.constant;
            info.constant = value;
            (info.tag.marker, info.tag.other, delta)
        };
        // tag.marker and tag.other are never external symbols

        // The nice version of the following code runs into non-lexical borrow issues.
        // Ideally the `if row...` code would be in the body of the if. Pretend that it is.
        // EDIT 15: nothing is pushed, here and below
        {
            if self.rows.get_mut(&info_tag_marker)
                .map(|row| { row.add(-delta); }).is_some()
            {

            } else if self.rows.get_mut(&info_tag_other)
                .map(|row| { row.add(delta); }).is_some()
            {

            } else {
                for (symbol, row) in &mut self.rows {
                    let coeff = row.coefficient_for(info_tag_marker);
                    if coeff == 0.0 {
                        continue; // EDIT 17: an infinite delta times 0.0 would note every External
                    }
                    let diff = delta * coeff;
                    if diff != 0.0 && symbol.type_() == SymbolType::External {
                        let v = self.var_for_symbol[symbol];
                        // inline var_changed - borrow checker workaround
                        if self.should_clear_changes {
                            self.changed.clear();
                            self.should_clear_changes = false;
                        }
                        self.changed.insert(v);
                    }
                    row.add(diff);
                }
            }
        }
        try!(Solver::check_finite()); // EDIT 6
        self.dual_optimise()
    }

    fn var_changed(&mut self, v: Variable) {
        if self.should_clear_changes {
            self.changed.clear();
            self.should_clear_changes = false;
        }
        self.changed.insert(v);
    }

    /// Fetches all changes to the values of variables since the last call to this function.
    ///
    /// The list of changes returned is not in a specific order. Each change comprises the variable changed and
    /// the new value of that variable.
    // EDIT 1, 24: in order now, and None for a variable that is gone
    pub fn fetch_changes(&mut self) -> &[(Variable, Option<f64>)] {
        if self.should_clear_changes {
            self.changed.clear();
            self.should_clear_changes = false;
        } else {
            self.should_clear_changes = true;
        }
        self.public_changes.clear();
        // EDIT 24: "listed once as gone in the next fetch of either kind"; was a walk of the changed alone
        let gone = ::std::mem::replace(&mut self.gone, BTreeSet::new());
        for &v in gone.union(&self.changed) {
            let is_gone = gone.contains(&v);
            if is_gone {
                self.public_changes.push((v, None));
            }
            if let Some(var_data) = self.var_data.get_mut(&v) {
                let new_value = self.rows.get(&var_data.1).map(|r| r.constant).unwrap_or(0.0);
                let old_value = var_data.0;
                // EDIT 24: "listed gone first, then with its new value, 0.0 included"
                if is_gone || old_value != new_value {
                    self.public_changes.push((v, Some(new_value)));
                    var_data.0 = new_value;
                }
            }
        }
        &self.public_changes
    }

    /// Reset the solver to the empty starting condition.
    ///
    /// This method resets the internal solver state to the empty starting
    /// condition, as if no constraints or edit variables have been added.
    /// This can be faster than deleting the solver and creating a new one
    /// when the entire system must change, since it can avoid unnecessary
    /// heap (de)allocations.
    pub fn reset(&mut self, cutoff: f64) -> Answer {
        // EDIT 22: "24 cutoff outside the range, after 18"; NaN is outside too. A refusal changes nothing
        if !(cutoff > 0.0 && cutoff <= GREATEST_CUTOFF) {
            return self.refused(24);
        }
        self.cutoff = cutoff; // EDIT 22
        self.rows.clear();
        self.cns.clear();
        self.var_data.clear();
        self.var_for_symbol.clear();
        self.changed.clear();
        self.gone.clear(); // EDIT 24
        self.should_clear_changes = false;
        self.edits.clear();
        *self.objective.borrow_mut() = Row::objective(cutoff); // EDIT 10, 22
        self.artificial = None;
        self.id_tick = 1;
        self.whole = true; // EDIT 7: "The mark is yes after reset"
        Answer { refusal: 0, pivots: 0, whole: true } // EDIT 3
    }

    /// Get the symbol for the given variable.
    ///
    /// If a symbol does not exist for the variable, one will be created.
    fn get_var_symbol(&mut self, v: Variable) -> Symbol {
        let id_tick = &mut self.id_tick;
        let var_for_symbol = &mut self.var_for_symbol;
        let value = self.var_data.entry(v).or_insert_with(|| {
            let s = Symbol(*id_tick, SymbolType::External);
            var_for_symbol.insert(s, v);
            *id_tick += 1;
            (::std::f64::NAN, s, 0)
        });
        value.2 += 1;
        value.1
    }

    /// Create a new Row object for the given constraint.
    ///
    /// The terms in the constraint will be converted to cells in the row.
    /// Any term in the constraint with a coefficient of zero is ignored.
    /// This method uses the `getVarSymbol` method to get the symbol for
    /// the variables added to the row. If the symbol for a given cell
    /// variable is basic, the cell variable will be substituted with the
    /// basic row.
    ///
    /// The necessary slack and error variables will be added to the row.
    /// If the constant for the row is negative, the sign for the row
    /// will be inverted so the constant becomes positive.
    ///
    /// The tag will be updated with the marker and error symbols to use
    /// for tracking the movement of the constraint in the tableau.
    fn create_row(&mut self, constraint: &Constraint) -> (Box<Row>, Tag) {
        let expr = constraint.expr();
        let mut row = Row::new(expr.constant, self.cutoff); // EDIT 22
        // Substitute the current basic variables into the row.
        for term in &expr.terms {
            if !near_zero(term.coefficient, self.cutoff) { // EDIT 22
                let symbol = self.get_var_symbol(term.variable);
                if let Some(other_row) = self.rows.get(&symbol) {
                    row.insert_row(other_row, term.coefficient);
                } else {
                    row.insert_symbol(symbol, term.coefficient);
                }
            }
        }

        let mut objective = self.objective.borrow_mut();

        // Add the necessary slack, error, and dummy variables.
        let tag = match constraint.op() {
            RelationalOperator::GreaterOrEqual |
            RelationalOperator::LessOrEqual => {
                let coeff = if constraint.op() == RelationalOperator::LessOrEqual {
                    1.0
                } else {
                    -1.0
                };
                let slack = Symbol(self.id_tick, SymbolType::Slack);
                self.id_tick += 1;
                row.insert_symbol(slack, coeff);
                if constraint.strength() < ::strength::REQUIRED {
                    let error = Symbol(self.id_tick, SymbolType::Error);
                    self.id_tick += 1;
                    row.insert_symbol(error, -coeff);
                    objective.insert_symbol(error, constraint.strength());
                    Tag {
                        marker: slack,
                        other: error
                    }
                } else {
                    Tag {
                        marker: slack,
                        other: Symbol::invalid()
                    }
                }
            }
            RelationalOperator::Equal => {
                if constraint.strength() < ::strength::REQUIRED {
                    let errplus = Symbol(self.id_tick, SymbolType::Error);
                    self.id_tick += 1;
                    let errminus = Symbol(self.id_tick, SymbolType::Error);
                    self.id_tick += 1;
                    row.insert_symbol(errplus, -1.0); // v = eplus - eminus
                    row.insert_symbol(errminus, 1.0); // v - eplus + eminus = 0
                    objective.insert_symbol(errplus, constraint.strength());
                    objective.insert_symbol(errminus, constraint.strength());
                    Tag {
                        marker: errplus,
                        other: errminus
                    }
                } else {
                    let dummy = Symbol(self.id_tick, SymbolType::Dummy);
                    self.id_tick += 1;
                    row.insert_symbol(dummy, 1.0);
                    Tag {
                        marker: dummy,
                        other: Symbol::invalid()
                    }
                }
            }
        };

        // Ensure the row has a positive constant.
        if row.constant < 0.0 {
            row.reverse_sign();
        }
        (Box::new(row), tag)
    }

    /// Choose the subject for solving for the row.
    ///
    /// This method will choose the best subject for using as the solve
    /// target for the row. An invalid symbol will be returned if there
    /// is no valid target.
    ///
    /// The symbols are chosen according to the following precedence:
    ///
    /// 1) The first symbol representing an external variable.
    /// 2) A negative slack or error tag variable.
    ///
    /// If a subject cannot be found, an invalid symbol will be returned.
    fn choose_subject(row: &Row, tag: &Tag) -> Symbol {
        for s in row.cells.keys() {
            if s.type_() == SymbolType::External {
                return *s
            }
        }
        if tag.marker.type_() == SymbolType::Slack || tag.marker.type_() == SymbolType::Error {
            if row.coefficient_for(tag.marker) < 0.0 {
                return tag.marker;
            }
        }
        if tag.other.type_() == SymbolType::Slack || tag.other.type_() == SymbolType::Error {
            if row.coefficient_for(tag.other) < 0.0 {
                return tag.other;
            }
        }
        Symbol::invalid()
    }

    /// Add the row to the tableau using an artificial variable.
    ///
    /// This will return false if the constraint cannot be satisfied.
    fn add_with_artificial_variable(&mut self, row: &Row) -> Result<bool, Refusal> {
        // Create and add the artificial variable to the tableau
        let art = Symbol(self.id_tick, SymbolType::Slack);
        self.id_tick += 1;
        self.rows.insert(art, Box::new(row.clone()));
        self.artificial = Some(Rc::new(RefCell::new(row.clone())));

        // Optimize the artificial objective. This is successful
        // only if the artificial objective is optimized to zero.
        let artificial = self.artificial.as_ref().unwrap().clone();
        try!(self.optimise(&artificial));
        let success = near_zero(artificial.borrow().constant, self.cutoff); // EDIT 22
        self.artificial = None;
        // EDIT 16: "Its constant not near zero: refuse 12." before the pivot below, which could meet 13 first
        if !success {
            return Ok(false);
        }

        // If the artificial variable is basic, pivot the row so that
        // it becomes basic. If the row is constant, exit early.
        if let Some(mut row) = self.rows.remove(&art) {
            if row.cells.is_empty() {
                // EDIT 14: "Remove the temporary everywhere." The crate leaves its cells here
                self.purge(art);
                return Ok(success);
            }
            let entering = Solver::any_pivotable_symbol(&row); // never External
            if entering.type_() == SymbolType::Invalid {
                return Ok(false); // unsatisfiable (will this ever happen?)
            }
            row.solve_for_symbols(art, entering);
            self.substitute(entering, &row);
            self.rows.insert(entering, row);
            try!(Solver::check_finite()); // EDIT 6
        }

        // Remove the artificial row from the tableau
        for (_, row) in &mut self.rows {
            row.remove(art);
        }
        self.objective.borrow_mut().remove(art);
        Ok(success)
    }

    /// Substitute the parametric symbol with the given row.
    ///
    /// This method will substitute all instances of the parametric symbol
    /// in the tableau and the objective function with the given row.
    fn substitute(&mut self, symbol: Symbol, row: &Row) {
        for (&other_symbol, other_row) in &mut self.rows {
            let constant_changed = other_row.substitute(symbol, row);
            if other_symbol.type_() == SymbolType::External && constant_changed {
                let v = self.var_for_symbol[&other_symbol];
                // inline var_changed
                if self.should_clear_changes {
                    self.changed.clear();
                    self.should_clear_changes = false;
                }
                self.changed.insert(v);
            }
            // EDIT 15: nothing is pushed
        }
        self.objective.borrow_mut().substitute(symbol, row);
        if let Some(artificial) = self.artificial.as_ref() {
            artificial.borrow_mut().substitute(symbol, row);
        }
    }

    /// Optimize the system for the given objective function.
    ///
    /// This method performs iterations of Phase 2 of the simplex method
    /// until the objective function reaches a minimum.
    fn optimise(&mut self, objective: &RefCell<Row>) -> Result<(), Refusal> {
        loop {
            let entering = Solver::get_entering_symbol(&objective.borrow());
            if entering.type_() == SymbolType::Invalid {
                return Ok(());
            }
            let (leaving, mut row) = try!(self.get_leaving_row(entering)
                             .ok_or(Refusal(15))); // EDIT 3
            try!(self.check_budget()); // EDIT 8: "14 is tested after 15 and 16."
            // pivot the entering symbol into the basis
            row.solve_for_symbols(leaving, entering);
            self.substitute(entering, &row);
            if entering.type_() == SymbolType::External && row.constant != 0.0 {
                let v = self.var_for_symbol[&entering];
                self.var_changed(v);
            }
            self.rows.insert(entering, row);
            try!(Solver::check_finite()); // EDIT 6
            self.pivots += 1; // EDIT 8: "pivots made"
        }
    }

    /// Optimize the system using the dual of the simplex method.
    ///
    /// The current state of the system should be such that the objective
    /// function is optimal, but not feasible. This method will perform
    /// an iteration of the dual simplex method to make the solution both
    /// optimal and feasible.
    fn dual_optimise(&mut self) -> Result<(), Refusal> {
        // EDIT 15: was a walk of the list, last pushed first
        while let Some(leaving) = self.get_dual_leaving_symbol() {
            let entering = self.get_dual_entering_symbol(&self.rows[&leaving]);
            if entering.type_() == SymbolType::Invalid {
                return Err(Refusal(16)); // EDIT 3
            }
            try!(self.check_budget()); // EDIT 8
            let mut row = self.rows.remove(&leaving).unwrap();
            // pivot the entering symbol into the basis
            row.solve_for_symbols(leaving, entering);
            self.substitute(entering, &row);
            if entering.type_() == SymbolType::External && row.constant != 0.0 {
                let v = self.var_for_symbol[&entering];
                self.var_changed(v);
            }
            self.rows.insert(entering, row);
            try!(Solver::check_finite()); // EDIT 6
            self.pivots += 1; // EDIT 8
        }
        Ok(())
    }

    // EDIT 15: "leaving is the restricted row below 0 with the lowest id"
    fn get_dual_leaving_symbol(&self) -> Option<Symbol> {
        self.rows.iter()
            .find(|&(s, row)| s.type_() != SymbolType::External && row.constant < 0.0)
            .map(|(s, _)| *s)
    }

    /// Compute the entering variable for a pivot operation.
    ///
    /// This method will return first symbol in the objective function which
    /// is non-dummy and has a coefficient less than zero. If no symbol meets
    /// the criteria, it means the objective function is at a minimum, and an
    /// invalid symbol is returned.
    /// Could return an External symbol
    fn get_entering_symbol(objective: &Row) -> Symbol {
        for (symbol, value) in &objective.cells {
            if symbol.type_() != SymbolType::Dummy && *value < 0.0 {
                return *symbol;
            }
        }
        Symbol::invalid()
    }

    /// Compute the entering symbol for the dual optimize operation.
    ///
    /// This method will return the symbol in the row which has a positive
    /// coefficient and yields the minimum ratio for its respective symbol
    /// in the objective function. The provided row *must* be infeasible.
    /// If no symbol is found which meats the criteria, an invalid symbol
    /// is returned.
    /// Could return an External symbol
    fn get_dual_entering_symbol(&self, row: &Row) -> Symbol {
        let mut entering = Symbol::invalid();
        let mut ratio = ::std::f64::INFINITY;
        let objective = self.objective.borrow();
        for (symbol, value) in &row.cells {
            if *value > 0.0 && symbol.type_() != SymbolType::Dummy {
                let coeff = objective.coefficient_for(*symbol);
                let r = coeff / *value;
                if r.is_finite() && r < ratio { // EDIT 9
                    ratio = r;
                    entering = *symbol;
                }
            }
        }
        entering
    }

    /// Get the first Slack or Error symbol in the row.
    ///
    /// If no such symbol is present, and Invalid symbol will be returned.
    /// Never returns an External symbol
    fn any_pivotable_symbol(row: &Row) -> Symbol {
        for symbol in row.cells.keys() {
            if symbol.type_() == SymbolType::Slack || symbol.type_() == SymbolType::Error {
                return *symbol;
            }
        }
        Symbol::invalid()
    }

    /// Compute the row which holds the exit symbol for a pivot.
    ///
    /// This method will return an iterator to the row in the row map
    /// which holds the exit symbol. If no appropriate exit symbol is
    /// found, the end() iterator will be returned. This indicates that
    /// the objective function is unbounded.
    /// Never returns a row for an External symbol
    fn get_leaving_row(&mut self, entering: Symbol) -> Option<(Symbol, Box<Row>)> {
        let mut ratio = ::std::f64::INFINITY;
        let mut found = None;
        for (symbol, row) in &self.rows {
            if symbol.type_() != SymbolType::External {
                let temp = row.coefficient_for(entering);
                if temp < 0.0 {
                    let temp_ratio = -row.constant / temp;
                    if temp_ratio.is_finite() && temp_ratio < ratio { // EDIT 9
                        ratio = temp_ratio;
                        found = Some(*symbol);
                    }
                }
            }
        }
        found.map(|s| (s, self.rows.remove(&s).unwrap()))
    }

    /// Compute the leaving row for a marker variable.
    ///
    /// This method will return an iterator to the row in the row map
    /// which holds the given marker variable. The row will be chosen
    /// according to the following precedence:
    ///
    /// 1) The row with a restricted basic varible and a negative coefficient
    ///    for the marker with the smallest ratio of -constant / coefficient.
    ///
    /// 2) The row with a restricted basic variable and the smallest ratio
    ///    of constant / coefficient.
    ///
    /// 3) The last unrestricted row which contains the marker.
    ///
    /// If the marker does not exist in any row, the row map end() iterator
    /// will be returned. This indicates an internal solver error since
    /// the marker *should* exist somewhere in the tableau.
    fn get_marker_leaving_row(&mut self, marker: Symbol) -> Option<(Symbol, Box<Row>)> {
        let mut r1 = ::std::f64::INFINITY;
        let mut r2 = r1;
        let mut dummy = None; // EDIT 13: "the first Dummy row holding the marker"
        let mut first = None;
        let mut second = None;
        let mut third = None;
        for (symbol, row) in &self.rows {
            let c = row.coefficient_for(marker);
            if c == 0.0 {
                continue;
            }
            if symbol.type_() == SymbolType::External {
                third = Some(*symbol);
            } else if symbol.type_() == SymbolType::Dummy { // EDIT 13
                dummy = dummy.or(Some(*symbol));
            } else if c < 0.0 {
                let r = -row.constant / c;
                if r.is_finite() && r < r1 { // EDIT 9
                    r1 = r;
                    first = Some(*symbol);
                }
            } else {
                let r = row.constant / c;
                if r.is_finite() && r < r2 { // EDIT 9
                    r2 = r;
                    second = Some(*symbol);
                }
            }
        }
        dummy // EDIT 13
            .or(first)
            .or(second)
            .or(third)
            .and_then(|s| {
                if s.type_() == SymbolType::External && self.rows[&s].constant != 0.0 {
                    let v = self.var_for_symbol[&s];
                    self.var_changed(v);
                }
                self.rows
                    .remove(&s)
                    .map(|r| (s, r))
            })
    }

    /// Remove the effects of a constraint on the objective function.
    fn remove_constraint_effects(&mut self, cn: &Constraint, tag: &Tag) {
        if tag.marker.type_() == SymbolType::Error {
            self.remove_marker_effects(tag.marker, cn.strength());
        }
        // EDIT 12: "take each error symbol's strength out of the objective, marker's first"; was an else
        if tag.other.type_() == SymbolType::Error {
            self.remove_marker_effects(tag.other, cn.strength());
        }
    }

    /// Remove the effects of an error marker on the objective function.
    fn remove_marker_effects(&mut self, marker: Symbol, strength: f64) {
        if let Some(row) = self.rows.get(&marker) {
            self.objective.borrow_mut().insert_row(row, -strength);
        } else {
            self.objective.borrow_mut().insert_symbol(marker, -strength);
        }
    }

    /// Test whether a row is composed of all dummy variables.
    fn all_dummies(row: &Row) -> bool {
        for symbol in row.cells.keys() {
            if symbol.type_() != SymbolType::Dummy {
                return false;
            }
        }
        true
    }

    /// Get the stored value for a variable.
    ///
    /// Normally values should be retrieved and updated using `fetch_changes`, but
    /// this method can be used for debugging or testing.
    pub fn get_value(&self, v: Variable) -> f64 {
        self.var_data.get(&v).and_then(|s| {
            self.rows.get(&s.1).map(|r| r.constant)
        }).unwrap_or(0.0)
    }
}
