//! The patched crate's solver made from tables that read, the call made on it, and the tables that it comes to.
use crate::archive::{Answer, Call, Shown};
use crate::layout::{code, id_of, kind_of, Tables, DUMMY, ERROR, EXTERNAL, NONE, SLACK};
use crate::state::{ConstraintWords, EditWords, RowWords, VariableWords, Words};
use cassowary_patched::{Constraint, ConstraintState, EditState, Expression, Name, RelationalOperator, RowState, Solver, State, Symbol, SymbolType, Term, Variable, VariableState};

// ---- symbols

fn symbol(word: u64) -> Symbol {
    let kind = match kind_of(word) {
        EXTERNAL => SymbolType::External,
        SLACK => SymbolType::Slack,
        ERROR => SymbolType::Error,
        _ => SymbolType::Dummy,
    };
    Symbol(id_of(word) as usize, kind)
}

fn other(word: u64) -> Symbol {
    if word == NONE { Symbol::invalid() } else { symbol(word) }
}

fn word(s: Symbol) -> u64 {
    let kind = match s.1 {
        SymbolType::Invalid => return NONE,
        SymbolType::External => EXTERNAL,
        SymbolType::Slack => SLACK,
        SymbolType::Error => ERROR,
        SymbolType::Dummy => DUMMY,
    };
    code(s.0 as u64, kind)
}

// ---- relations

fn relation(kind: u32) -> RelationalOperator {
    match kind {
        0 => RelationalOperator::LessOrEqual,
        1 => RelationalOperator::Equal,
        _ => RelationalOperator::GreaterOrEqual,
    }
}

fn kind(op: RelationalOperator) -> u64 {
    match op {
        RelationalOperator::LessOrEqual => 0,
        RelationalOperator::Equal => 1,
        RelationalOperator::GreaterOrEqual => 2,
    }
}

// ---- states: "A row holds a symbol if its cell isn't 0.0."

fn present(symbols: &[u64], cells: &[f64]) -> Vec<(Symbol, f64)> {
    symbols.iter().zip(cells).filter(|(_, x)| **x != 0.0).map(|(s, x)| (symbol(*s), *x)).collect()
}

/// Of words that read.
pub fn state(w: &Words) -> State {
    State {
        cutoff: w.cutoff,
        next: w.next as usize,
        clear: w.clear == 1,
        whole: w.whole == 1,
        variables: w.variables.iter().map(|v| VariableState { number: v.number as u32, symbol: symbol(v.symbol), old: v.old, uses: v.uses as usize, changed: v.changed == 1 }).collect(),
        gone: w.gone.iter().map(|n| *n as u32).collect(),
        constraints: w
            .constraints
            .iter()
            .map(|c| ConstraintState {
                number: c.number as u32,
                group: c.group,
                op: relation(c.relation as u32),
                strength: c.strength,
                constant: c.constant,
                terms: c.terms.iter().map(|&(v, k)| (v as u32, k)).collect(),
                marker: symbol(c.marker),
                other: other(c.other),
            })
            .collect(),
        edits: w.edits.iter().map(|e| EditState { variable: e.variable as u32, strength: e.strength, marker: symbol(e.marker), other: other(e.other), suggestion: e.suggestion }).collect(),
        rows: w.rows.iter().map(|r| RowState { symbol: symbol(r.symbol), constant: r.constant, cells: present(&w.symbols, &r.cells) }).collect(),
        objective: present(&w.symbols, &w.objective),
    }
}

pub fn words(s: &State) -> Words {
    let live = s.live();
    let along = |cells: &[(Symbol, f64)]| -> Vec<f64> { live.iter().map(|x| cells.iter().find(|c| c.0 == *x).map_or(0.0, |c| c.1)).collect() };
    let constraint = |c: &ConstraintState| ConstraintWords {
        number: c.number.into(),
        group: c.group,
        relation: kind(c.op),
        constant: c.constant,
        marker: word(c.marker),
        other: word(c.other),
        strength: c.strength,
        terms: c.terms.iter().map(|&(v, k)| (v.into(), k)).collect(),
    };
    Words {
        cutoff: s.cutoff,
        next: s.next as u64,
        clear: s.clear.into(),
        whole: s.whole.into(),
        symbols: live.iter().map(|x| word(*x)).collect(),
        rows: s.rows.iter().map(|r| RowWords { symbol: word(r.symbol), constant: r.constant, cells: along(&r.cells) }).collect(),
        objective: along(&s.objective),
        variables: s.variables.iter().map(|v| VariableWords { number: v.number.into(), symbol: word(v.symbol), uses: v.uses as u64, changed: v.changed.into(), old: v.old }).collect(),
        gone: s.gone.iter().map(|n| u64::from(*n)).collect(),
        constraints: s.constraints.iter().map(constraint).collect(),
        edits: s.edits.iter().map(|e| EditWords { variable: e.variable.into(), marker: word(e.marker), other: word(e.other), strength: e.strength, suggestion: e.suggestion }).collect(),
    }
}

// ---- calls

fn made(solver: &mut Solver, call: &Call) -> Answer {
    let a = match call {
        Call::Reset { cutoff } => solver.reset(*cutoff),
        Call::Add { group, number, vars, coefs, constant, kind, strength, budget } => {
            let terms = vars.iter().zip(coefs).map(|(v, k)| Term::new(Variable(*v), *k)).collect();
            let constraint = Constraint::new(Name::Number(*number), Expression::new(terms, *constant), relation(*kind), *strength);
            solver.add_constraint(constraint.in_group((*group).into()), *budget)
        }
        Call::Remove { number, budget } => solver.remove_constraint(*number, *budget),
        Call::Drop { group, budget } => solver.drop_group(*group, *budget),
        Call::AddEdit { variable, strength, budget } => solver.add_edit_variable(Variable(*variable), *strength, *budget),
        Call::RemoveEdit { variable, budget } => solver.remove_edit_variable(Variable(*variable), *budget),
        Call::Suggest { variable, suggestion, budget } => solver.suggest_value(Variable(*variable), *suggestion, *budget),
    };
    Answer { number: a.refusal.into(), pivots: a.pivots, whole: a.whole.into() }
}

/// The answer, and the tables afterwards: a state is written over the live part, "A refusal changes no table".
pub fn call(w: &Words, t: &Tables, call: &Call) -> (Answer, Tables) {
    let mut solver = Solver::from_state(&state(w));
    let answer = made(&mut solver, call);
    let mut after = t.clone();
    if answer.number == 0 {
        words(&solver.state()).held().lay(&mut after);
    }
    (answer, after)
}

/// The list of a fetch, the value none where a variable is gone, and the tables afterwards.
pub fn fetch(w: &Words, t: &Tables) -> (Vec<(u64, Option<f64>)>, Tables) {
    let mut solver = Solver::from_state(&state(w));
    let list = solver.fetch_changes().iter().map(|(v, x)| (v.0.into(), *x)).collect();
    let mut after = t.clone();
    words(&solver.state()).held().lay(&mut after);
    (list, after)
}

/// A constraint as it was added, in the places in which it is shown; 5 if there is none such.
pub fn show(w: &Words, n: u32) -> Shown {
    let solver = Solver::from_state(&state(w));
    let Some(c) = solver.shown(n) else { return Shown::refused(5) };
    let terms = &c.expr().terms;
    let mut out = Shown::refused(0);
    out.words = [0, 0, 0, kind(c.op()), terms.len() as u64, c.group()];
    out.reals = [c.expr().constant, c.strength()];
    for (i, t) in terms.iter().enumerate() {
        (out.variables[i], out.coefficients[i]) = (t.variable.0, t.coefficient);
    }
    out
}

/// Value, has constraint, has edit.
pub fn ask(w: &Words, n: u32) -> (f64, bool, bool) {
    let solver = Solver::from_state(&state(w));
    (solver.get_value(Variable(n)), solver.has_constraint(n), solver.has_edit_variable(&Variable(n)))
}
