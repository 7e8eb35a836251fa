//! Constraints as lines of text, read and written.
use knobharbor::strength::{REQUIRED, WEAK};
use knobharbor::RelationalOperator::{Equal, GreaterOrEqual, LessOrEqual};
use knobharbor::{to_line, LentSolver, Line, Refusal, Tables, Term, Variable};

fn term(variable: u32, coefficient: f64) -> Term {
    Term { variable: Variable::from_number(variable), coefficient }
}

fn numbers(terms: &[Term]) -> Vec<(u32, f64)> {
    terms.iter().map(|t| (t.variable.number(), t.coefficient)).collect()
}

/// "`2*(v1 + 3) <= v2` reads as 2 v1 - v2 + 6 at most 0."; "without it the constraint is required and in group 1"
#[test]
fn a_line_is_read() {
    let line = Line::parse(b"2*(v1 + 3) <= v2").unwrap();
    assert_eq!((line.op, line.strength, line.group, line.constant), (LessOrEqual, REQUIRED, 1, 6.0));
    assert_eq!(numbers(line.terms()), [(1, 2.0), (2, -1.0)]);
    let line = Line::parse(b"0=5 @ 000 , 65535").unwrap();
    assert_eq!((line.op, line.strength, line.group, line.constant, line.terms().len()), (Equal, 0.0, 65535, -5.0, 0));
}

#[test]
fn lines_are_refused_in_order() {
    let unread = |at| (Refusal::LineNotInGrammar, at);
    let refused = [
        ("v1=0@", unread(5)),
        ("v1=0@1", unread(6)),
        ("v1=0@-1,1", unread(5)),
        ("v1=0@1,1 ", unread(8)),
        ("v1=0@1001001001,x", unread(16)),
        ("v1=0@1001001001,0", (Refusal::LineStrengthOutOfRange, 0)),
        ("v1=0@1001001000,0", (Refusal::LineGroupOutOfRange, 0)),
        ("v1=0@1,65536", (Refusal::LineGroupOutOfRange, 0)),
        ("1048576*v1=-v1@1001001001,0", (Refusal::LineTooLarge, 0)),
    ];
    for (line, why) in refused {
        assert_eq!(Line::parse(line.as_bytes()).unwrap_err(), why, "{line}");
    }
    assert_eq!(Line::parse(&[b'-'; 4097]).unwrap_err(), (Refusal::LineTooLong, 0));
    assert!(Line::parse(&[[b'-'; 4092].as_slice(), b"v1=0"].concat()).is_ok());
}

/// "no spaces or brackets, terms ascending by variable, then the constant unless it is zero and terms stand, the relation, a right side of
/// `0`, and the ending unless it is required and group 1. In a coefficient a size of 1 is left out."
#[test]
fn the_plain_form() {
    let two = [term(1, -1.0), term(4294967295, 1048576.0)];
    let written = [
        (to_line(&two, 0.0, LessOrEqual, REQUIRED, 1), "-v1+1048576*v4294967295<=0"),
        (to_line(&two, -0.0, Equal, REQUIRED, 2), "-v1+1048576*v4294967295=0@1001001000,2"),
        (to_line(&two, -7.0, GreaterOrEqual, WEAK, 1), "-v1+1048576*v4294967295-7>=0@1,1"),
        (to_line(&[], 0.0, Equal, REQUIRED, 1), "0=0"),
        (to_line(&[], -5.0, LessOrEqual, 0.0, 65535), "-5<=0@0,65535"),
    ];
    for (line, expected) in written {
        assert_eq!(&*line.unwrap(), expected);
        let read = Line::parse(expected.as_bytes()).unwrap();
        assert_eq!(read.to_line(), line);
    }
}

#[test]
fn what_no_line_says() {
    let x = [term(1, 1.0)];
    let many: Vec<Term> = (0..40).map(|v| term(v, 1.0)).collect();
    let unsaid = [
        to_line(&[term(2, 1.0), term(1, 1.0)], 0.0, Equal, REQUIRED, 1),
        to_line(&[term(1, 1.0), term(1, 1.0)], 0.0, Equal, REQUIRED, 1),
        to_line(&[term(1, 0.0)], 0.0, Equal, REQUIRED, 1),
        to_line(&[term(1, 0.5)], 0.0, Equal, REQUIRED, 1),
        to_line(&[term(1, 1048577.0)], 0.0, Equal, REQUIRED, 1),
        to_line(&x, f64::NAN, Equal, REQUIRED, 1),
        to_line(&x, 0.0, Equal, -1.0, 1),
        to_line(&x, 0.0, Equal, REQUIRED + 1.0, 1),
        to_line(&x, 0.0, Equal, 0.5, 1),
        to_line(&x, 0.0, Equal, REQUIRED, 0),
        to_line(&many[..17], 0.0, Equal, REQUIRED, 1),
        to_line(&many, 0.0, Equal, REQUIRED, 1),
    ];
    for line in unsaid {
        assert_eq!(line, Err(Refusal::LineCannotSay));
    }
    assert!(to_line(&many[..16], 0.0, Equal, REQUIRED, 1).is_ok());
    let long: Vec<Term> = (0..16).map(|v| term(4294967279 + v, -1048575.0)).collect();
    assert_eq!(to_line(&long, 0.0, Equal, REQUIRED, 1), Err(Refusal::CableLineTooLong));
}

/// "read layouts back": each constraint as it was added, until it goes
#[test]
fn a_layout_is_read_back() {
    let (mut tables, mut room) = (Tables::new(), Tables::new());
    let mut solver = LentSolver::new(&mut tables, &mut room);
    let lines = ["v1-5=0", "2*v1-v2+6<=0@1000000,2", "-v2+v3-40>=0@1,65535", "-3<=0"];
    for (number, line) in (10..).zip(lines) {
        let read = Line::parse(line.as_bytes()).unwrap();
        solver.add_in(read.group, number, read.terms(), read.constant, read.op, read.strength).unwrap();
    }
    for (number, line) in (10..).zip(lines) {
        assert_eq!(&*solver.show(number).unwrap().to_line().unwrap(), line);
    }
    solver.add_edit(Variable::from_number(3), WEAK).unwrap();
    solver.suggest(Variable::from_number(3), 90.0).unwrap();
    assert_eq!(&*solver.show(12).unwrap().to_line().unwrap(), lines[2]);
    solver.drop_group(2).unwrap();
    solver.remove(13).unwrap();
    for gone in [0, 3, 9, 11, 13, 14, u32::MAX] {
        assert_eq!(solver.show(gone).unwrap_err(), Refusal::UnknownConstraint);
    }
    assert_eq!(&*solver.show(10).unwrap().to_line().unwrap(), lines[0]);
}

/// "skipped terms left out"; terms out of order, a broken number or a strength that is not whole are shown as they are, and 36 to the writer
#[test]
fn what_is_shown_and_cannot_be_written() {
    let (mut tables, mut room) = (Tables::new(), Tables::new());
    let mut solver = LentSolver::new(&mut tables, &mut room);
    let shown = |solver: &LentSolver, number| {
        let line = solver.show(number).unwrap();
        (numbers(line.terms()), line.constant.to_bits(), line.op, line.strength, line.group)
    };
    solver.add_in(7, 1, &[term(9, 1.0), term(3, 1e-9), term(4, -0.5)], -0.0, Equal, 2.5).unwrap();
    assert_eq!(shown(&solver, 1), (vec![(9, 1.0), (4, -0.5)], (-0.0f64).to_bits(), Equal, 2.5, 7));
    solver.add(2, &[term(4, 2.0), term(4, 3.0)], 0.25, LessOrEqual, WEAK).unwrap();
    assert_eq!(shown(&solver, 2), (vec![(4, 2.0), (4, 3.0)], 0.25f64.to_bits(), LessOrEqual, WEAK, 1));
    solver.add(3, &[term(4, 1.0), term(9, 0.0), term(11, 1.0)], -7.0, GreaterOrEqual, REQUIRED).unwrap();
    assert_eq!(&*solver.show(3).unwrap().to_line().unwrap(), "v4+v11-7>=0");
    for number in [1, 2] {
        assert_eq!(solver.show(number).unwrap().to_line(), Err(Refusal::LineCannotSay));
    }
    let mut none = Tables::new();
    assert_eq!(LentSolver::resume(&mut none, &mut room).show(1).unwrap_err(), Refusal::TablesDoNotRead);
}
