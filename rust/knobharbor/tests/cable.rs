//! Lines over the service cable: the same answers however the bytes are cut, and readings that an add takes.
use knobharbor::strength::REQUIRED;
use knobharbor::RelationalOperator::{Equal, LessOrEqual};
use knobharbor::{CableReader, LentSolver, Line, Refusal, Tables};

type Heard = Result<Line, (Refusal, usize)>;

/// Every answer to these pieces, sent to this reader.
fn hear<'a>(cable: &mut CableReader, pieces: impl IntoIterator<Item = &'a [u8]>) -> Vec<Heard> {
    let mut heard = Vec::new();
    for mut piece in pieces {
        while let Some(line) = cable.take(&mut piece) {
            heard.push(line);
        }
        assert!(piece.is_empty());
    }
    heard
}

fn said(heard: &[Heard]) -> Vec<String> {
    heard.iter().map(|h| format!("{h:?}")).collect()
}

fn numbers(line: &Line) -> Vec<(u32, f64)> {
    line.terms().iter().map(|t| (t.variable.number(), t.coefficient)).collect()
}

/// "`2*(v1 + 3) <= v2` reads as 2 v1 - v2 + 6 at most 0."
#[test]
fn a_line_is_handed_over() {
    let heard = hear(&mut CableReader::new(), [b"2*(v1 + 3) <= v2\n0=5 @ 1000, 65535\n".as_slice()]);
    let (first, second) = (heard[0].unwrap(), heard[1].unwrap());
    assert_eq!((first.group, second.strength, second.group), (1, 1000.0, 65535));
    assert_eq!((first.op, first.strength, first.constant), (LessOrEqual, REQUIRED, 6.0));
    assert_eq!(numbers(&first), [(1, 2.0), (2, -1.0)]);
    assert_eq!((second.op, second.constant, numbers(&second).len()), (Equal, -5.0, 0));
}

#[test]
fn refusals_have_their_numbers() {
    let mut sent = b"v1<0\n\nv1=0\r\n1048577=v1\nv1=0@1001001001,0\nv1=0@1,65536\nv1=0@1\n".to_vec();
    sent.extend([b'-'; 201]);
    sent.extend(b"\nv1=0\n");
    let heard = hear(&mut CableReader::new(), [sent.as_slice()]);
    let refused: Vec<_> = heard.iter().filter_map(|h| h.err()).collect();
    let unread = Refusal::LineNotInGrammar;
    let ranges = [(Refusal::LineTooLarge, 0), (Refusal::LineStrengthOutOfRange, 0), (Refusal::LineGroupOutOfRange, 0)];
    assert_eq!(refused[..3], [(unread, 3), (unread, 0), (unread, 4)]);
    assert_eq!((&refused[3..6], &refused[6..]), (ranges.as_slice(), [(unread, 6), (Refusal::CableLineTooLong, 0)].as_slice()));
    assert!(heard.len() == 9 && heard[8].is_ok());
}

#[test]
fn cuts_do_not_matter() {
    let mut sent = b"v1 = 5\n2*(v1 + 3) <= v2 @ 1000, 2\nv1<\n\n".to_vec();
    sent.extend([b'x'; 300]);
    sent.extend(b"\nv3 - v2 >= 40\nv4");
    let mut whole = CableReader::new();
    let answers = said(&hear(&mut whole, [sent.as_slice()]));
    assert_eq!(answers.len(), 6);
    for longest in 1..sent.len() {
        let mut cable = CableReader::new();
        assert_eq!(said(&hear(&mut cable, sent.chunks(longest))), answers);
        assert_eq!((cable.close(), cable.close()), (Err(Refusal::LineUnended), Ok(())));
    }
    assert_eq!(whole.take(&mut [].as_slice()).map(|line| line.is_ok()), None);
    assert_eq!((whole.close(), whole.close()), (Err(Refusal::LineUnended), Ok(())));
}

/// What is handed over, added, is the line added.
#[test]
fn a_line_handed_on_is_the_line_added() {
    let lines = ["v1 = 5", "2*(v1 + 3) <= v2", "v3 - v2 >= 40", "-(v1 - v2) = 10 - 2*v4", "v1 = 6"];
    let (mut tables, mut room) = (Tables::new(), Tables::new());
    let (mut others, mut space) = (Tables::new(), Tables::new());
    let mut solver = LentSolver::new(&mut tables, &mut room);
    let mut typed = LentSolver::new(&mut others, &mut space);
    let mut cable = CableReader::new();
    for (number, text) in (1..).zip(lines) {
        let sent = format!("{text}\n");
        let line = hear(&mut cable, [sent.as_bytes()])[0].unwrap();
        let added = solver.add_in(line.group, number, line.terms(), line.constant, line.op, line.strength);
        assert_eq!(added.map_err(|refusal| (refusal, 0)), typed.add_text(number, text.as_bytes()));
        assert_eq!(solver.pivots(), typed.pivots());
    }
    assert_eq!(*solver.fetch(), *typed.fetch());
}
