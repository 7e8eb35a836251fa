//! Lines of text over the service cable, which come in pieces.
use crate::archive::{self, CABLE};
use crate::{Line, Refusal};

/// A reader of lines of text that come in pieces, cut anywhere. A line is answered when its newline is there, and holds 200 bytes at
/// most, its newline apart. However the bytes are cut, the answers and the reader at the end are those of one piece.
///
/// ```
/// use knobharbor::{CableReader, LentSolver, Refusal, Tables, Variable};
///
/// let (mut tables, mut room) = (Tables::new(), Tables::new());
/// let mut solver = LentSolver::new(&mut tables, &mut room);
/// let mut cable = CableReader::new();
/// let mut number = 0;
/// for mut piece in [b"v1 = 5\n2*(v1 + 3) <".as_slice(), b"= v2\nv1<\n"] {
///     while let Some(line) = cable.take(&mut piece) {
///         number += 1;
///         match line {
///             Ok(line) => solver.add_in(line.group, number, line.terms(), line.constant, line.op, line.strength)?,
///             Err((refusal, offset)) => assert_eq!((number, refusal, offset), (3, Refusal::LineNotInGrammar, 3)),
///         }
///     }
/// }
/// assert_eq!(cable.close(), Ok(()));
/// assert_eq!(solver.value(Variable::from_number(2)), 16.0);
/// # Ok::<(), Refusal>(())
/// ```
#[derive(Clone, Debug)]
pub struct CableReader {
    state: [u8; CABLE],
}

impl CableReader {
    /// A reader to which nothing was sent, as a `static` can be.
    #[allow(clippy::new_without_default)]
    pub const fn new() -> CableReader {
        CableReader { state: [0; CABLE] }
    }

    /// What the first line that ends in the piece reads as, or why it is refused, with the first byte with which no line can go on
    /// beside `Refusal::LineNotInGrammar`, else 0; none if no line ends in the piece. The piece moves behind the bytes taken.
    pub fn take(&mut self, piece: &mut &[u8]) -> Option<Result<Line, (Refusal, usize)>> {
        let (ended, handed) = archive::cable_take(&mut self.state, piece);
        *piece = &piece[handed.taken()..];
        ended.then(|| Line::of(&handed))
    }

    /// No more bytes come. A line that had begun is refused with `Refusal::LineUnended`. The reader is as new.
    pub fn close(&mut self) -> Result<(), Refusal> {
        let (_, handed) = archive::cable_close(&mut self.state);
        Refusal::of(handed.number()).map_or(Ok(()), Err)
    }
}
