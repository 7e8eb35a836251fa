//! Constraints as lines of text: read, and written in their one plain form.
use crate::archive::{self, Handed, Tables, LINE, TERMS};
use crate::{Refusal, RelationalOperator, Term, Variable};
use core::fmt;
use core::ops::Deref;

/// The constraint that a line reads as, or one that a solver shows (`LentSolver::show`): the terms plus the constant are `op` zero, at this
/// strength and in this group. Of a line that reads, the terms ascend by variable, and all numbers are whole.
///
/// ```
/// use knobharbor::{Line, Refusal};
///
/// let line = Line::parse(b"2*(v1 + 3) <= v2 @ 1000, 2").unwrap();
/// assert_eq!((line.constant, line.strength, line.group), (6.0, 1000.0, 2));
/// assert_eq!(&*line.to_line()?, "2*v1-v2+6<=0@1000,2");
/// assert_eq!(Line::parse(b"v1=0@1,0").unwrap_err(), (Refusal::LineGroupOutOfRange, 0));
/// # Ok::<(), Refusal>(())
/// ```
#[derive(Copy, Clone, Debug)]
pub struct Line {
    /// How the sum relates to zero.
    pub op: RelationalOperator,
    /// Of a line a whole number up to `strength::REQUIRED`, which it is where the line says none.
    pub strength: f64,
    /// From 1 to 65,535; 1 where the line says none.
    pub group: u16,
    /// What stands beside the terms.
    pub constant: f64,
    terms: [Term; TERMS],
    count: usize,
}

impl Line {
    pub(crate) fn of(handed: &Handed) -> Result<Line, (Refusal, usize)> {
        if let Some(refusal) = Refusal::of(handed.number()) {
            return Err((refusal, handed.offset()));
        }
        let mut terms = [Term::new(Variable::from_number(0), 0.0); TERMS];
        for (place, (&v, &k)) in terms.iter_mut().zip(handed.variables.iter().zip(&handed.coefficients)) {
            *place = Term::new(Variable::from_number(v), k);
        }
        let op = RelationalOperator::of_kind(handed.kind());
        let (strength, group, constant) = (handed.strength(), handed.group(), handed.constant());
        Ok(Line { op, strength, group, constant, terms, count: handed.count() })
    }

    /// What a line of at most 4,096 bytes reads as, without a newline; or why it is refused, with the first byte with which no line can
    /// go on beside `Refusal::LineNotInGrammar`, else 0.
    pub fn parse(line: &[u8]) -> Result<Line, (Refusal, usize)> {
        Line::of(&archive::read_line(line))
    }

    /// The terms, at most 16.
    pub fn terms(&self) -> &[Term] {
        &self.terms[..self.count]
    }

    /// The constraint of this number that the tables hold.
    pub(crate) fn shown(tables: &Tables, number: u32) -> Result<Line, Refusal> {
        Line::of(&archive::show(tables, number)).map_err(|(refusal, _)| refusal)
    }

    /// The plain line of this constraint. What no line can say is `Refusal::LineCannotSay`: also terms that were added in another order
    /// than by ascending variable, or a variable twice.
    pub fn to_line(&self) -> Result<PlainLine, Refusal> {
        to_line(self.terms(), self.constant, self.op, self.strength, self.group)
    }
}

/// The one plain line of a constraint: the terms plus the constant are `op` zero, at this strength and in this group. What is read of it is
/// the constraint as numbers, equal constraints have equal lines, and a plain line that was read is written again as it was. Terms that do
/// not ascend by variable, and all that no line can say, are `Refusal::LineCannotSay`; a line of more than 200 bytes is
/// `Refusal::CableLineTooLong`.
///
/// ```
/// use knobharbor::strength::{REQUIRED, WEAK};
/// use knobharbor::{to_line, Refusal, RelationalOperator::*, Variable};
///
/// const X: Variable = Variable::from_number(7);
/// assert_eq!(&*to_line(&[X * -1.0], 0.0, GreaterOrEqual, REQUIRED, 1)?, "-v7>=0");
/// assert_eq!(&*to_line(&[], -5.0, LessOrEqual, WEAK, 2)?, "-5<=0@1,2");
/// assert_eq!(to_line(&[X * 0.5], 0.0, Equal, REQUIRED, 1), Err(Refusal::LineCannotSay));
/// # Ok::<(), Refusal>(())
/// ```
pub fn to_line(terms: &[Term], constant: f64, op: RelationalOperator, strength: f64, group: u16) -> Result<PlainLine, Refusal> {
    let mut plain = PlainLine { bytes: [0; LINE], length: 0 };
    let number = archive::write_line(&mut plain.bytes, terms, constant, op, strength, group);
    plain.length = plain.bytes.iter().position(|&b| b == 0).unwrap_or(LINE);
    Refusal::of(number).map_or(Ok(plain), Err)
}

/// A line of at most 200 bytes in plain form, without a newline. It derefs to a `str`.
#[derive(Copy, Clone, PartialEq, Eq, Hash)]
pub struct PlainLine {
    bytes: [u8; LINE],
    length: usize,
}

impl Deref for PlainLine {
    type Target = str;

    fn deref(&self) -> &str {
        // digits, `v`, marks and the ending's: all ASCII
        core::str::from_utf8(&self.bytes[..self.length]).unwrap_or_default()
    }
}

impl fmt::Display for PlainLine {
    fn fmt(&self, f: &mut fmt::Formatter) -> fmt::Result {
        f.write_str(self)
    }
}

impl fmt::Debug for PlainLine {
    fn fmt(&self, f: &mut fmt::Formatter) -> fmt::Result {
        fmt::Debug::fmt(&**self, f)
    }
}
