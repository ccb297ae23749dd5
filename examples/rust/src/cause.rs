//! What the number of a refusal means.

use crate::Refusal;
use std::fmt;

/// The paper's causes of refusal; a later library may have others.
#[derive(Clone, Copy, Debug, PartialEq, Eq)]
pub enum Cause {
    Length,
    Directory,
    Object,
    Variable,
    Statement,
    Block,
    Bounds,
    Access,
    Memory,
    Values,
    Entry,
    Rows,
    Overlap,
    Turns,
    Terminator,
    Fact,
    Edit,
    Callee,
    Arguments,
    Other(u32),
}

/// Each cause with its number and what it means, in a line.
const CAUSES: [(Cause, u32, &str); 19] = [
    (Cause::Length, 1, "the table has too few or too many words"),
    (Cause::Directory, 2, "its sections do not fit, or hold too many or too few records"),
    (Cause::Object, 3, "an object's length is not 1 to 1,000,000 cells"),
    (Cause::Variable, 4, "a variable's record or a bounds row is wrong"),
    (Cause::Statement, 5, "a statement's record is wrong"),
    (Cause::Block, 6, "a block does not fit, is too deep, or is no bundle"),
    (Cause::Bounds, 8, "declared bounds are not shown"),
    (Cause::Access, 9, "an access in a bundle before the bounds are right"),
    (Cause::Memory, 10, "the memory or its directory does not fit"),
    (Cause::Values, 11, "not one value and one origin for each variable"),
    (Cause::Entry, 12, "an origin is wrong, or bounds are untrue at entry"),
    (Cause::Rows, 13, "bounds that depend on the way"),
    (Cause::Overlap, 14, "an object has a cell in common with an earlier routine's"),
    (Cause::Turns, 15, "not 1 to 8 routines, or turns of other than 1 to 1,000 steps"),
    (Cause::Terminator, 16, "the last cell of a terminated object is not 0"),
    (Cause::Fact, 17, "a loop fact that is not shown or does not fit"),
    (Cause::Edit, 18, "an edit that has no such place, or no room"),
    (Cause::Callee, 19, "a call of a routine that is not before its caller"),
    (Cause::Arguments, 20, "the arguments of a call do not fit the routine it calls"),
];

impl From<u32> for Cause {
    fn from(number: u32) -> Cause {
        let known = CAUSES.iter().find(|(_, known, _)| *known == number);
        known.map_or(Cause::Other(number), |(cause, ..)| *cause)
    }
}

impl Cause {
    pub fn number(self) -> u32 {
        match self {
            Cause::Other(number) => number,
            _ => CAUSES.iter().find(|(cause, ..)| *cause == self).map_or(0, |(_, number, _)| *number),
        }
    }
}

impl fmt::Display for Cause {
    fn fmt(&self, f: &mut fmt::Formatter) -> fmt::Result {
        let known = CAUSES.iter().find(|(cause, ..)| cause == self);
        f.write_str(known.map_or("refused", |(.., text)| text))
    }
}

impl Refusal {
    pub fn cause(&self) -> Cause {
        self.number.into()
    }
}

#[cfg(test)]
mod tests {
    use super::*;

    #[test]
    fn numbers_go_there_and_back() {
        for number in 0..100 {
            assert_eq!(Cause::from(number).number(), number);
        }
        assert_eq!((Cause::from(8), Cause::from(7)), (Cause::Bounds, Cause::Other(7)));
        assert_eq!(Cause::Fact.to_string(), "a loop fact that is not shown or does not fit");
    }
}
