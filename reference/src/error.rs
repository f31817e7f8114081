//! Errors: the number of the rule that was broken, and where.

/// Why a call failed (the paper's "refusal"): the number in the paper's table, and the place.
#[derive(Clone, Copy, PartialEq, Eq, Debug)]
pub struct Error {
    pub number: u8,
    /// A byte offset in reading, and for 3 in writing; else a row's number in writing, else 0.
    pub place: usize,
    /// The number of the row for 3 in writing, else 0.
    pub row: usize,
}

/// An error of `join`: side 1 or 2 for reading that bundle, 0 for what comes of both.
#[derive(Clone, Copy, PartialEq, Eq, Debug)]
pub struct JoinError {
    pub side: u8,
    pub error: Error,
}

impl Error {
    /// An error with no row beside it.
    pub fn at(number: u8, place: usize) -> Error {
        Error {
            number,
            place,
            row: 0,
        }
    }

    /// The same error with the number of the row beside it.
    pub fn in_row(self, row: usize) -> Error {
        Error { row, ..self }
    }
}

/// Fails with this number and place if the condition holds.
///
/// With it the rules for one item stand below each other in the order of the paper.
pub fn fail_if(condition: bool, number: u8, place: usize) -> Result<(), Error> {
    if condition {
        Err(Error::at(number, place))
    } else {
        Ok(())
    }
}
