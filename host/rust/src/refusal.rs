//! The refusal table.
use std::fmt;

/// A row of the refusal table.
#[derive(Clone, Copy, Debug, PartialEq, Eq, Hash, PartialOrd, Ord)]
pub enum Row {
    Bench = 1,
    Length,
    Byte,
    Bracket,
    Word,
    Form,
    Name,
    Type,
    Limit,
    Store,
    Cell,
}

impl Row {
    /// All rows, by number from 1.
    pub const ALL: [Row; 11] =
        [Row::Bench, Row::Length, Row::Byte, Row::Bracket, Row::Word, Row::Form, Row::Name, Row::Type, Row::Limit, Row::Store, Row::Cell];

    /// The row with this number.
    pub fn of_number(number: u32) -> Option<Row> {
        Row::ALL.into_iter().find(|row| row.number() == number)
    }

    /// The number in the table.
    pub fn number(self) -> u32 {
        self as u32
    }

    /// The word in the table.
    pub fn word(self) -> &'static str {
        explain::refusal_word(self.number())
    }
}

/// A refusal: its row, and the line, which is 0 where the row has none.
#[derive(Clone, Copy, Debug, PartialEq, Eq, Hash)]
pub struct Refusal {
    pub row: Row,
    pub line: usize,
}

impl fmt::Display for Refusal {
    fn fmt(&self, f: &mut fmt::Formatter<'_>) -> fmt::Result {
        write!(f, "refused {} {}", self.row.number(), self.line)
    }
}

impl std::error::Error for Refusal {}

#[cfg(test)]
mod tests {
    use super::*;

    #[test]
    fn numbers_and_words() {
        for (i, row) in Row::ALL.into_iter().enumerate() {
            assert_eq!(row.number() as usize, i + 1);
            assert_eq!(Row::of_number(row.number()), Some(row));
        }
        assert_eq!((Row::Type.number(), Row::Type.word()), (8, "type"));
        assert_eq!((Row::Cell.number(), Row::Cell.word()), (11, "cell"));
        assert_eq!(Row::of_number(0), None);
        assert_eq!(Row::of_number(12), None);
    }
}
