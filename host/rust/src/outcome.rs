//! How a run ends.
use std::fmt;

/// An exception by its number.
#[derive(Clone, Copy, Debug, PartialEq, Eq, Hash)]
pub enum Exception {
    Numeric,
    System,
    Range,
    Undefined,
    Case,
    /// A number of the script's own, by `raise`.
    Own(i64),
}

impl Exception {
    /// The exception with this number.
    pub fn of_number(number: i64) -> Exception {
        match number {
            -101 => Exception::Numeric,
            -102 => Exception::System,
            -103 => Exception::Range,
            -104 => Exception::Undefined,
            -105 => Exception::Case,
            own => Exception::Own(own),
        }
    }

    /// The number of this exception.
    pub fn number(self) -> i64 {
        match self {
            Exception::Numeric => -101,
            Exception::System => -102,
            Exception::Range => -103,
            Exception::Undefined => -104,
            Exception::Case => -105,
            Exception::Own(number) => number,
        }
    }

    /// Document 01's name; the script's own exceptions have none.
    pub fn name(self) -> Option<&'static str> {
        explain::exception_name(self.number())
    }
}

/// How a run ended; statements count from 1 over the text.
#[derive(Clone, Copy, Debug, PartialEq, Eq, Hash)]
pub enum Outcome {
    Normal,
    Raised {
        exception: Exception,
        statement: u32,
    },
    Spent,
    /// Kinds that do not fit were met; only the marking machine answers this.
    Stuck,
}

/// The answer of a run.
#[derive(Clone, Copy, Debug, PartialEq, Eq, Hash)]
pub struct Answer {
    pub outcome: Outcome,
    pub steps: u32,
}

impl fmt::Display for Answer {
    fn fmt(&self, f: &mut fmt::Formatter<'_>) -> fmt::Result {
        match self.outcome {
            Outcome::Normal => write!(f, "normal {}", self.steps),
            Outcome::Raised { exception, statement } => write!(f, "exception {} {} {}", exception.number(), statement, self.steps),
            Outcome::Spent => write!(f, "spent {}", self.steps),
            Outcome::Stuck => write!(f, "stuck {}", self.steps),
        }
    }
}

#[cfg(test)]
mod tests {
    use super::*;

    #[test]
    fn numbers_and_names() {
        for number in [-105, -104, -103, -102, -101, -100, 1, 7, i64::from(i32::MIN)] {
            assert_eq!(Exception::of_number(number).number(), number);
        }
        assert_eq!(Exception::of_number(-101).name(), Some("Numeric_Error"));
        assert_eq!(Exception::of_number(-105).name(), Some("Case_Error"));
        assert_eq!(Exception::of_number(-106), Exception::Own(-106));
        assert_eq!(Exception::Own(7).name(), None);
    }
}
