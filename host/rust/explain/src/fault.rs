//! A fault of a text: the refusal that it brings, where it is, and the words about it.

use crate::span::Span;

#[derive(Clone, Debug, PartialEq, Eq)]
pub struct Fault {
    /// The refusal's number.
    pub number: u32,
    pub span: Span,
    /// What is there: a sentence.
    pub found: String,
    /// What belongs there; empty where `found` says it.
    pub expected: String,
    /// What to do; empty where `expected` says it.
    pub hint: String,
    /// Kinds that don't fit inside a body, which the marking machine passes over until it meets them.
    pub misfit: bool,
}

impl Fault {
    pub fn new(number: u32, span: Span, found: impl Into<String>) -> Fault {
        Fault { number, span, found: found.into(), expected: String::new(), hint: String::new(), misfit: false }
    }

    pub fn expected(mut self, expected: impl Into<String>) -> Fault {
        self.expected = expected.into();
        self
    }

    pub fn hint(mut self, hint: impl Into<String>) -> Fault {
        self.hint = hint.into();
        self
    }

    pub fn misfit(mut self) -> Fault {
        self.misfit = true;
        self
    }
}

/// A count with its word: `1 part`, `3 parts`.
pub fn count(number: usize, word: &str) -> String {
    format!("{number} {word}{}", if number == 1 { "" } else { "s" })
}
