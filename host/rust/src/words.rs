//! The library's answers in the explainer's words.
use crate::{Answer, Outcome, Refusal, Row, Store};
use explain::{Fits, Layout, Message};

/// Which machine's answers are explained.
#[derive(Clone, Copy, Debug, PartialEq, Eq)]
pub enum Machine {
    Chair,
    Marking,
}

impl Machine {
    fn fits(self) -> Fits {
        match self {
            Machine::Chair => Fits::Judged,
            Machine::Marking => Fits::LeftOut,
        }
    }
}

/// An accepted text.
pub fn accepted(cells: usize) -> String {
    explain::accepted(cells) + "\n"
}

/// A refused text.
pub fn refusal(text: &[u8], refusal: &Refusal, machine: Machine) -> Message {
    explain::refusal(text, refusal.row.number(), refusal.line, machine.fits())
}

/// A refused store.
pub fn store_refusal(text: &[u8], row: Row, store: &Store, machine: Machine) -> Message {
    explain::store_refusal(text, row.number(), (&store.values, &store.marks), machine.fits())
}

/// How a run ended that began with this store and budget.
pub fn answer(text: &[u8], store: &Store, budget: u32, answer: &Answer, machine: Machine) -> Message {
    let outcome = match answer.outcome {
        Outcome::Normal => explain::Outcome::Normal,
        Outcome::Raised { exception, statement } => explain::Outcome::Raised { number: exception.number(), statement },
        Outcome::Spent => explain::Outcome::Spent,
        Outcome::Stuck => explain::Outcome::Stuck,
    };
    let answer = explain::Answer { outcome, steps: answer.steps };
    explain::ended(text, (&store.values, &store.marks), budget, answer, machine.fits())
}

/// The cells by name, if the explainer finds those that the library has.
pub fn layout(text: &[u8], owners: &[String], machine: Machine) -> Option<Layout> {
    Layout::of(text, machine.fits()).filter(|layout| layout.owners() == owners)
}
