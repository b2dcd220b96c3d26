//! What each of the two answers for a case, in one form, and where they differ.
use drive::{Bench, Outcome, Store};
use peer::gen::Case;

/// A refusal's number and line.
pub type Refused = (u32, usize);

/// All answers for a case.
#[derive(Clone, Debug, PartialEq, Eq)]
pub struct Answers {
    pub verdict: Result<(), Refused>,
    pub run: Played,
    pub mark: Played,
}

/// A machine's answers: the names of the cells, how the run ended, and the store that it left.
#[derive(Clone, Debug, PartialEq, Eq)]
pub struct Played {
    pub owners: Result<Vec<String>, Refused>,
    pub ended: Result<Ended, Refused>,
    pub store: Store,
}

/// The outcome and steps of a run.
#[derive(Clone, Copy, Debug, PartialEq, Eq)]
pub struct Ended {
    pub outcome: End,
    pub steps: u32,
}

#[derive(Clone, Copy, Debug, PartialEq, Eq)]
pub enum End {
    Normal,
    Exception(i64, u32),
    Spent,
    Stuck,
}

/// The library's answers.
pub fn of_library(case: &Case) -> Answers {
    let mut bench = Bench::of_length(case.work_len);
    let owners = bench.owners(&case.text);
    assert_eq!(bench.cells(&case.text), owners.as_ref().map(Vec::len).map_err(|r| *r), "cells and owners");
    let run = library_played(case, owners, |store| bench.run(&case.text, store, case.budget));
    let owners = bench.mark_owners(&case.text);
    let mark = library_played(case, owners, |store| bench.mark(&case.text, store, case.budget));
    Answers { verdict: bench.verdict(&case.text).map_err(told), run, mark }
}

fn told(refusal: drive::Refusal) -> Refused {
    (refusal.row.number(), refusal.line)
}

fn library_played(
    case: &Case,
    owners: Result<Vec<String>, drive::Refusal>,
    machine: impl FnOnce(&mut Store) -> Result<drive::Answer, drive::Refusal>,
) -> Played {
    let mut store = Store { values: case.values.clone(), marks: case.marks.clone() };
    let answer = machine(&mut store);
    let ended = answer.map(|answer| Ended {
        outcome: match answer.outcome {
            Outcome::Normal => End::Normal,
            Outcome::Raised { exception, statement } => End::Exception(exception.number(), statement),
            Outcome::Spent => End::Spent,
            Outcome::Stuck => End::Stuck,
        },
        steps: answer.steps,
    });
    Played { owners: owners.map_err(told), ended: ended.map_err(told), store }
}

/// The peer's answers.
pub fn of_peer(case: &Case) -> Answers {
    let (level, text, work_len) = (case.level, &case.text, case.work_len);
    Answers {
        verdict: peer::verdict(level, text, work_len).map(|_| ()).map_err(peer_told),
        run: peer_played(peer::owners(level, text, work_len), case.run()),
        mark: peer_played(peer::mark_owners(level, text, work_len), case.mark()),
    }
}

fn peer_told(refusal: peer::Refusal) -> Refused {
    (refusal.number, refusal.line as usize)
}

fn peer_played(
    owners: Result<Vec<String>, peer::Refusal>,
    (answer, (values, marks)): (Result<peer::Answer, peer::Refusal>, peer::gen::Store),
) -> Played {
    let ended = answer.map(|answer| Ended {
        outcome: match answer.outcome {
            peer::Outcome::Normal => End::Normal,
            peer::Outcome::Exception { number, statement } => End::Exception(number, statement),
            peer::Outcome::Spent => End::Spent,
            peer::Outcome::Stuck => End::Stuck,
        },
        steps: answer.steps,
    });
    Played { owners: owners.map_err(peer_told), ended: ended.map_err(peer_told), store: Store { values, marks } }
}

/// Whether the two differ on a case.
pub fn differ(case: &Case) -> bool {
    of_library(case) != of_peer(case)
}
