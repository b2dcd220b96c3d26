//! What the public functions answer.

/// A refusal: its number in the table of document 01, and its line (0 where no line is meant).
#[derive(Clone, Copy, Debug, PartialEq, Eq, Hash)]
pub struct Refusal {
    pub number: u32,
    pub line: u32,
}

/// How a run ended.
#[derive(Clone, Copy, Debug, PartialEq, Eq, Hash)]
pub enum Outcome {
    Normal,
    Exception {
        number: i64,
        statement: u32,
    },
    Spent,
    /// Only the marking machine answers this.
    Stuck,
}

/// The parameter cells of all procedures when a run stops. They are gone but for those of the calls
/// that a spent or stuck run leaves under way, and no public answer holds them: only tests ask.
pub type Alive = Vec<Option<i64>>;

/// An outcome beside the steps taken.
#[derive(Clone, Copy, Debug, PartialEq, Eq, Hash)]
pub struct Answer {
    pub outcome: Outcome,
    pub steps: u32,
}

/// The whole copies of a run, for those who generate cases: no answer tells them.
#[derive(Clone, Copy, Debug, Default, PartialEq, Eq)]
pub struct Copies {
    /// Those that were made, and of them those to the cells that were read.
    pub made: u64,
    pub itself: u64,
    /// Those that an undefined component stopped, and of them those behind a defined one.
    pub stopped: u64,
    pub inside: u64,
}
