//! The level of the language: how many requests of document 02 have landed.

/// Document 01 with the first so many requests of document 02.
#[derive(Clone, Copy, Debug, PartialEq, Eq, PartialOrd, Ord, Hash)]
pub struct Level(u8);

/// The level of the library that the peer is compared with: the one setting that a landing moves.
pub const LANDED: Level = Level::COPIES;

impl Level {
    /// Document 01 alone.
    pub const BASE: Level = Level(0);
    /// Point 1: procedures take value parameters.
    pub const PARAMETERS: Level = Level(1);
    /// Point 2: a `for` that ends leaves its control variable undefined.
    pub const COUNTERS: Level = Level(2);
    /// Point 3: arrays and records are copied cell by cell, which changes no answer.
    pub const COPIES: Level = Level(3);

    /// All levels that the peer knows.
    pub const ALL: [Level; 4] = [Level::BASE, Level::PARAMETERS, Level::COUNTERS, Level::COPIES];

    /// Has the request that brought this level landed?
    pub fn has(self, request: Level) -> bool {
        self >= request
    }
}
