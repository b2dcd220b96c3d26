//! The proved library and the peer on the same cases.
pub mod answers;
pub mod shrink;
pub mod tally;
pub mod workloads;
