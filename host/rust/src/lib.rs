//! Drive scripts, checked and run by the proved library. The numbers and words are those of document 01.
mod bench;
mod library;
mod outcome;
mod refusal;
pub mod report;
mod store;
pub mod words;

pub use bench::{Bench, CELLS_MOST, TEXT_MOST, WORK};
pub use outcome::{Answer, Exception, Outcome};
pub use refusal::{Refusal, Row};
pub use store::{Store, StoreError};
