//! Words for a person about a drive script: where a refusal or an exception arose, what was found there, what belongs there, and what to
//! do; values by their names; texts mended. The analysis is the explainer's own, from document 01, with the place of every word. It
//! decides nothing: a caller hands over the library's answer, and an explanation is given only where the explainer comes to the same one.
//!
//! No dependencies, no input and output; it compiles with Rust 1.63, for `drive` and for a page in a browser.

mod bytes;
mod cells;
mod fault;
mod judge;
mod kinds;
mod message;
mod near;
mod run;
mod shape;
pub mod span;
mod syntax;
mod told;
mod tree;
mod types;
pub mod word;
mod world;

/// How many requests of document 02 the explainer knows. A text with forms of later ones gets the general words, until they are added here.
pub const LEVEL: usize = 3;

pub use bytes::{tidy, Tidied, HUGE};
pub use cells::{by_names, Layout, StoreFault};
pub use judge::Fits;
pub use message::{ended, refusal, statements, store_refusal, Message};
pub use run::{Answer, Outcome};
pub use span::Span;
pub use told::{accepted, exception as exception_name, refusal as refusal_word};

/// Number and line of the refusal to which the explainer comes itself, for comparison; nothing where it refuses nothing.
pub fn own_verdict(text: &[u8], fits: Fits) -> Option<(u32, usize)> {
    judge::judge(text, fits).err().map(|own| (own.fault.number, own.line))
}

/// How its own machine ends, for comparison; nothing for a text that it refuses, or a store that does not fit in length.
pub fn own_answer(text: &[u8], store: (&[i64], &[u8]), budget: u32, fits: Fits) -> Option<Answer> {
    let script = judge::judge(text, fits).ok()?;
    Some(script).filter(|script| script.fits(store)).map(|script| run::run(&script, store, budget).0)
}
