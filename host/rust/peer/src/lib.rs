//! Document 01, and what has landed of document 02, a second time, in plain Rust, for comparison
//! with the proved programs. It was written from the papers and their rulings, without a look at
//! the proved code.

pub mod answer;
mod arith;
mod body;
pub mod bytes;
pub mod code;
pub mod faults;
mod frames;
pub mod gen;
pub mod judge;
mod level;
mod mark;
mod params;
pub mod print;
mod run;
pub mod scope;
mod shape;
mod store;
pub mod syntax;
mod tree;
pub mod types;
pub mod word;
pub mod world;

pub use answer::{Alive, Answer, Copies, Outcome, Refusal};
pub use judge::Script;
pub use level::{Level, LANDED};

use faults::Fits;

/// Rows 1 to 9.
pub fn verdict(level: Level, text: &[u8], work_len: usize) -> Result<Script, Refusal> {
    judge::judge(level, text, work_len, Fits::Judged)
}

/// The script's cell count.
pub fn cells(level: Level, text: &[u8], work_len: usize) -> Result<usize, Refusal> {
    verdict(level, text, work_len).map(|script| script.world.cells)
}

/// For each cell the name of its variable, in small letters.
pub fn owners(level: Level, text: &[u8], work_len: usize) -> Result<Vec<String>, Refusal> {
    verdict(level, text, work_len).map(|script| names(&script))
}

/// The same of a text that the marking machine takes.
pub fn mark_owners(level: Level, text: &[u8], work_len: usize) -> Result<Vec<String>, Refusal> {
    judge::judge(level, text, work_len, Fits::LeftOut).map(|script| names(&script))
}

fn names(script: &Script) -> Vec<String> {
    let world = &script.world;
    world.owners().into_iter().map(|owner| world.variables[owner].name.clone()).collect()
}

/// Rows 1 to 11, then the chair's runner. A refusal leaves the store as lent.
pub fn run(
    level: Level,
    text: &[u8],
    work_len: usize,
    values: &mut [i64],
    marks: &mut [u8],
    budget: u32,
) -> Result<Answer, Refusal> {
    let script = verdict(level, text, work_len)?;
    store::test(&script.world, values, marks)?;
    Ok(run::run(&script, values, marks, budget).0)
}

/// The marking machine. A text outside its domain gets the refusal that the rules give when the
/// fitting of kinds inside bodies is left out (R11).
pub fn mark(
    level: Level,
    text: &[u8],
    work_len: usize,
    values: &mut [i64],
    marks: &mut [u8],
    budget: u32,
) -> Result<Answer, Refusal> {
    let script = judge::judge(level, text, work_len, Fits::LeftOut)?;
    store::test(&script.world, values, marks)?;
    Ok(mark::mark(&script, values, marks, budget).0)
}

/// How deep the calls of an accepted script nest in its run; nothing if it doesn't run. The store is not changed.
pub fn deepest(
    level: Level,
    text: &[u8],
    work_len: usize,
    (values, marks): (&[i64], &[u8]),
    budget: u32,
) -> Option<usize> {
    let script = verdict(level, text, work_len).ok()?;
    store::test(&script.world, values, marks).ok()?;
    Some(mark::deepest(&script, &mut values.to_vec(), &mut marks.to_vec(), budget))
}

/// The whole copies of an accepted script's run; nothing if it doesn't run. The store is not changed.
pub fn copies(
    level: Level,
    text: &[u8],
    work_len: usize,
    (values, marks): (&[i64], &[u8]),
    budget: u32,
) -> Option<Copies> {
    let script = verdict(level, text, work_len).ok()?;
    store::test(&script.world, values, marks).ok()?;
    Some(run::copies(&script, &mut values.to_vec(), &mut marks.to_vec(), budget))
}

/// The parameter cells of both machines when an accepted script's run stops: 02 promises that the
/// machines agree on these too, at every depth of calls. The store is not changed.
pub fn alive(
    level: Level,
    text: &[u8],
    (values, marks): (&[i64], &[u8]),
    budget: u32,
) -> Result<(Alive, Alive), Refusal> {
    let script = verdict(level, text, bytes::WORK)?;
    store::test(&script.world, values, marks)?;
    let run = run::run(&script, &mut values.to_vec(), &mut marks.to_vec(), budget).1;
    Ok((run, mark::mark(&script, &mut values.to_vec(), &mut marks.to_vec(), budget).1))
}
