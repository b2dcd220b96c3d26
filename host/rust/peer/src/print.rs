//! What `runscript` prints.

use crate::answer::{Alive, Answer, Outcome, Refusal};
use crate::faults::Fits;
use crate::judge::{judge, Script};
use crate::level::Level;
use crate::{bytes, mark, names, run};

/// The budget of `runscript`.
pub const BUDGET: u32 = 10_000;

/// Line one: outcome and steps.
pub fn outcome(answer: &Answer) -> String {
    let steps = answer.steps;
    match answer.outcome {
        Outcome::Normal => format!("normal {steps}\n"),
        Outcome::Exception { number, statement } => {
            format!("exception {number} {statement} {steps}\n")
        }
        Outcome::Spent => format!("spent {steps}\n"),
        Outcome::Stuck => format!("stuck {steps}\n"),
    }
}

/// The only line for a refused script.
pub fn refused(refusal: &Refusal) -> String {
    format!("refused {} {}\n", refusal.number, refusal.line)
}

/// Each cell: its number, its variable in small letters, its value or `-`.
pub fn cells(owners: &[String], values: &[i64], marks: &[u8]) -> String {
    let mut text = String::new();
    for (cell, name) in owners.iter().enumerate() {
        let value = match marks[cell] {
            0 => "-".to_string(),
            _ => values[cell].to_string(),
        };
        text += &format!("{} {name} {value}\n", cell + 1);
    }
    text
}

type Machine = fn(&Script, &mut [i64], &mut [u8], u32) -> (Answer, Alive);

fn print(level: Level, text: &[u8], fits: Fits, machine: Machine, budget: u32) -> String {
    match judge(level, text, bytes::WORK, fits) {
        Err(refusal) => refused(&refusal),
        Ok(script) => {
            let mut values = vec![0; script.world.cells];
            let mut marks = vec![0; script.world.cells];
            let (answer, _) = machine(&script, &mut values, &mut marks, budget);
            outcome(&answer) + &cells(&names(&script), &values, &marks)
        }
    }
}

/// `runscript` at a budget: every cell undefined at the start.
pub fn runscript(level: Level, text: &[u8], budget: u32) -> String {
    print(level, text, Fits::Judged, run::run, budget)
}

/// The same for the marking machine.
pub fn markscript(level: Level, text: &[u8], budget: u32) -> String {
    print(level, text, Fits::LeftOut, mark::mark, budget)
}
