//! How many cases got which answer.
use crate::answers::{Answers, End, Ended, Refused};
use peer::gen::Case;
use std::collections::BTreeMap;
use std::fmt;

/// Calls that nest so deep are counted.
const DEEP: usize = 3;

#[derive(Default)]
pub struct Tally {
    pub cases: u64,
    bytes: u64,
    run_steps: u64,
    mark_steps: u64,
    counts: BTreeMap<String, u64>,
}

impl Tally {
    /// Counts a case.
    pub fn add(&mut self, case: &Case, answers: &Answers) {
        let Answers { verdict, run, mark } = answers;
        self.cases += 1;
        self.bytes += case.text.len() as u64;
        if case.deepest().is_some_and(|deepest| deepest >= DEEP) {
            *self.counts.entry(format!("calls {DEEP} deep or deeper")).or_default() += 1;
        }
        let copies = case.copies().unwrap_or_default();
        let sorts = [
            ("made", copies.made),
            ("to itself", copies.itself),
            ("stopped, undefined", copies.stopped),
            ("of them behind a defined cell", copies.inside),
        ];
        for (what, _) in sorts.into_iter().filter(|(_, count)| *count > 0) {
            *self.counts.entry(format!("copies {what}")).or_default() += 1;
        }
        self.run_steps += steps(&run.ended);
        self.mark_steps += steps(&mark.ended);
        let verdict = match verdict {
            Ok(()) => "accepted".to_string(),
            Err((number, _)) => format!("refused {number:2}"),
        };
        for key in [format!("verdict {verdict}"), format!("run {}", word(&run.ended)), format!("mark {}", word(&mark.ended))] {
            *self.counts.entry(key).or_default() += 1;
        }
    }
}

fn steps(ended: &Result<Ended, Refused>) -> u64 {
    ended.map_or(0, |ended| u64::from(ended.steps))
}

fn word(ended: &Result<Ended, Refused>) -> String {
    match ended {
        Err((number, _)) => format!("refused {number:2}"),
        Ok(ended) => match ended.outcome {
            End::Normal => "normal".to_string(),
            End::Exception(number @ -105..=-101, _) => format!("exception {number}"),
            End::Exception(..) => "exception of its own".to_string(),
            End::Spent => "spent".to_string(),
            End::Stuck => "stuck".to_string(),
        },
    }
}

impl fmt::Display for Tally {
    fn fmt(&self, f: &mut fmt::Formatter<'_>) -> fmt::Result {
        writeln!(f, "{} cases, {} bytes, {} steps run, {} steps marked", self.cases, self.bytes, self.run_steps, self.mark_steps)?;
        let share = |count: u64| count as f64 * 100.0 / self.cases as f64;
        self.counts.iter().try_for_each(|(what, &count)| writeln!(f, "{what:36} {count:9} {:6.2} %", share(count)))
    }
}
