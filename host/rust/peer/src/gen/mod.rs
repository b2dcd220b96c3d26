//! Seeded texts, stores and budgets for comparing implementations of documents 01 and 02.
//! About half of the texts are accepted; the rest are near misses of all kinds.
//! At level 0 a seed gives the text that it always gave; a level adds forms and draws for them.

mod bodies;
mod ceilings;
mod copies;
mod damage;
mod exprs;
mod node;
mod params;
mod params_ceilings;
mod params_damage;
mod rng;
mod scene;
mod soup;
mod store;

pub use rng::Rng;
pub use store::{budget, store, Store};

use crate::answer::{Answer, Copies, Outcome, Refusal};
use crate::bytes::WORK;
use crate::faults::Fits;
use crate::judge::judge;
use crate::level::Level;
use bodies::{script, Size};

/// The sorts of text.
#[derive(Clone, Copy, Debug, PartialEq, Eq, Hash, PartialOrd, Ord)]
pub enum Sort {
    Good,
    Misfit,
    Damaged,
    Ceiling,
    Soup,
    Bytes,
    /// Procedures that call one another through their parameters.
    Calls,
}

/// A text of a random sort.
pub fn text(level: Level, seed: u64) -> Vec<u8> {
    sorted_text(level, seed).1
}

/// The same text with its sort.
pub fn sorted_text(level: Level, seed: u64) -> (Sort, Vec<u8>) {
    let mut rng = Rng::new(seed);
    let sorts = if level.has(Level::PARAMETERS) { 7 } else { 6 };
    match rng.weighted(&[40, 18, 26, 10, 4, 2, 20][..sorts]) {
        0 => (Sort::Good, good(level, &mut rng, 0)),
        1 => (Sort::Misfit, misfit(level, &mut rng)),
        2 => (Sort::Damaged, damaged(level, &mut rng)),
        3 => (Sort::Ceiling, ceiling(level, &mut rng)),
        4 => (Sort::Soup, soup::words(&mut rng)),
        5 => (Sort::Bytes, soup::bytes(&mut rng)),
        _ => (Sort::Calls, calls(level, &mut rng)),
    }
}

fn size(rng: &mut Rng, wild: usize) -> Size {
    let (types, variables, procedures, statements) = match rng.weighted(&[30, 50, 15, 5]) {
        0 => (4, 4, 2, 6),
        1 => (10, 10, 5, 25),
        2 => (24, 30, 10, 80),
        _ => (60, 120, 31, 300),
    };
    Size {
        types: rng.below(types),
        variables: 1 + rng.below(variables),
        procedures: rng.below(procedures),
        statements: 1 + rng.below(statements),
        wild,
        calls: false,
    }
}

fn good(level: Level, rng: &mut Rng, wild: usize) -> Vec<u8> {
    let size = size(rng, wild);
    written(level, rng, size)
}

/// A script of many calls, in whose bodies some kinds may not fit.
fn calls(level: Level, rng: &mut Rng) -> Vec<u8> {
    let size = Size {
        types: rng.below(9),
        variables: 1 + rng.below(8),
        procedures: 4 + rng.below(8),
        statements: 8 + rng.below(50),
        wild: *rng.pick(&[0, 0, 0, 0, 3, 10]),
        calls: true,
    };
    written(level, rng, size)
}

fn written(level: Level, rng: &mut Rng, size: Size) -> Vec<u8> {
    let scene = script(level, Rng::new(rng.draw()), size);
    let style = node::style(rng);
    node::write(&scene.lines, style, rng)
}

/// A script in whose bodies some kinds do not fit.
fn misfit(level: Level, rng: &mut Rng) -> Vec<u8> {
    let wild = *rng.pick(&[5, 15, 40, 100, 300]);
    good(level, rng, wild)
}

/// At a ceiling of document 01 or of a request that has landed.
fn ceiling(level: Level, rng: &mut Rng) -> Vec<u8> {
    match level.has(Level::PARAMETERS) && rng.percent(25) {
        true => params_ceilings::text(rng),
        false => ceilings::text(rng),
    }
}

fn damaged(level: Level, rng: &mut Rng) -> Vec<u8> {
    let size = size(rng, 0);
    let mut lines = script(level, Rng::new(rng.draw()), size).lines;
    let kind = rng.weighted(&[3, 2, 4, 5]);
    match kind {
        1 => damage::lines(&mut lines, rng),
        2 => damage::words(&mut lines, rng),
        3 if level.has(Level::PARAMETERS) && rng.percent(35) => {
            params_damage::forms(&mut lines, rng);
        }
        3 => damage::forms(&mut lines, rng),
        _ => {}
    }
    let style = node::style(rng);
    let mut text = node::write(&lines, style, rng);
    if kind == 0 {
        damage::bytes(&mut text, rng);
    }
    text
}

/// All that a run or a marking takes.
#[derive(Clone, Debug)]
pub struct Case {
    pub level: Level,
    pub sort: Sort,
    pub text: Vec<u8>,
    pub work_len: usize,
    pub values: Vec<i64>,
    pub marks: Vec<u8>,
    pub budget: u32,
}

/// Steps after which a trial run gives up.
const TRIAL: u32 = 50_000;

/// A text with a store and a budget. Both machines end within few steps at that budget.
pub fn case(level: Level, seed: u64) -> Case {
    let (sort, text) = sorted_text(level, seed);
    case_of(level, seed, sort, text)
}

/// The same, of a script in whose bodies some kinds do not fit: what the marking machine alone runs.
pub fn misfit_case(level: Level, seed: u64) -> Case {
    let text = misfit(level, &mut Rng::new(seed ^ 7_169_396));
    case_of(level, seed, Sort::Misfit, text)
}

/// The same, of a script of many calls.
pub fn call_case(level: Level, seed: u64) -> Case {
    let text = calls(level, &mut Rng::new(seed ^ 1_667_329_132));
    case_of(level, seed, Sort::Calls, text)
}

fn case_of(level: Level, seed: u64, sort: Sort, text: Vec<u8>) -> Case {
    let mut rng = Rng::new(seed ^ 6_513_500);
    let work_len = match rng.below(100) {
        0 => WORK - 1,
        1 => rng.below(WORK),
        2..=5 => WORK + rng.below(9),
        _ => WORK,
    };
    let (values, marks) = match judge(level, &text, WORK, Fits::LeftOut) {
        Ok(script) => store(seed, &script),
        Err(_) => (vec![0; rng.below(4)], vec![0; rng.below(4)]),
    };
    let mut case = Case { level, sort, text, work_len, values, marks, budget: TRIAL };
    let ends = match case.mark().0 {
        Ok(Answer { outcome: Outcome::Spent, .. }) => None,
        Ok(answer) => Some(answer.steps),
        Err(_) => Some(0),
    };
    case.budget = budget(seed, ends);
    case
}

impl Case {
    /// The chair's answer and the store that it leaves.
    pub fn run(&self) -> (Result<Answer, Refusal>, Store) {
        let (mut values, mut marks) = (self.values.clone(), self.marks.clone());
        let (text, work_len) = (&self.text, self.work_len);
        let answer = crate::run(self.level, text, work_len, &mut values, &mut marks, self.budget);
        (answer, (values, marks))
    }

    /// How deep the calls of its run nest; nothing if it doesn't run.
    pub fn deepest(&self) -> Option<usize> {
        let store = (self.values.as_slice(), self.marks.as_slice());
        crate::deepest(self.level, &self.text, self.work_len, store, self.budget)
    }

    /// The whole copies of its run; nothing if it doesn't run.
    pub fn copies(&self) -> Option<Copies> {
        let store = (self.values.as_slice(), self.marks.as_slice());
        crate::copies(self.level, &self.text, self.work_len, store, self.budget)
    }

    /// The marking machine's answer and the store that it leaves.
    pub fn mark(&self) -> (Result<Answer, Refusal>, Store) {
        let (mut values, mut marks) = (self.values.clone(), self.marks.clone());
        let (text, work_len) = (&self.text, self.work_len);
        let answer = crate::mark(self.level, text, work_len, &mut values, &mut marks, self.budget);
        (answer, (values, marks))
    }
}
