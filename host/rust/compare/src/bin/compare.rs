//! `compare FROM TO [misfits|calls]`: both on the cases of the seeds from FROM up to, not with, TO; with `misfits`, on scripts in whose bodies
//! some kinds do not fit; with `calls`, on scripts of procedures that call one another through their parameters. Exit status 1 if they differ
//! on any.
use compare::answers::{differ, of_library, of_peer};
use compare::shrink::shrunk;
use compare::tally::Tally;
use peer::gen::{call_case, case, misfit_case, Case};
use peer::{Level, LANDED};
use std::process::ExitCode;

/// Differences that are shown; the rest are only counted.
const SHOWN: u64 = 5;

fn main() -> ExitCode {
    let Some((from, to, made)) = read(&std::env::args().skip(1).collect::<Vec<_>>()) else {
        eprintln!("usage: compare FROM TO [misfits|calls]");
        return ExitCode::from(2);
    };
    let mut tally = Tally::default();
    let mut bad = 0;
    for seed in from..to {
        let case = made(LANDED, seed);
        let answers = of_library(&case);
        tally.add(&case, &answers);
        if answers != of_peer(&case) {
            bad += 1;
            if bad <= SHOWN {
                show(seed, &case);
            }
        }
    }
    print!("{tally}");
    println!("seeds {from} to {to}: {} compared, {bad} differ", tally.cases);
    ExitCode::from(u8::from(bad > 0))
}

/// What makes a case of a seed.
type Maker = fn(Level, u64) -> Case;

/// The seeds, and what makes a case of one.
fn read(words: &[String]) -> Option<(u64, u64, Maker)> {
    let made: Maker = match words.get(2).map(String::as_str) {
        None => case,
        Some("misfits") => misfit_case,
        Some("calls") => call_case,
        Some(_) => return None,
    };
    Some((words.first()?.parse().ok()?, words.get(1)?.parse().ok()?, made))
}

fn show(seed: u64, case: &Case) {
    let small = shrunk(case, differ);
    println!("seed {seed}, shrunk: work {}, budget {}, values {:?}, marks {:?}", small.work_len, small.budget, small.values, small.marks);
    println!("{}", String::from_utf8_lossy(&small.text));
    println!("library: {:?}\npeer:    {:?}", of_library(&small), of_peer(&small));
}
