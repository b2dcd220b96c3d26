//! `timing`: the time of both in one run, checks per byte, runs and markings per step. Least of five rounds, in which the two take turns.
//! Before each run the store is cleared, outside the time taken; the working list is all 0 from the call before, and that the library
//! clears it again is part of its time. The peer lends no working list and makes its own lists.
use compare::workloads::{enum_names, examples, first_name, full, generated, mixed_labels, passing, COPIES, LOOPS};
use drive::{Bench, Store, WORK};
use peer::{Level, LANDED};
use std::hint::black_box;
use std::time::Instant;

const ROUNDS: usize = 5;

/// A check of both: whether a text is accepted.
struct Check {
    library: fn(&mut Bench, &[u8]) -> bool,
    peer: fn(&[u8]) -> bool,
}

const VERDICT: Check = Check { library: |bench, text| bench.verdict(text).is_ok(), peer: |text| peer::verdict(LANDED, text, WORK).is_ok() };
const LOOSELY: Check =
    Check { library: |bench, text| bench.mark_owners(text).is_ok(), peer: |text| peer::mark_owners(LANDED, text, WORK).is_ok() };

/// A machine of both.
struct Machine {
    library: fn(&mut Bench, &[u8], &mut Store, u32) -> Result<drive::Answer, drive::Refusal>,
    peer: fn(Level, &[u8], usize, &mut [i64], &mut [u8], u32) -> Result<peer::Answer, peer::Refusal>,
}

const CHAIR: Machine = Machine { library: Bench::run, peer: peer::run };
const MARKING: Machine = Machine { library: Bench::mark, peer: peer::mark };

fn main() {
    head("verdict, ns per byte", "bytes");
    checks(&VERDICT);
    bytes("a text of 1,780 enum names, each used", &[enum_names(1780)], 1, &VERDICT);
    head("mark_owners, ns per byte", "bytes");
    checks(&LOOSELY);
    bytes("500 enum names, all labels of one case", &[mixed_labels(500)], 1, &LOOSELY);
    head("run, ns per step", "steps");
    for (what, text) in LOOPS {
        steps(what, text, 1_000_000, &CHAIR);
    }
    steps("copies, 68 cells a step", COPIES, 100_000, &CHAIR);
    steps("a loop that passes 4,000 nodes", &passing(), 10_000, &CHAIR);
    steps("a set of one of 2,000 names, 2,000 times", &first_name(2_000), 10_000, &CHAIR);
    head("mark, ns per step", "steps");
    for (what, text) in LOOPS {
        steps(what, text, 100_000, &MARKING);
    }
    steps("copies, 68 cells a step", COPIES, 10_000, &MARKING);
    steps("a loop that passes 4,000 nodes", &passing(), 1_000, &MARKING);
    steps("a set of one of 2,000 names, 2,000 times", &first_name(2_000), 50, &MARKING);
}

fn head(what: &str, unit: &str) {
    println!("{what:44} {unit:>9} {:>10} {:>10}", "library", "peer");
}

/// The time of some work in nanoseconds.
fn nanoseconds(work: impl FnOnce()) -> f64 {
    let start = Instant::now();
    work();
    start.elapsed().as_nanos() as f64
}

fn checks(check: &Check) {
    bytes("the eleven examples", &examples(), 100, check);
    bytes("300 generated texts, accepted", &generated(300, true), 1, check);
    bytes("300 generated texts, refused", &generated(300, false), 1, check);
    bytes("a text of 4,096 nodes", &[full()], 10, check);
    bytes("one of 2,000 enum names, used 2,000 times", &[first_name(2_000)], 1, check);
}

fn bytes(what: &str, texts: &[Vec<u8>], times: usize, check: &Check) {
    let mut bench = Bench::new();
    let bytes = texts.iter().map(Vec::len).sum::<usize>();
    let (mut library, mut peer) = (f64::MAX, f64::MAX);
    for _ in 0..ROUNDS {
        library = library.min(nanoseconds(|| each(texts, times, |text| (check.library)(&mut bench, text))));
        peer = peer.min(nanoseconds(|| each(texts, times, check.peer)));
    }
    let per = (bytes * times) as f64;
    println!("{what:44} {bytes:9} {:10.1} {:10.1}", library / per, peer / per);
}

fn each(texts: &[Vec<u8>], times: usize, mut verdict: impl FnMut(&[u8]) -> bool) {
    for _ in 0..times {
        for text in texts {
            black_box(verdict(black_box(text)));
        }
    }
}

/// A script that takes more than so many steps.
fn steps(what: &str, text: &[u8], budget: u32, machine: &Machine) {
    let mut bench = Bench::new();
    let cells = bench.cells(text).expect("a script that is accepted");
    let (mut library, mut peer) = (f64::MAX, f64::MAX);
    for _ in 0..ROUNDS {
        let mut store = Store::undefined(cells);
        let run = || assert_eq!((machine.library)(&mut bench, text, &mut store, budget).map(|a| a.steps), Ok(budget));
        library = library.min(nanoseconds(run));
        let mut other = Store::undefined(cells);
        let (values, marks) = (&mut other.values, &mut other.marks);
        let run = || assert_eq!((machine.peer)(LANDED, text, WORK, values, marks, budget).map(|a| a.steps), Ok(budget));
        peer = peer.min(nanoseconds(run));
        assert_eq!(store, other);
    }
    println!("{what:44} {budget:9} {:10.1} {:10.1}", library / f64::from(budget), peer / f64::from(budget));
}
