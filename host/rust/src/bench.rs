//! The calls: a working list, and texts checked and run with it.
use crate::library::{drive_cells, drive_mark, drive_mark_owners, drive_owners, drive_run, drive_verdict, Machine, Owners, Reply};
use crate::{Answer, Exception, Outcome, Refusal, Row, Store};

/// Numbers in a working list.
pub const WORK: usize = 16_384;
/// Bytes in the longest text.
pub const TEXT_MOST: usize = 32_768;
/// Cells in the largest script.
pub const CELLS_MOST: usize = 2_048;

/// A working list. It keeps nothing from one call to the next; a thread that checks or runs has its own.
pub struct Bench {
    work: Vec<u32>,
}

impl Default for Bench {
    fn default() -> Bench {
        Bench::new()
    }
}

impl Bench {
    /// A working list that is long enough.
    pub fn new() -> Bench {
        Bench::of_length(WORK)
    }

    /// A working list of any length; one shorter than `WORK` has every text refused.
    pub fn of_length(length: usize) -> Bench {
        Bench { work: vec![0; length] }
    }

    /// Whether a text may be loaded.
    pub fn verdict(&mut self, text: &[u8]) -> Result<(), Refusal> {
        // SAFETY: each pointer comes from a slice with its length, and only `work` is written.
        let reply = unsafe { drive_verdict(text.as_ptr(), text.len(), self.work.as_mut_ptr(), self.work.len()) };
        accepted(reply).map(|_| ())
    }

    /// How many cells a text has.
    pub fn cells(&mut self, text: &[u8]) -> Result<usize, Refusal> {
        // SAFETY: as in `verdict`.
        let reply = unsafe { drive_cells(text.as_ptr(), text.len(), self.work.as_mut_ptr(), self.work.len()) };
        accepted(reply).map(|reply| reply.cells)
    }

    /// The name of each cell's variable, in small letters.
    pub fn owners(&mut self, text: &[u8]) -> Result<Vec<String>, Refusal> {
        self.names_by(drive_owners, text)
    }

    /// The same of a text that the marking machine takes.
    pub fn mark_owners(&mut self, text: &[u8]) -> Result<Vec<String>, Refusal> {
        self.names_by(drive_mark_owners, text)
    }

    /// Runs a text on a store within a budget of steps; a refusal leaves the store as it was. For its stack see `docs/EMBEDDING.md`.
    pub fn run(&mut self, text: &[u8], store: &mut Store, budget: u32) -> Result<Answer, Refusal> {
        self.run_by(drive_run, text, store, budget)
    }

    /// The same by the marking machine, which runs a text also where kinds do not fit in a body, until it meets such a place. It takes
    /// far more stack and time.
    pub fn mark(&mut self, text: &[u8], store: &mut Store, budget: u32) -> Result<Answer, Refusal> {
        self.run_by(drive_mark, text, store, budget)
    }

    fn names_by(&mut self, owners: Owners, text: &[u8]) -> Result<Vec<String>, Refusal> {
        let mut names = vec![0; CELLS_MOST];
        // SAFETY: as in `verdict`; `names` is a slice of its own.
        let reply = unsafe { owners(text.as_ptr(), text.len(), self.work.as_mut_ptr(), self.work.len(), names.as_mut_ptr(), names.len()) };
        let cells = accepted(reply)?.cells;
        Ok(names[..cells].iter().map(|&offset| name_at(text, offset)).collect())
    }

    fn run_by(&mut self, machine: Machine, text: &[u8], store: &mut Store, budget: u32) -> Result<Answer, Refusal> {
        let Store { values, marks } = store;
        // SAFETY: as in `verdict`; `values` and `marks` are slices of their own.
        let reply = unsafe {
            machine(
                text.as_ptr(),
                text.len(),
                self.work.as_mut_ptr(),
                self.work.len(),
                values.as_mut_ptr(),
                values.len(),
                marks.as_mut_ptr(),
                marks.len(),
                budget,
            )
        };
        accepted(reply).map(answer)
    }
}

fn accepted(reply: Reply) -> Result<Reply, Refusal> {
    match reply.refusal {
        0 => Ok(reply),
        number => Err(Refusal { row: Row::of_number(number).expect("a refusal is 1 to 11"), line: reply.line }),
    }
}

fn answer(reply: Reply) -> Answer {
    let outcome = match reply.outcome {
        0 => Outcome::Normal,
        1 => Outcome::Raised { exception: Exception::of_number(reply.exception), statement: reply.statement },
        2 => Outcome::Spent,
        3 => Outcome::Stuck,
        other => unreachable!("outcome {other} of a run"),
    };
    Answer { outcome, steps: reply.steps }
}

/// The word that starts at an offset of a text.
fn name_at(text: &[u8], offset: usize) -> String {
    let word = text[offset..].iter().take_while(|&&b| !matches!(b, b' ' | b'\n' | b'(' | b')'));
    word.map(|b| b.to_ascii_lowercase() as char).collect()
}

#[cfg(test)]
mod tests {
    use super::*;

    const SLOTS: &[u8] =
        b"(type slot (range 1 4))\n(var At_Slot slot)\n(var sum integer)\n(main (:= at_slot 3) (:= sum (** 2 (+ at_slot 1))))\n";

    fn refused(row: Row, line: usize) -> Refusal {
        Refusal { row, line }
    }

    #[test]
    fn fitting_sheet() {
        let mut bench = Bench::new();
        assert_eq!(bench.verdict(SLOTS), Ok(()));
        assert_eq!(bench.cells(SLOTS), Ok(2));
        assert_eq!(bench.owners(SLOTS), Ok(vec!["at_slot".to_string(), "sum".to_string()]));
        let mut store = Store::undefined(2);
        assert_eq!(bench.run(SLOTS, &mut store, 10_000), Ok(Answer { outcome: Outcome::Normal, steps: 2 }));
        assert_eq!(store, Store { values: vec![3, 16], marks: vec![1, 1] });
    }

    #[test]
    fn marking_agrees_where_a_text_is_accepted() {
        let mut bench = Bench::new();
        assert_eq!(bench.mark_owners(SLOTS), bench.owners(SLOTS));
        for budget in [0, 1, 2, 10_000] {
            let (mut ran, mut marked) = (Store::undefined(2), Store::undefined(2));
            assert_eq!(bench.mark(SLOTS, &mut marked, budget), bench.run(SLOTS, &mut ran, budget));
            assert_eq!(marked, ran);
        }
    }

    #[test]
    fn parameters_are_no_cells() {
        let mut bench = Bench::new();
        let text = b"(var sum integer)\n(proc add ((left integer)) (:= sum (+ sum left)) (:= left 0))\n(proc twice ((left integer)) (call add left) (call add left))\n(main (:= sum 0) (call twice 21))\n";
        assert_eq!(bench.owners(text), Ok(vec!["sum".to_string()]));
        for budget in 0..12 {
            let (mut ran, mut marked) = (Store::undefined(1), Store::undefined(1));
            assert_eq!(bench.mark(text, &mut marked, budget), bench.run(text, &mut ran, budget));
            assert_eq!(marked, ran);
        }
        let mut store = Store::undefined(1);
        assert_eq!(bench.run(text, &mut store, 10_000), Ok(Answer { outcome: Outcome::Normal, steps: 8 }));
        assert_eq!(store.get(0), Some(42));
    }

    /// The guide's ramps as the chair runs them: one run a period, with stick and mode put into the store that the run before left.
    #[test]
    fn a_ramp_period_by_period() {
        let text = include_bytes!("../../../examples/ramps.txt");
        let mut bench = Bench::new();
        assert_eq!(bench.owners(text), Ok(["stick", "mode", "speed", "turn", "next"].map(String::from).to_vec()));
        let mut store = Store { values: vec![80, 0, 0, 0, 0], marks: vec![1, 1, 1, 1, 0] };
        for (mode, periods, speed, turn) in [(0, 5, 50, 0), (1, 3, 35, 0), (2, 7, 35, 20)] {
            store.values[1] = mode;
            for _ in 0..periods {
                assert_eq!(bench.run(text, &mut store, 100).map(|answer| answer.outcome), Ok(Outcome::Normal));
            }
            assert_eq!((store.get(2), store.get(3)), (Some(speed), Some(turn)));
        }
    }

    /// As the guide says of smooth-stop.
    #[test]
    fn a_smooth_stop_takes_twelve_periods() {
        let text = include_bytes!("../../../examples/smooth-stop.txt");
        let mut store = Store { values: vec![80, 0], marks: vec![1, 1] };
        for _ in 0..20 {
            assert_eq!(Bench::new().run(text, &mut store, 100).map(|answer| answer.outcome), Ok(Outcome::Normal));
        }
        assert_eq!((store.get(0), store.get(1)), (Some(0), Some(12)));
    }

    #[test]
    fn marking_sticks_where_kinds_do_not_fit() {
        let mut bench = Bench::new();
        let text = b"(var a integer)\n(proc p (:= a true))\n(main (:= a 1) (call p) (:= a 2) (exception (:= a 3)))\n";
        assert_eq!(bench.verdict(text), Err(refused(Row::Type, 2)));
        assert_eq!(bench.mark_owners(text), Ok(vec!["a".to_string()]));
        let mut store = Store::undefined(1);
        assert_eq!(bench.mark(text, &mut store, 10_000), Ok(Answer { outcome: Outcome::Stuck, steps: 3 }));
        assert_eq!(store.get(0), Some(1));
        assert_eq!(bench.mark(text, &mut store, 2), Ok(Answer { outcome: Outcome::Spent, steps: 2 }));
        for m in [&b"(main (raise (+ 1 true)))\n"[..], b"(main (if 1 (begin)))\n"] {
            let stuck = Answer { outcome: Outcome::Stuck, steps: 1 };
            assert_eq!(bench.mark(m, &mut Store::default(), 10_000), Ok(stuck));
        }
    }

    #[test]
    fn marking_passes_a_misfit_that_is_not_met() {
        let mut bench = Bench::new();
        let text = b"(main (if false (raise true)) (raise 7))\n";
        let raised = Outcome::Raised { exception: Exception::Own(7), statement: 3 };
        assert_eq!(bench.mark(text, &mut Store::default(), 10_000), Ok(Answer { outcome: raised, steps: 2 }));
    }

    #[test]
    fn spent_keeps_what_was_done() {
        let mut store = Store::undefined(2);
        assert_eq!(Bench::new().run(SLOTS, &mut store, 1), Ok(Answer { outcome: Outcome::Spent, steps: 1 }));
        assert_eq!((store.get(0), store.get(1)), (Some(3), None));
    }

    #[test]
    fn exceptions() {
        let mut bench = Bench::new();
        let cases: [(&[u8], i64, u32); 4] = [
            (b"(main (raise 0))\n", -102, 1),
            (b"(main (raise (- 7)))\n", -7, 1),
            (b"(main (begin) (raise (div 1 0)))\n", -101, 2),
            (b"(main (case 1 (arm 2 (begin))))\n", -105, 1),
        ];
        for (text, number, statement) in cases {
            let outcome = Outcome::Raised { exception: Exception::of_number(number), statement };
            assert_eq!(bench.run(text, &mut Store::default(), 10_000).map(|a| a.outcome), Ok(outcome));
        }
    }

    #[test]
    fn every_row_of_a_text() {
        let cases: [(&[u8], Row, usize); 8] = [
            (b"(main)\n\t", Row::Byte, 2),
            (b"(main", Row::Bracket, 1),
            (b"(main (raise 2147483648))\n", Row::Word, 1),
            (b"", Row::Form, 1),
            (b"(main (call p))\n", Row::Name, 1),
            (b"(main (raise (- #80000000)))\n", Row::Type, 1),
            (b"(type a (range 0 300))\n(type b (array a integer))\n(main)\n", Row::Limit, 2),
            (&[b' '; TEXT_MOST + 1], Row::Length, 0),
        ];
        let mut bench = Bench::new();
        for (text, row, line) in cases {
            assert_eq!(bench.verdict(text), Err(refused(row, line)));
            assert_eq!(bench.cells(text), Err(refused(row, line)));
            assert_eq!(bench.owners(text), Err(refused(row, line)));
            assert_eq!(bench.run(text, &mut Store::default(), 1), Err(refused(row, line)));
            assert_eq!(bench.mark_owners(text), Err(refused(row, line)));
            assert_eq!(bench.mark(text, &mut Store::default(), 1), Err(refused(row, line)));
        }
    }

    /// Each function of the header, on `SLOTS`.
    const CALLS: [fn(&mut Bench) -> Result<(), Refusal>; 6] = [
        |bench| bench.verdict(SLOTS),
        |bench| bench.cells(SLOTS).map(|_| ()),
        |bench| bench.owners(SLOTS).map(|_| ()),
        |bench| bench.run(SLOTS, &mut Store::undefined(2), 10).map(|_| ()),
        |bench| bench.mark_owners(SLOTS).map(|_| ()),
        |bench| bench.mark(SLOTS, &mut Store::undefined(2), 10).map(|_| ()),
    ];

    #[test]
    fn short_and_long_working_lists() {
        for length in [0, 1, WORK - 1] {
            let mut bench = Bench::of_length(length);
            for call in CALLS {
                bench.work.fill(7);
                assert_eq!(call(&mut bench), Err(refused(Row::Bench, 0)));
                assert!(bench.work.iter().all(|&n| n == 0));
            }
        }
        let mut bench = Bench::of_length(WORK + 2);
        for call in CALLS {
            bench.work.fill(7);
            assert_eq!(call(&mut bench), Ok(()));
            assert!(bench.work[..WORK].iter().all(|&n| n == 0));
            assert_eq!(bench.work[WORK..], [7, 7]);
        }
    }

    #[test]
    fn stores_that_do_not_fit() {
        let mut bench = Bench::new();
        let store = |values: &[i64], marks: &[u8]| Store { values: values.to_vec(), marks: marks.to_vec() };
        let cases = [
            (store(&[], &[]), Row::Store),
            (store(&[0], &[0]), Row::Store),
            (store(&[0, 0], &[0]), Row::Store),
            (store(&[0], &[0, 0]), Row::Store),
            (store(&[0; 3], &[0; 3]), Row::Store),
            (store(&[0, 0], &[2, 0]), Row::Cell),
            (store(&[1, 0], &[0, 0]), Row::Cell),
            (store(&[5, 0], &[1, 0]), Row::Cell),
            (store(&[1, 1 << 31], &[1, 1]), Row::Cell),
        ];
        for (lent, row) in cases {
            let mut left = lent.clone();
            assert_eq!(bench.run(SLOTS, &mut left, 10), Err(refused(row, 0)));
            assert_eq!(bench.mark(SLOTS, &mut left, 10), Err(refused(row, 0)));
            assert_eq!(left, lent);
        }
    }

    #[test]
    fn names_as_far_as_there_is_room() {
        let mut bench = Bench::new();
        let offsets = [SLOTS.windows(7).position(|w| w == b"At_Slot").unwrap(), SLOTS.windows(3).position(|w| w == b"sum").unwrap()];
        for room in 0..=3 {
            for call in [drive_owners, drive_mark_owners] {
                let mut names = [usize::MAX; 3];
                // SAFETY: `room` is at most the length of `names`.
                let reply =
                    unsafe { call(SLOTS.as_ptr(), SLOTS.len(), bench.work.as_mut_ptr(), bench.work.len(), names.as_mut_ptr(), room) };
                assert_eq!((reply.refusal, reply.cells), (0, 2));
                let named = room.min(2);
                assert_eq!(names[..named], offsets[..named]);
                assert!(names[named..].iter().all(|&n| n == usize::MAX));
            }
        }
    }

    #[test]
    fn refused_text_leaves_the_names() {
        let mut bench = Bench::new();
        let text = b"(var a integer)\n(main (:= a b))\n";
        for call in [drive_owners, drive_mark_owners] {
            let mut names = [usize::MAX; 2];
            // SAFETY: each list is lent with its own length.
            let reply =
                unsafe { call(text.as_ptr(), text.len(), bench.work.as_mut_ptr(), bench.work.len(), names.as_mut_ptr(), names.len()) };
            assert_eq!((reply.refusal, reply.line), (7, 2));
            assert_eq!(names, [usize::MAX; 2]);
        }
    }

    #[test]
    fn refused_text_leaves_the_store() {
        let lent = Store { values: vec![9, -9], marks: vec![7, 1] };
        let mut left = lent.clone();
        assert_eq!(Bench::of_length(WORK - 1).run(SLOTS, &mut left, 10), Err(refused(Row::Bench, 0)));
        assert_eq!(Bench::new().run(b"(main", &mut left, 10), Err(refused(Row::Bracket, 1)));
        assert_eq!(Bench::of_length(WORK - 1).mark(SLOTS, &mut left, 10), Err(refused(Row::Bench, 0)));
        assert_eq!(Bench::new().mark(b"(main", &mut left, 10), Err(refused(Row::Bracket, 1)));
        assert_eq!(left, lent);
    }
}
