//! What documents 01 and 02 say of both machines, on generated cases of each level.

use std::collections::HashSet;

use peer::bytes::WORK;
use peer::gen::{case, text, Case};
use peer::word::{OPERATORS, RESERVED};
use peer::{alive, verdict, Answer, Level, Outcome, LANDED};

const CASES: u64 = 4_000;

/// Budgets at which the parameter cells of both machines are compared.
const BUDGETS: u32 = 60;

/// On accepted scripts the two machines agree, and neither sticks.
fn machines_agree(case: &Case) {
    let run = case.run();
    let mark = case.mark();
    if verdict(case.level, &case.text, case.work_len).is_ok() {
        assert_eq!(run, mark);
    } else {
        assert!(run.0.is_err());
    }
    assert!(!matches!(run.0, Ok(Answer { outcome: Outcome::Stuck, .. })));
}

/// A refusal leaves the store as lent; after a run every cell is in range.
fn store_is_sound(case: &Case) {
    let (answer, (values, marks)) = case.run();
    match answer {
        Err(_) => assert_eq!((&values, &marks), (&case.values, &case.marks)),
        Ok(answer) => {
            assert!(answer.steps <= case.budget);
            let again = Case { values, marks, budget: 0, ..case.clone() };
            assert!(again.run().0.is_ok());
        }
    }
}

/// A run at a budget of its own steps is the same; at one less it is spent.
fn steps_are_exact(case: &Case) {
    let (answer, store) = case.run();
    let Ok(Answer { steps, outcome }) = answer else { return };
    if outcome == Outcome::Spent {
        assert_eq!(steps, case.budget);
        return;
    }
    assert_eq!(Case { budget: steps, ..case.clone() }.run(), (answer, store));
    if steps > 0 {
        let less = Case { budget: steps - 1, ..case.clone() }.run().0;
        assert_eq!(less, Ok(Answer { outcome: Outcome::Spent, steps: steps - 1 }));
    }
}

#[test]
fn generated_cases() {
    for level in Level::ALL {
        let mut accepted = 0;
        for seed in 0..CASES {
            let case = case(level, seed);
            machines_agree(&case);
            store_is_sound(&case);
            steps_are_exact(&case);
            accepted += u64::from(verdict(level, &case.text, WORK).is_ok());
        }
        assert!(accepted * 5 > CASES * 2, "only {accepted} of {CASES} texts are accepted");
    }
}

/// Both machines have the same parameter cells at every depth of calls, and none after the run.
#[test]
fn parameter_cells_agree() {
    let mut deepest = 0;
    for seed in 0..CASES {
        let case = case(LANDED, seed);
        for budget in 0..BUDGETS {
            let store = (case.values.as_slice(), case.marks.as_slice());
            let Ok((run, mark)) = alive(case.level, &case.text, store, budget) else { break };
            assert_eq!(run, mark, "seed {seed}, budget {budget}");
            deepest = deepest.max(run.iter().flatten().count());
            let (answer, _) = Case { budget, work_len: WORK, ..case.clone() }.run();
            if !matches!(answer, Ok(Answer { outcome: Outcome::Spent, .. })) {
                assert!(run.iter().all(Option::is_none), "seed {seed}: a parameter survives");
                break;
            }
        }
    }
    assert!(deepest > 20, "at most {deepest} parameters were alive at once");
}

#[test]
fn every_word_is_used() {
    let mut all = String::new();
    for seed in 0..300 {
        let text = text(LANDED, seed);
        if verdict(LANDED, &text, WORK).is_ok() {
            all += &String::from_utf8_lossy(&text).to_lowercase();
        }
    }
    let used: HashSet<&str> = all.split(['(', ')', ' ', '\n']).collect();
    for word in RESERVED.iter().chain(&OPERATORS) {
        assert!(used.contains(word), "{word} is in no accepted text");
    }
}
