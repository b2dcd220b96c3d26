//! The explainer comes to the peer's answers by itself: on every text that is refused, and at the end of every run. Where it did not, a
//! person would read only a general remedy.

#[path = "common/json.rs"]
mod json;

use explain::{own_answer, own_verdict, Fits, Message};
use json::Json;
use peer::bytes::WORK;
use peer::gen::{call_case, case, misfit_case, Case, Rng, Sort};
use peer::print::BUDGET;
use peer::word::{OPERATORS, RESERVED};
use peer::{Answer, Level, Outcome, Refusal};

/// The level that the explainer knows; a landing may move the library's first.
const KNOWN: Level = Level::ALL[explain::LEVEL];

const CASES: u64 = 1_000;

fn told(answer: Answer) -> explain::Answer {
    let outcome = match answer.outcome {
        Outcome::Normal => explain::Outcome::Normal,
        Outcome::Exception { number, statement } => explain::Outcome::Raised { number, statement },
        Outcome::Spent => explain::Outcome::Spent,
        Outcome::Stuck => explain::Outcome::Stuck,
    };
    explain::Answer { outcome, steps: answer.steps }
}

fn refused(refusal: Refusal) -> (u32, usize) {
    (refusal.number, refusal.line as usize)
}

/// What is said has signs alone that a terminal prints.
fn plain(said: &Message) {
    let plain = |line: &String| line.bytes().all(|b| (b' '..=b'~').contains(&b));
    assert!(!said.lines.is_empty() && said.lines.iter().all(plain), "{said}");
}

/// The explainer refuses what the peer refuses, at the same line, and says why.
fn refusals_compared(text: &[u8], fits: Fits) {
    let verdict = match fits {
        Fits::Judged => peer::verdict(KNOWN, text, WORK).map(|_| ()),
        Fits::LeftOut => peer::mark_owners(KNOWN, text, WORK).map(|_| ()),
    };
    let verdict = verdict.err().map(refused);
    assert_eq!(own_verdict(text, fits), verdict, "{}", String::from_utf8_lossy(text));
    if let Some((number, line)) = verdict {
        let said = explain::refusal(text, number, line, fits);
        assert!(!said.found.is_empty() && said.number == i64::from(number), "{said}");
        plain(&said);
    }
}

/// Its machine ends as the peer's, and says where and why.
fn runs_compared(case: &Case, answer: Result<Answer, Refusal>, fits: Fits) {
    let (text, store) = (&case.text, (case.values.as_slice(), case.marks.as_slice()));
    match answer {
        Ok(answer) => {
            let own = own_answer(text, store, case.budget, fits);
            assert_eq!(own, Some(told(answer)), "{}", String::from_utf8_lossy(text));
            let said = explain::ended(text, store, case.budget, told(answer), fits);
            assert!(said.span.is_some() || answer.outcome == Outcome::Normal, "{said}");
            plain(&said);
        }
        Err(Refusal { number: number @ 10..=11, .. }) => {
            let said = explain::store_refusal(text, number, store, fits);
            assert!(!said.found.is_empty() || case.values.len() != case.marks.len(), "{said}");
            plain(&said);
        }
        Err(_) => {}
    }
}

#[test]
fn generated_cases_are_explained() {
    let makers: [fn(Level, u64) -> Case; 3] = [case, misfit_case, call_case];
    for seed in 0..CASES {
        for made in makers {
            let case = made(KNOWN, seed);
            refusals_compared(&case.text, Fits::Judged);
            refusals_compared(&case.text, Fits::LeftOut);
            runs_compared(&case, case.run().0, Fits::Judged);
            runs_compared(&case, case.mark().0, Fits::LeftOut);
        }
    }
}

/// Texts with any bytes among them.
#[test]
fn any_bytes_are_explained() {
    for seed in 0..CASES {
        let mut text = case(KNOWN, seed).text;
        let mut rng = Rng::new(seed);
        for _ in 0..rng.below(4) {
            let at = rng.below(text.len() + 1);
            text.insert(at, rng.below(256) as u8);
        }
        refusals_compared(&text, Fits::Judged);
        let tidied = explain::tidy(&text);
        assert_eq!(explain::tidy(&tidied.text).changes, Vec::<String>::new());
    }
}

const VECTORS: &str = concat!(env!("CARGO_MANIFEST_DIR"), "/../../../../shared/vectors");

/// The texts of the shared vectors, up to that level.
fn vectors() -> Vec<Vec<u8>> {
    let files = ["vectors.jsonl", "deep.jsonl", "level-01.jsonl"];
    let files = files.map(|file| std::fs::read_to_string(format!("{VECTORS}/{file}")));
    let lines = files.iter().flatten().flat_map(|file| file.lines());
    let text = |line| match json::object(line).get("text") {
        Some(Json::Text(text)) => Some(text.as_bytes().to_vec()),
        _ => None,
    };
    lines.filter_map(text).collect()
}

#[test]
fn vectors_are_explained() {
    for text in vectors() {
        refusals_compared(&text, Fits::Judged);
        refusals_compared(&text, Fits::LeftOut);
        let cells = peer::mark_owners(KNOWN, &text, WORK).map_or(0, |owners| owners.len());
        let (values, marks) = (vec![0; cells], vec![0; cells]);
        let (level, sort, work_len) = (KNOWN, Sort::Good, WORK);
        let case = Case { level, sort, text, work_len, values, marks, budget: BUDGET };
        runs_compared(&case, case.run().0, Fits::Judged);
        runs_compared(&case, case.mark().0, Fits::LeftOut);
    }
}

#[test]
fn one_table_of_words() {
    let mut own: Vec<&str> = explain::word::table().map(|(_, word)| word).collect();
    let mut peers: Vec<&str> = RESERVED.iter().chain(&OPERATORS).copied().collect();
    own.sort_unstable();
    peers.sort_unstable();
    assert_eq!(own, peers);
}
