//! Tries every box of docs/GUIDE.md with the peer and the explainer, and compares the examples with
//! their files.

use std::path::Path;

use explain::{Fits, Layout};
use peer::bytes::WORK;
use peer::print::{self, markscript, runscript, BUDGET};
use peer::word::RESERVED;
use peer::LANDED;

const ROOT: &str = concat!(env!("CARGO_MANIFEST_DIR"), "/../../..");

/// The kinds of boxes. All but `sh` are tried.
const BOXES: [&str; 11] = [
    "script", "store", "output", "marked", "told", "told-mark", "tidied", "declare", "values",
    "judged", "sh",
];

/// What the guide says is stored before a box of values is tried.
const STORED: &str = "(:= now medium) (:= n 5) (:= place 4)";

/// What an answer starts with.
const ANSWERS: [&str; 4] = ["gives ", "raises ", "accepted", "refused "];

fn guide() -> String {
    std::fs::read_to_string(format!("{ROOT}/docs/GUIDE.md")).expect("the guide")
}

/// The boxes: the word after the fence, and the text.
fn boxes(guide: &str) -> Vec<(&str, &str)> {
    let fenced = guide.split("```").skip(1).step_by(2);
    fenced.map(|text| text.split_once('\n').expect("a box of lines")).collect()
}

/// The lines that all boxes of values and judged lines use.
fn declared(guide: &str) -> String {
    let list = boxes(guide).into_iter().filter(|(kind, _)| *kind == "declare");
    list.map(|(_, text)| text).collect()
}

/// A script with the boxes below it that say what it does.
#[derive(Debug)]
struct Shown<'a> {
    script: &'a str,
    /// What is in the store at the start, by names.
    store: &'a str,
    /// What is printed, each with the kind of its box.
    printed: Vec<(&'a str, &'a str)>,
}

/// All scripts of the guide.
fn scripts(guide: &str) -> Vec<Shown<'_>> {
    let mut list: Vec<Shown> = Vec::new();
    for (kind, text) in boxes(guide) {
        match (kind, list.last_mut()) {
            ("script", _) => list.push(Shown { script: text, store: "", printed: Vec::new() }),
            ("store", Some(shown)) => shown.store = text,
            ("output" | "marked" | "told" | "told-mark", Some(shown)) => {
                shown.printed.push((kind, text));
            }
            _ => {}
        }
    }
    list
}

/// What `drive` prints of a script, by the peer's answers and the explainer's words.
fn told(shown: &Shown, fits: Fits) -> String {
    let text = shown.script.as_bytes();
    let owners = match fits {
        Fits::Judged => peer::owners(LANDED, text, WORK),
        Fits::LeftOut => peer::mark_owners(LANDED, text, WORK),
    };
    if let Err(refusal) = owners {
        let words = explain::refusal(text, refusal.number, refusal.line as usize, fits);
        return format!("{}{words}", print::refused(&refusal));
    }
    let layout = Layout::of(text, fits).expect("the cells");
    let (values, marks) = layout.read(shown.store).expect("a store by names");
    let (mut after, mut left) = (values.clone(), marks.clone());
    let machine = if fits == Fits::Judged { peer::run } else { peer::mark };
    match machine(LANDED, text, WORK, &mut after, &mut left, BUDGET) {
        Err(refusal) => {
            let words = explain::store_refusal(text, refusal.number, (&values, &marks), fits);
            format!("{}{words}", print::refused(&refusal))
        }
        Ok(answer) => {
            let words = explain::ended(text, (&values, &marks), BUDGET, handed(answer), fits);
            format!("{}{words}{}", print::outcome(&answer), layout.rows(&after, &left))
        }
    }
}

fn handed(answer: peer::Answer) -> explain::Answer {
    let outcome = match answer.outcome {
        peer::Outcome::Normal => explain::Outcome::Normal,
        peer::Outcome::Exception { number, statement } => {
            explain::Outcome::Raised { number, statement }
        }
        peer::Outcome::Spent => explain::Outcome::Spent,
        peer::Outcome::Stuck => explain::Outcome::Stuck,
    };
    explain::Answer { outcome, steps: answer.steps }
}

/// The lines of the boxes of one kind: a form, two spaces or more, and the answer.
fn answers<'a>(guide: &'a str, kind: &str) -> Vec<(&'a str, &'a str)> {
    let lines = boxes(guide).into_iter().filter(|(found, _)| *found == kind);
    lines
        .flat_map(|(_, text)| text.lines())
        .map(|line| line.split_at(ANSWERS.iter().find_map(|word| line.find(word)).expect(line)))
        .map(|(form, answer)| (form.trim_end(), answer))
        .collect()
}

#[test]
fn kinds_of_boxes() {
    for (kind, _) in boxes(&guide()) {
        assert!(BOXES.contains(&kind), "{kind}");
    }
}

#[test]
fn scripts_print_what_is_shown() {
    let guide = guide();
    for shown in scripts(&guide) {
        assert!(!shown.printed.is_empty(), "{shown:?} is not tried");
        let text = shown.script.as_bytes();
        for (kind, output) in &shown.printed {
            let got = match *kind {
                "output" => runscript(LANDED, text, BUDGET),
                "marked" => markscript(LANDED, text, BUDGET),
                "told" => told(&shown, Fits::Judged),
                _ => told(&shown, Fits::LeftOut),
            };
            assert_eq!(got, *output, "{}", shown.script);
        }
    }
}

/// A text with all that `drive tidy` mends.
const UNTIDY: &str =
    "\u{feff}(var\ta integer)\r\n\r\n(main (:= a \u{201c}5\u{201d}) (:= a (\u{2013} 5)))";

#[test]
fn tidy_says_what_is_shown() {
    let guide = guide();
    let (_, shown) = boxes(&guide).into_iter().find(|(kind, _)| *kind == "tidied").expect("a box");
    let tidied = explain::tidy(UNTIDY.as_bytes());
    assert_eq!(tidied.changes.join("\n") + "\n", shown);
    assert!(peer::verdict(LANDED, &tidied.text, WORK).is_ok());
}

#[test]
fn values_are_as_told() {
    let guide = guide();
    let list = answers(&guide, "values");
    assert!(list.len() > 40);
    for (form, answer) in list {
        let (verb, value) = answer.split_once(' ').expect("a verb and a value");
        let value = match value.strip_prefix('-') {
            Some(size) => format!("(- {size})"),
            None => value.to_string(),
        };
        let other = if verb == "raises" { form } else { &value };
        let script = format!(
            "{}(var ok boolean)\n(main {STORED} (:= ok (= {form} {other})))\n",
            declared(&guide)
        );
        let report = runscript(LANDED, script.as_bytes(), BUDGET);
        match verb {
            "gives" => assert!(report.ends_with(" ok 1\n"), "{form}: {report}"),
            "raises" => {
                let number = answer.trim_start_matches("raises ");
                assert!(
                    report.starts_with(&format!("exception {number} 4 4\n")),
                    "{form}: {report}"
                );
            }
            _ => panic!("{answer}"),
        }
    }
}

#[test]
fn lines_are_judged_as_told() {
    let guide = guide();
    let before = declared(&guide);
    let line_number = before.lines().count() as u32 + 1;
    for (line, answer) in answers(&guide, "judged") {
        let end = if line.starts_with("(main") { "" } else { "(main)\n" };
        let verdict = peer::verdict(LANDED, format!("{before}{line}\n{end}").as_bytes(), WORK);
        let got = match verdict {
            Ok(_) => "accepted".to_string(),
            Err(refusal) => {
                assert_eq!(refusal.line, line_number, "{line}");
                format!("refused {}", refusal.number)
            }
        };
        assert_eq!(got, answer, "{line}");
    }
}

#[test]
fn examples_are_those_of_the_repository() {
    let guide = guide();
    let list = scripts(&guide);
    let read = |path: &Path| std::fs::read_to_string(path);
    let mut count = 0;
    for entry in std::fs::read_dir(format!("{ROOT}/examples")).expect("the examples") {
        let path = entry.expect("an entry").path();
        if path.extension().is_some_and(|end| end == "txt") {
            let script = read(&path).expect("a file");
            let store = read(&path.with_extension("store")).unwrap_or_default();
            let shown = list.iter().find(|shown| shown.script == script && shown.store == store);
            let shown = shown.unwrap_or_else(|| panic!("{path:?} is not shown"));
            let output = read(&path.with_extension("out")).expect("a file");
            assert!(shown.printed.contains(&("told", &output)), "{path:?}");
            count += 1;
        }
    }
    assert_eq!(count, 12);
}

#[test]
fn reserved_words_are_listed() {
    let guide = guide();
    let (_, list) = guide.split_once("## Reserved words").expect("the list");
    let listed: Vec<&str> = list.split('`').skip(1).step_by(2).collect();
    assert_eq!(listed, RESERVED);
}

/// A form inside a sentence is a pattern with capitals, or stands in a box too.
#[test]
fn forms_in_sentences_are_tried() {
    let guide = guide();
    let boxes: String = boxes(&guide).into_iter().map(|(_, text)| text).collect();
    let sentences: String = guide.split("```").step_by(2).collect();
    for form in sentences.split('`').skip(1).step_by(2).filter(|code| code.starts_with('(')) {
        let pattern = form.chars().any(|sign| sign.is_ascii_uppercase());
        assert!(pattern || boxes.contains(form), "{form}");
    }
}
