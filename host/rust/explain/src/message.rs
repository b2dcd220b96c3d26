//! What is said of an answer: a title, the line with carets, what belongs there, what to do.

use std::fmt;

use crate::cells::Layout;
use crate::fault::{count, Fault};
use crate::judge::{judge, Fits, Script};
use crate::run::{self, Answer, Detail, Outcome, Stopped, Why};
use crate::span::{clip, clip_within, line_of, Span};
use crate::syntax::{Act, Statement};
use crate::told;
use crate::world::Cell;

/// An explanation. A part that it does not have is empty.
#[derive(Clone, Debug, Default, PartialEq, Eq)]
pub struct Message {
    /// The number of a refusal or an exception, else 0.
    pub number: i64,
    /// The line, from 1; 0 where there is none.
    pub line: usize,
    pub span: Option<Span>,
    pub found: String,
    pub expected: String,
    pub hint: String,
    /// All of it as `drive` prints it.
    pub lines: Vec<String>,
}

impl fmt::Display for Message {
    fn fmt(&self, f: &mut fmt::Formatter<'_>) -> fmt::Result {
        self.lines.iter().try_for_each(|line| writeln!(f, "{line}"))
    }
}

/// A number of the script's own, whose cure goes for all that `raise` raises.
const OWN: i64 = 1;

/// Why the library refuses a text with a number of 1 to 9 at a line.
pub fn refusal(text: &[u8], number: u32, line: usize, fits: Fits) -> Message {
    let own = judge(text, fits).err().filter(|own| own.fault.number == number && own.line == line);
    let what = match line {
        0 => format!("Refusal {number} ({})", told::refusal(number)),
        _ => format!("Refusal {number} ({}), line {line}", told::refusal(number)),
    };
    match own {
        Some(own) => of_fault(text, &what, line, own.fault),
        None => unexplained(text, what, number, line),
    }
}

fn of_fault(text: &[u8], what: &str, line: usize, fault: Fault) -> Message {
    let mut lines = vec![format!("{what}: {}", fault.found)];
    let clipped = clip(text, fault.span);
    if line > 0 && !clipped[0].trim().is_empty() {
        lines.extend(clipped);
    }
    lines.extend(expectation(&fault.expected));
    lines.extend(Some(fault.hint.clone()).filter(|hint| !hint.is_empty()));
    let Fault { number, span, found, expected, hint, .. } = fault;
    Message { number: i64::from(number), line, span: Some(span).filter(|_| line > 0), found, expected, hint, lines }
}

fn expectation(expected: &str) -> Option<String> {
    Some(format!("Expected: {expected}.")).filter(|_| !expected.is_empty())
}

/// A refusal to whose number or line the explainer does not come itself: its general remedy.
fn unexplained(text: &[u8], what: String, number: u32, line: usize) -> Message {
    let hint = told::remedy(number).to_string();
    let mut lines = vec![format!("{what}.")];
    if let Some(there) = line.checked_sub(1).and_then(|before| crate::bytes::lines(text).get(before).copied()) {
        lines.push(clip(text, there.span)[0].clone());
    }
    lines.push(hint.clone());
    Message { number: i64::from(number), line, hint, lines, ..Message::default() }
}

/// Why the library refuses a store with 10 or 11.
pub fn store_refusal(text: &[u8], number: u32, store: (&[i64], &[u8]), fits: Fits) -> Message {
    let layout = Layout::of(text, fits);
    let cells = layout.as_ref().map_or(0, |layout| layout.owners().len());
    let own = match number {
        10 if cells != store.0.len() => {
            Some(format!("The script has {} and the store {}.", count(cells, "cell"), count(store.0.len(), "cell")))
        }
        11 => layout.and_then(|layout| layout.faulty(store.0, store.1)),
        _ => None,
    };
    let title = format!("Refusal {number} ({})", told::refusal(number));
    let found = own.unwrap_or_default();
    let first = if found.is_empty() { format!("{title}.") } else { format!("{title}: {found}") };
    let hint = told::remedy(number).to_string();
    Message { number: i64::from(number), lines: vec![first, hint.clone()], found, hint, ..Message::default() }
}

/// How a run of the library ended that began with a store and a budget.
pub fn ended(text: &[u8], store: (&[i64], &[u8]), budget: u32, answer: Answer, fits: Fits) -> Message {
    let script = judge(text, fits).ok();
    let repeated = script.as_ref().filter(|script| script.fits(store));
    let detail = repeated.and_then(|script| {
        let (own, detail) = run::run(script, store, budget);
        detail.filter(|_| own == answer)
    });
    let told = Told { text, script: script.as_ref(), answer };
    match (answer.outcome, detail) {
        (Outcome::Normal, _) => {
            let found = format!("The script ran to its end in {}.", count(answer.steps as usize, "step"));
            Message { lines: vec![found.clone()], found, ..Message::default() }
        }
        (Outcome::Raised { number, statement }, detail) => told.raised(number, statement, detail),
        (Outcome::Spent, detail) => told.spent(detail),
        (Outcome::Stuck, detail) => told.stuck(detail),
    }
}

/// What the words about an outcome depend on.
struct Told<'a> {
    text: &'a [u8],
    script: Option<&'a Script>,
    answer: Answer,
}

impl Told<'_> {
    fn raised(&self, number: i64, statement: u32, detail: Option<Detail>) -> Message {
        let name = told::exception(number).map_or("raised by the script".to_string(), |name| format!("({name})"));
        let what = format!("Exception {number} {name} at statement {statement}");
        let hint = told::cure(number).to_string();
        match (detail, self.span_of(statement)) {
            (Some(Detail::Raised(place, why)), _) => {
                let (found, expected) = self.why(why);
                let hint = if why == Why::Raised { told::cure(OWN).to_string() } else { hint };
                let known = place
                    .values
                    .iter()
                    .filter(|(_, _, value)| value.is_some() || !matches!(why, Why::Undefined(_) | Why::UndefinedPart(_)));
                let place = Stopped { values: known.copied().collect(), ..place };
                self.at_place(Message { number, found, expected, hint, ..Message::default() }, &what, &place)
            }
            (_, Some(span)) => {
                let place = Stopped { number: statement, statement: span, part: span, values: Vec::new() };
                self.at_place(Message { number, hint, ..Message::default() }, &what, &place)
            }
            _ => Message { number, lines: vec![format!("{what}."), hint.clone()], hint, ..Message::default() },
        }
    }

    fn spent(&self, detail: Option<Detail>) -> Message {
        let found = format!("The script was not at its end after {} steps, which is all of its budget.", self.answer.steps);
        let hint = "Look for a loop that does not end, or allow more steps by --budget.".to_string();
        let message = Message { found, hint, ..Message::default() };
        match detail {
            Some(Detail::Due(place, round)) => {
                let due = if round { "another round of statement" } else { "statement" };
                let first = message.found.clone();
                let next = Message { found: String::new(), ..message };
                let mut said = self.at_place(next, &format!("Due next was {due} {}", place.number), &place);
                said.lines.insert(0, first.clone());
                Message { found: first, ..said }
            }
            _ => Message { lines: vec![message.found.clone(), message.hint.clone()], ..message },
        }
    }

    fn stuck(&self, detail: Option<Detail>) -> Message {
        let what = format!("The marking machine stuck at step {}", self.answer.steps);
        match detail {
            Some(Detail::Stuck(place, fault)) => {
                let hint =
                    if fault.hint.is_empty() { "Until this is mended no chair may load the script.".to_string() } else { fault.hint };
                let what = format!("{what}, at statement {}", place.number);
                self.at_place(Message { found: fault.found, expected: fault.expected, hint, ..Message::default() }, &what, &place)
            }
            _ => {
                let found = format!("{what}: what it carried out met kinds that do not fit.");
                let hint = "Correct what `drive check` shows; until then no chair may load the script.".to_string();
                Message { lines: vec![found.clone(), hint.clone()], found, hint, ..Message::default() }
            }
        }
    }

    /// A message with its place and the values there.
    fn at_place(&self, message: Message, what: &str, place: &Stopped) -> Message {
        let line = line_of(self.text, place.part.start);
        let found = if message.found.is_empty() { String::new() } else { format!(" {}", message.found) };
        let mut lines = vec![format!("{what}, line {line}:{found}")];
        lines.extend(clip_within(self.text, place.statement, place.part));
        lines.extend(expectation(&message.expected));
        lines.extend(self.values(place));
        lines.push(message.hint.clone());
        Message { line, span: Some(place.part), lines, ..message }
    }

    /// The values that the statement uses.
    fn values(&self, place: &Stopped) -> Option<String> {
        let script = self.script?;
        let mut parts: Vec<String> = Vec::new();
        for (span, ty, value) in &place.values {
            let name = span.shown(self.text).to_ascii_lowercase();
            let value = value.map_or("undefined".to_string(), |value| script.world.types.shown(*ty, value));
            let part = format!("`{name}` is {value}");
            if !parts.contains(&part) {
                parts.push(part);
            }
        }
        Some(format!("There {}.", parts.join(", "))).filter(|_| !parts.is_empty())
    }

    /// What was found, and what belongs there.
    fn why(&self, why: Why) -> (String, String) {
        const INTEGERS: &str = "an integer, which is -2147483648 to 2147483647";
        let types = self.script.map(|script| &script.world.types);
        let shown = |ty, value: i64| types.map_or_else(|| value.to_string(), |types| types.shown(ty, value));
        let extent = |ty| types.map_or_else(String::new, |types| types.extent(ty));
        let (found, expected) = match why {
            Why::Past(Some(value)) => (format!("The result is {value}."), INTEGERS.to_string()),
            Why::Past(None) => ("The power is past the integers.".to_string(), INTEGERS.to_string()),
            Why::Divisor("mod", value) => (format!("`mod` has {value} on its right."), "a number above 0 there".to_string()),
            Why::Divisor(word, value) => (format!("`{word}` has {value} on its right."), "a number other than 0 there".to_string()),
            Why::Exponent(base, exponent) => {
                (format!("{base} to the power {exponent} has no whole value."), "an exponent of 0 or more, and above 0 for 0".to_string())
            }
            Why::Outside(what, value, ty) => (format!("The {what} is {}.", shown(ty, value)), format!("a value of {}", extent(ty))),
            Why::Edge(word, value, ty) => (format!("`{word}` goes past {}.", shown(ty, value)), format!("a value of {}", extent(ty))),
            Why::EmptySet(word) => (format!("`{word}` has an empty set after it."), "a set with a member".to_string()),
            Why::Undefined(cell) => (format!("`{}` has no value yet.", self.path(cell)), String::new()),
            Why::UndefinedPart(cell) => {
                (format!("`{}` has no value yet.", self.path(cell)), "a value in every part, before anything is copied".to_string())
            }
            Why::NoLabel(value, ty) => (format!("No arm has the label {}, and there is no `else`.", shown(ty, value)), String::new()),
            Why::Raised => ("Its `raise` is here.".to_string(), String::new()),
            Why::NothingBefore => ("`(raise 0)` passes on the last exception, and there was none.".to_string(), String::new()),
        };
        (found, expected)
    }

    fn path(&self, cell: Cell) -> String {
        let layout = self.script.map(Layout::of_script);
        match (cell, layout) {
            (Cell::Store(which), Some(layout)) => layout.path(which).unwrap_or_default().to_string(),
            _ => "this".to_string(),
        }
    }

    /// Where a statement is.
    fn span_of(&self, number: u32) -> Option<Span> {
        let list = self.script.map(statements_of)?;
        list.iter().find(|(found, _)| *found == number).map(|(_, span)| *span)
    }
}

/// The statements of a text with their numbers, in the order of the text; none of a text that the explainer refuses.
pub fn statements(text: &[u8], fits: Fits) -> Vec<(u32, Span)> {
    judge(text, fits).map_or(Vec::new(), |script| statements_of(&script))
}

fn statements_of(script: &Script) -> Vec<(u32, Span)> {
    let mut list = Vec::new();
    for body in script.procedures.iter().chain([&script.main]) {
        let handler = body.handler.as_deref().unwrap_or_default();
        body.statements.iter().chain(handler).for_each(|statement| listed(statement, &mut list));
    }
    list
}

/// Adds a statement and those inside it.
fn listed(statement: &Statement, list: &mut Vec<(u32, Span)>) {
    list.push((statement.number, statement.span));
    match &statement.act {
        Act::Begin(inner) => inner.iter().for_each(|inner| listed(inner, list)),
        Act::If(_, yes, no) => [Some(yes), no.as_ref()].iter().flatten().for_each(|inner| listed(inner, list)),
        Act::While(_, inner) | Act::For(_, _, _, inner) => listed(inner, list),
        Act::Case(_, arms, otherwise) => {
            arms.iter().for_each(|arm| listed(&arm.statement, list));
            otherwise.iter().for_each(|inner| listed(inner, list));
        }
        Act::Assign(..) | Act::Call(..) | Act::Raise(_) => {}
    }
}

#[cfg(test)]
mod tests {
    use super::*;

    /// An answer to which the explainer does not come itself gets the general words.
    #[test]
    fn other_answers_are_not_explained() {
        let text = b"(var a integer)\n(main (:= a true))\n";
        let said = refusal(text, 7, 2, Fits::Judged);
        assert_eq!(said.lines[..2], ["Refusal 7 (name), line 2.", "    (main (:= a true))"]);
        assert!(said.span.is_none() && said.found.is_empty() && said.hint.starts_with("Declare the name"));
        assert!(refusal(text, 8, 1, Fits::Judged).found.is_empty());
        assert!(!refusal(text, 8, 2, Fits::Judged).found.is_empty());
        assert_eq!(refusal(text, 1, 0, Fits::Judged).lines[0], "Refusal 1 (bench).");
        assert_eq!(refusal(b"", 9, 5, Fits::Judged).lines.len(), 2);
    }

    #[test]
    fn other_ends_are_not_explained() {
        let text = b"(var a integer)\n(main (:= a 1) (:= a (div a 0)))\n";
        let raised = |number, steps| Answer { outcome: Outcome::Raised { number, statement: 2 }, steps };
        let said = |answer| ended(text, (&[0], &[0]), 100, answer, Fits::Judged).lines;
        assert!(said(raised(-101, 2))[0].ends_with("line 2: `div` has 0 on its right."));
        assert_eq!(said(raised(-101, 3))[..2], ["Exception -101 (Numeric_Error) at statement 2, line 2:", "    ..(:= a (div a 0)).."]);
        assert_eq!(said(raised(-104, 2)).last().unwrap(), told::cure(-104));
        for outcome in [Outcome::Spent, Outcome::Stuck] {
            assert_eq!(said(Answer { outcome, steps: 7 }).len(), 2);
        }
        let short = ended(text, (&[0, 0], &[0]), 100, raised(-101, 2), Fits::Judged);
        assert!(short.found.is_empty() && short.span.is_some());
        // a form that the explainer does not know yet
        let later = ended(b"(main (later 5))\n", (&[], &[]), 100, raised(-101, 2), Fits::Judged);
        assert_eq!(later.lines, ["Exception -101 (Numeric_Error) at statement 2.", told::cure(-101)]);
    }

    #[test]
    fn statements_are_counted_over_the_text() {
        let text = b"(var i integer)\n(proc p (:= i 1) (if true (begin) (raise 1)) (exception (call_q)))\n(main)\n";
        assert_eq!(statements(text, Fits::Judged), []);
        let text = b"(var i integer)\n(proc p (if true (begin) (raise 1)) (exception (:= i 2)))\n(main (case 1 (arm 1 (call p)) (else (for i 1 2 (begin)))))\n";
        let list = statements(text, Fits::Judged);
        let words: Vec<&[u8]> = list.iter().map(|(_, span)| &text[span.start..span.start + 4]).collect();
        assert_eq!(words, [b"(if ", b"(beg", b"(rai", b"(:= ", b"(cas", b"(cal", b"(for", b"(beg"]);
        assert!(list.iter().map(|(number, _)| *number).eq(1..=8));
    }

    #[test]
    fn every_number_has_its_words() {
        for number in 1..=11 {
            assert!(told::remedy(number).ends_with('.') && !told::refusal(number).is_empty());
        }
        for number in [-101, -102, -103, -104, -105, 9] {
            assert!(told::cure(number).ends_with('.'));
            assert_eq!(told::exception(number).is_some(), number != 9);
        }
    }
}
