//! The explainer for the page `desk.html`, as wasm: so that it speaks in the words of `drive`. `tools/desk` compiles it, with Debian's rustc.
//!
//! A caller takes room for what it asks about, writes it there, and calls a function with the lengths. What is said is a JSON text: the function
//! returns its length, and `said` where it is. A page has one thread, and each call is over before the next.
use explain::{Answer, Fits, Layout, Message, Outcome};
use std::fmt::Write;

static mut ASKED: Vec<u8> = Vec::new();
static mut SAID: String = String::new();

/// Room for so many bytes: the text, and a store behind it.
#[no_mangle]
pub extern "C" fn room(size: usize) -> *mut u8 {
    unsafe {
        ASKED = vec![0; size];
        ASKED.as_mut_ptr()
    }
}

#[no_mangle]
pub extern "C" fn said() -> *const u8 {
    unsafe { SAID.as_ptr() }
}

fn say(what: String) -> usize {
    unsafe {
        SAID = what;
        SAID.len()
    }
}

/// What was asked: so many bytes of text, and what follows them.
fn asked(text: usize) -> (&'static [u8], &'static [u8]) {
    unsafe { ASKED.split_at(text.min(ASKED.len())) }
}

/// A store of so many cells: values of eight bytes, then marks of one.
fn store(bytes: &[u8], cells: usize) -> (Vec<i64>, Vec<u8>) {
    let (values, marks) = bytes.split_at((8 * cells).min(bytes.len()));
    let value = |eight: &[u8]| eight.try_into().map_or(0, i64::from_le_bytes);
    (values.chunks(8).map(value).collect(), marks.to_vec())
}

fn fits(marking: u32) -> Fits {
    match marking {
        0 => Fits::Judged,
        _ => Fits::LeftOut,
    }
}

// ---- JSON

fn quoted(text: &str) -> String {
    let mut out = String::from("\"");
    for sign in text.chars() {
        match sign {
            '"' | '\\' => out.extend(['\\', sign]),
            ' '..='~' => out.push(sign),
            _ => sign.encode_utf16(&mut [0; 2]).iter().for_each(|unit| write!(out, "\\u{unit:04x}").unwrap_or_default()),
        }
    }
    out + "\""
}

fn list<T>(items: impl IntoIterator<Item = T>, shown: impl Fn(T) -> String) -> String {
    format!("[{}]", items.into_iter().map(shown).collect::<Vec<_>>().join(","))
}

fn message(told: &Message) -> String {
    let span = told.span.map_or("null".to_string(), |span| format!("[{},{}]", span.start, span.end));
    format!("{{\"span\":{span},\"hint\":{},\"lines\":{}}}", quoted(&told.hint), list(&told.lines, |line| quoted(line)))
}

// ---- what a page asks

#[no_mangle]
pub extern "C" fn accepted(_text: usize, cells: usize) -> usize {
    say(quoted(&explain::accepted(cells)))
}

/// Why a text is refused by a number of 1 to 9.
#[no_mangle]
pub extern "C" fn refusal(text: usize, number: u32, line: usize, marking: u32) -> usize {
    say(message(&explain::refusal(asked(text).0, number, line, fits(marking))))
}

/// Why a store is refused by 10 or 11.
#[no_mangle]
pub extern "C" fn store_refusal(text: usize, cells: usize, number: u32, marking: u32) -> usize {
    let (text, rest) = asked(text);
    let (values, marks) = store(rest, cells);
    say(message(&explain::store_refusal(text, number, (&values, &marks), fits(marking))))
}

/// How a run ended that began with this store and budget; the outcome by its number in `drive.h`.
#[no_mangle]
pub extern "C" fn ended(
    text: usize,
    cells: usize,
    budget: u32,
    outcome: u32,
    exception: i32,
    statement: u32,
    steps: u32,
    marking: u32,
) -> usize {
    let (text, rest) = asked(text);
    let (values, marks) = store(rest, cells);
    let outcome = match outcome {
        0 => Outcome::Normal,
        1 => Outcome::Raised { number: i64::from(exception), statement },
        2 => Outcome::Spent,
        _ => Outcome::Stuck,
    };
    say(message(&explain::ended(text, (&values, &marks), budget, Answer { outcome, steps }, fits(marking))))
}

/// Each cell: its variable, how it is written, its bounds (none for a set), and the names of its values where they are no numbers.
#[no_mangle]
pub extern "C" fn cells(text: usize, marking: u32) -> usize {
    let layout = match Layout::of(asked(text).0, fits(marking)) {
        None => return say("null".to_string()),
        Some(layout) => layout,
    };
    let cell = |(cell, owner): (usize, &str)| {
        let bounds = layout.bounds(cell);
        let names = bounds.filter(|_| layout.is_named(cell)).map_or(0..=-1, |(low, high)| low..=high);
        let bounds = bounds.map_or("null".to_string(), |(low, high)| format!("[{low},{high}]"));
        let names = list(names, |value| quoted(&layout.shown(cell, value)));
        let path = quoted(layout.path(cell).unwrap_or_default());
        format!("{{\"owner\":{},\"path\":{path},\"bounds\":{bounds},\"names\":{names}}}", quoted(owner))
    };
    let all = list(layout.owners().into_iter().enumerate(), cell);
    say(all)
}

/// The values of a store by names, a line for each cell.
#[no_mangle]
pub extern "C" fn rows(text: usize, cells: usize, marking: u32) -> usize {
    let (text, rest) = asked(text);
    let (values, marks) = store(rest, cells);
    say(Layout::of(text, fits(marking)).map_or("null".to_string(), |layout| quoted(&layout.rows(&values, &marks))))
}

/// Reads such lines back: values and marks, or what is wrong at which line. Values are strings: the page's numbers have fewer bits.
#[no_mangle]
pub extern "C" fn read_store(text: usize, marking: u32) -> usize {
    let (text, file) = asked(text);
    let file = String::from_utf8_lossy(file);
    say(match Layout::of(text, fits(marking)).map(|layout| layout.read(&file)) {
        None => "null".to_string(),
        Some(Ok((values, marks))) => {
            format!("{{\"values\":{},\"marks\":{}}}", list(values, |v| format!("\"{v}\"")), list(marks, |m| m.to_string()))
        }
        Some(Err(fault)) => format!("{{\"line\":{},\"found\":{},\"hint\":{}}}", fault.line, quoted(&fault.found), quoted(&fault.hint)),
    })
}

/// Every statement: its number and its bytes.
#[no_mangle]
pub extern "C" fn statements(text: usize, marking: u32) -> usize {
    let all = explain::statements(asked(text).0, fits(marking));
    say(list(all, |(number, span)| format!("[{number},{},{}]", span.start, span.end)))
}

/// The mended text, what was changed, and what is left for the writer.
#[no_mangle]
pub extern "C" fn tidy(text: usize) -> usize {
    let tidied = explain::tidy(asked(text).0);
    let (changes, left) = (list(&tidied.changes, |c| quoted(c)), list(&tidied.left, |c| quoted(c)));
    say(format!("{{\"bytes\":{},\"changes\":{changes},\"left\":{left}}}", list(tidied.text, |b| b.to_string())))
}
