//! The files that the command line names; `-` is standard input, or standard output.
use drive::Store;
use explain::{by_names, Layout, HUGE};
use std::fs::File;
use std::io::{stdin, Read};

/// A script. Of one that is far too long, the part that is read is enough for its refusal.
pub fn script(path: &str) -> Result<Vec<u8>, String> {
    let mut text = Vec::new();
    let most = HUGE as u64 + 1;
    let got = if path == "-" {
        stdin().lock().take(most).read_to_end(&mut text)
    } else {
        File::open(path).and_then(|file| file.take(most).read_to_end(&mut text))
    };
    got.map(|_| text).map_err(|error| format!("drive: cannot read {path}: {error}"))
}

/// A store, in either form; one by names needs the script's cells.
pub fn store(path: &str, layout: Option<&Layout>) -> Result<Store, String> {
    let got = if path == "-" { std::io::read_to_string(stdin()) } else { std::fs::read_to_string(path) };
    let text = got.map_err(|error| format!("drive: cannot read {path}: {error}"))?;
    // an editor's mark at the start is no part of the first line
    let text = text.trim_start_matches('\u{feff}');
    match layout.filter(|_| by_names(text)) {
        None => Store::parse(text).map_err(|error| format!("drive: {path}, {error}")),
        Some(layout) => match layout.read(text) {
            Ok((values, marks)) => Ok(Store { values, marks }),
            Err(fault) => Err(format!("drive: {path}, line {}: {} {}", fault.line, fault.found, fault.hint).trim_end().to_string()),
        },
    }
}

pub fn write(path: &str, content: &[u8]) -> Result<(), String> {
    std::fs::write(path, content).map_err(|error| format!("drive: cannot write {path}: {error}"))
}
