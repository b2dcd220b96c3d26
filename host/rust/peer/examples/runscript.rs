//! Reads a script from standard input and prints what `runscript` prints for it.

use std::io::{Read, Write};

fn main() -> std::io::Result<()> {
    let mut text = Vec::new();
    std::io::stdin().read_to_end(&mut text)?;
    let report = peer::print::runscript(peer::LANDED, &text, peer::print::BUDGET);
    std::io::stdout().write_all(report.as_bytes())
}
