//! Runs a `runscript` program on generated texts and compares what it prints with the peer:
//! `compare PROGRAM [COUNT] [FIRST SEED]`. Texts that disagree are written to the directory `disagree`.

use std::io::Write;
use std::process::{Command, Stdio};

use peer::print::{runscript, BUDGET};
use peer::LANDED;

/// What a program prints for a text on its standard input.
fn output(program: &str, text: &[u8]) -> std::io::Result<Vec<u8>> {
    let mut child = Command::new(program).stdin(Stdio::piped()).stdout(Stdio::piped()).spawn()?;
    // A program may stop reading a text that is too long.
    let mut input = child.stdin.take().expect("a pipe");
    let text = text.to_vec();
    let writer = std::thread::spawn(move || drop(input.write_all(&text)));
    let output = child.wait_with_output()?;
    drop(writer.join());
    Ok(output.stdout)
}

fn main() -> std::io::Result<()> {
    let mut words = std::env::args().skip(1);
    let program = words.next().expect("a program");
    let count: u64 = words.next().map_or(10_000, |word| word.parse().expect("a count"));
    let first: u64 = words.next().map_or(0, |word| word.parse().expect("a seed"));
    let mut faults = 0;
    for seed in first..first + count {
        let text = peer::gen::text(LANDED, seed);
        let (wanted, got) = (runscript(LANDED, &text, BUDGET), output(&program, &text)?);
        if got != wanted.as_bytes() {
            faults += 1;
            std::fs::create_dir_all("disagree")?;
            std::fs::write(format!("disagree/{seed}.txt"), &text)?;
            let line = |text: &str| text.lines().next().unwrap_or("").to_string();
            println!(
                "{seed}: peer {}, program {}",
                line(&wanted),
                line(&String::from_utf8_lossy(&got))
            );
        }
    }
    println!("{count} texts compared, {faults} disagree");
    Ok(())
}
