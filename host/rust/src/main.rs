//! `drive`: checks, runs, marks and tidies drive scripts.
mod arguments;
mod files;

use arguments::{Check, Command, Run};
use drive::words::{self, Machine};
use drive::{report, Bench, Refusal, Row, Store};
use std::io::Write;
use std::process::ExitCode;

/// What is printed, and whether the script was accepted, ran to its normal end, or is tidy.
struct Said {
    rows: String,
    good: bool,
}

fn main() -> ExitCode {
    let words: Vec<String> = std::env::args().skip(1).collect();
    match arguments::read(&words).and_then(|command| obey(&command)) {
        Ok(said) => finish(&said),
        Err(message) => {
            eprintln!("{message}");
            ExitCode::from(2)
        }
    }
}

fn finish(said: &Said) -> ExitCode {
    match std::io::stdout().write_all(said.rows.as_bytes()) {
        Ok(()) if said.good => ExitCode::SUCCESS,
        Ok(()) => ExitCode::from(1),
        Err(error) => {
            eprintln!("drive: cannot write: {error}");
            ExitCode::from(2)
        }
    }
}

fn obey(command: &Command) -> Result<Said, String> {
    match command {
        Command::Help => Ok(Said { rows: arguments::USAGE.to_string(), good: true }),
        Command::Check(check) => obey_check(check),
        Command::Run(run) => obey_run(run, Machine::Chair),
        Command::Mark(run) => obey_run(run, Machine::Marking),
        Command::Tidy(file) => obey_tidy(file),
    }
}

fn obey_check(check: &Check) -> Result<Said, String> {
    let text = files::script(&check.file)?;
    let cells = match Bench::new().cells(&text) {
        Err(refusal) => return Ok(refused(&text, &refusal, Machine::Chair, check.plain)),
        Ok(cells) => cells,
    };
    let words = if check.plain { String::new() } else { words::accepted(cells) };
    Ok(Said { rows: format!("accepted\n{words}"), good: true })
}

fn obey_run(run: &Run, machine: Machine) -> Result<Said, String> {
    let text = files::script(&run.file)?;
    let mut bench = Bench::new();
    let owners = match machine {
        Machine::Chair => bench.owners(&text),
        Machine::Marking => bench.mark_owners(&text),
    };
    let owners = match owners {
        Err(refusal) => return Ok(refused(&text, &refusal, machine, run.plain)),
        Ok(owners) => owners,
    };
    let layout = words::layout(&text, &owners, machine);
    let lent = match &run.store {
        Some(path) => files::store(path, layout.as_ref())?,
        None => Store::undefined(owners.len()),
    };
    let mut store = lent.clone();
    let answer = match machine {
        Machine::Chair => bench.run(&text, &mut store, run.budget),
        Machine::Marking => bench.mark(&text, &mut store, run.budget),
    };
    match answer {
        Err(refusal) => Ok(refused_store(&text, &refusal, &lent, machine, run.plain)),
        Ok(answer) => {
            let named = layout.filter(|_| !run.plain).map(|layout| layout.rows(&store.values, &store.marks));
            if let Some(path) = &run.save {
                files::write(path, named.clone().unwrap_or_else(|| store.to_string()).as_bytes())?;
            }
            let words = || words::answer(&text, &lent, run.budget, &answer, machine).to_string();
            let rows = match named {
                Some(named) => format!("{answer}\n{}{named}", words()),
                None => report::of_run(&answer, &owners, &store) + &if run.plain { String::new() } else { words() },
            };
            Ok(Said { rows, good: answer.outcome == drive::Outcome::Normal })
        }
    }
}

fn refused(text: &[u8], refusal: &Refusal, machine: Machine, plain: bool) -> Said {
    let words = if plain { String::new() } else { words::refusal(text, refusal, machine).to_string() };
    Said { rows: format!("{refusal}\n{words}"), good: false }
}

/// A refusal of the run: of the store, as the text was taken before.
fn refused_store(text: &[u8], refusal: &Refusal, store: &Store, machine: Machine, plain: bool) -> Said {
    match refusal.row {
        Row::Store | Row::Cell if !plain => {
            let words = words::store_refusal(text, refusal.row, store, machine);
            Said { rows: format!("{refusal}\n{words}"), good: false }
        }
        _ => refused(text, refusal, machine, plain),
    }
}

fn obey_tidy(file: &str) -> Result<Said, String> {
    let text = files::script(file)?;
    if text.len() > explain::HUGE {
        return Err(format!("drive: {file} has more than {} bytes: this is no script", explain::HUGE));
    }
    let tidied = explain::tidy(&text);
    let mut told: String = tidied.changes.iter().map(|change| format!("{change}\n")).collect();
    if tidied.changes.is_empty() {
        told += "nothing to mend\n";
    }
    tidied.left.iter().for_each(|left| told += &format!("{left}: this is left for you to mend\n"));
    let good = tidied.left.is_empty();
    if file == "-" {
        eprint!("{told}");
        std::io::stdout().write_all(&tidied.text).map_err(|error| format!("drive: cannot write: {error}"))?;
        return Ok(Said { rows: String::new(), good });
    }
    if tidied.text != text {
        files::write(file, &tidied.text)?;
    }
    Ok(Said { rows: told, good })
}
