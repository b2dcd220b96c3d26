//! The command-line program on the example scripts, refusals, budgets, store files and usage errors, printing plainly.
mod common;

use common::{drive, file};
use std::fs;
use std::path::PathBuf;

/// The same, printed as `runscript` does.
fn plain(words: &[&str], input: &str) -> (i32, String, String) {
    drive(&[words, &["--plain"]].concat(), input)
}

const SLOTS: &str = "(type slot (range 1 4))\n(var at_slot slot)\n(var sum integer)\n(main (:= at_slot 3) (:= sum (** 2 (+ at_slot 1))))\n";

/// Each example does one period's work on the store beside it, by both machines.
#[test]
fn examples_print_as_shown() {
    let folder = PathBuf::from(env!("CARGO_MANIFEST_DIR")).join("../../examples");
    let mut seen = 0;
    for entry in fs::read_dir(&folder).unwrap() {
        let path = entry.unwrap().path();
        if path.extension().is_some_and(|e| e == "txt") {
            let script = path.to_str().unwrap();
            let want = fs::read_to_string(path.with_extension("out")).unwrap();
            let store = path.with_extension("store");
            let lent: &[&str] = if store.exists() { &["--store", store.to_str().unwrap()] } else { &[] };
            for command in ["run", "mark"] {
                let shown = drive(&[&[command, script], lent].concat(), "");
                assert_eq!(shown, (0, want.clone(), String::new()), "{script}");
            }
            assert_eq!(plain(&["check", script], ""), (0, "accepted\n".to_string(), String::new()));
            seen += 1;
        }
    }
    assert_eq!(seen, 12);
}

#[test]
fn standard_input_and_budgets() {
    let run = |budget: &str| plain(&["run", "-", "--budget", budget], SLOTS);
    assert_eq!(plain(&["run", "-"], SLOTS), (0, "normal 2\n1 at_slot 3\n2 sum 16\n".to_string(), String::new()));
    assert_eq!(run("4294967295").1, "normal 2\n1 at_slot 3\n2 sum 16\n");
    assert_eq!(run("1"), (1, "spent 1\n1 at_slot 3\n2 sum -\n".to_string(), String::new()));
    assert_eq!(run("0"), (1, "spent 0\n1 at_slot -\n2 sum -\n".to_string(), String::new()));
    assert_eq!(plain(&["run", "-", "--budget", "0"], "(main)\n").1, "normal 0\n");
}

#[test]
fn refusals() {
    let cases = [
        ("", "refused 6 1\n"),
        ("(main)", "refused 4 1\n"),
        ("(main)\n\t\n", "refused 3 2\n"),
        ("(type t (range 2 1))\n(main)\n", "refused 8 1\n"),
    ];
    for (text, want) in cases {
        for command in ["check", "run", "mark"] {
            assert_eq!(plain(&[command, "-"], text), (1, want.to_string(), String::new()), "{text:?}");
        }
    }
    let long = " ".repeat(40_000);
    assert_eq!(plain(&["check", "-"], &long).1, "refused 2 0\n");
    assert_eq!(plain(&["check", "-"], &long[..32_768]).1, "refused 4 1\n");
}

#[test]
fn kinds_that_do_not_fit() {
    let script = "(var a integer)\n(main (:= a 1) (if (= a 1) (raise true)) (exception (:= a 2)))\n";
    for command in ["check", "run"] {
        assert_eq!(plain(&[command, "-"], script), (1, "refused 8 2\n".to_string(), String::new()));
    }
    assert_eq!(plain(&["mark", "-"], script), (1, "stuck 3\n1 a 1\n".to_string(), String::new()));
    assert_eq!(plain(&["mark", "-", "--budget", "2"], script), (1, "spent 2\n1 a 1\n".to_string(), String::new()));
    let unmet = script.replace("(= a 1)", "(= a 0)");
    assert_eq!(plain(&["mark", "-"], &unmet), (0, "normal 2\n1 a 1\n".to_string(), String::new()));
}

#[test]
fn exceptions() {
    assert_eq!(
        plain(&["run", "-"], "(var a integer)\n(main (begin) (:= a (div 1 0)))\n"),
        (1, "exception -101 2 2\n1 a -\n".to_string(), String::new())
    );
    assert_eq!(plain(&["run", "-"], "(main (raise 42))\n").1, "exception 42 1 1\n");
}

#[test]
fn parameters() {
    let script = "(type slot (range 1 4))\n(var a integer)\n(proc set ((to slot)) (:= a to) (exception (:= a 0)))\n(main (call set 4) (call set 5))\n";
    assert_eq!(plain(&["check", "-"], script).1, "accepted\n");
    for command in ["run", "mark"] {
        assert_eq!(plain(&[command, "-"], script), (1, "exception -103 4 3\n1 a 4\n".to_string(), String::new()));
    }
    let counted = script.replace("(call set 5)", "(call set 3 2)");
    let misfit = script.replace("(call set 5)", "(call set true)");
    assert_eq!(plain(&["mark", "-"], &counted).1, "refused 8 4\n");
    assert_eq!(plain(&["run", "-"], &misfit).1, "refused 8 4\n");
    assert_eq!(plain(&["mark", "-"], &misfit).1, "stuck 3\n1 a 4\n");
}

#[test]
fn store_files() {
    let script = "(var a integer)\n(var b boolean)\n(main (:= a (+ a 1)))\n";
    let run = |name: &str, store: &str| plain(&["run", "-", "--store", &file(name, store)], script);
    assert_eq!(run("good", "41 1\n0 0\n"), (0, "normal 1\n1 a 42\n2 b -\n".to_string(), String::new()));
    assert_eq!(run("undefined", "0 0\n1 1\n"), (1, "exception -104 1 1\n1 a -\n2 b 1\n".to_string(), String::new()));
    assert_eq!(run("few", "41 1\n"), (1, "refused 10 0\n".to_string(), String::new()));
    assert_eq!(run("none", ""), (1, "refused 10 0\n".to_string(), String::new()));
    assert_eq!(run("range", "41 1\n2 1\n"), (1, "refused 11 0\n".to_string(), String::new()));
    assert_eq!(run("mark", "41 2\n0 0\n"), (1, "refused 11 0\n".to_string(), String::new()));
    let (status, out, err) = run("words", "41 1\nx 0\n");
    assert_eq!((status, out.as_str()), (2, ""));
    assert!(err.contains("line 2"), "{err}");
    let script_file = file("script", script);
    for command in ["run", "mark"] {
        assert_eq!(plain(&[command, &script_file, "--store", "-"], "1 1\n1 1\n").1, "normal 1\n1 a 2\n2 b 1\n");
    }
}

#[test]
fn usage() {
    for words in
        [&[][..], &["stop"], &["check"], &["run"], &["check", "a", "b"], &["run", "-", "--budget", "x"], &["check", "-", "--budget", "1"]]
    {
        let (status, out, err) = drive(words, "(main)\n");
        assert_eq!((status, out.as_str()), (2, ""), "{words:?}");
        assert!(err.contains("usage: drive check FILE"), "{err}");
    }
    let (status, out, err) = drive(&["check", "/nowhere/at-all"], "");
    assert_eq!((status, out.as_str()), (2, ""));
    assert!(err.starts_with("drive: cannot read /nowhere/at-all"), "{err}");
    assert_eq!(drive(&["--help"], "").0, 0);
}
