//! What `drive` tells a person of a run: its end, the values in it, the store by names.
mod common;

use common::{drive, file, said};

#[test]
fn an_exception_with_its_statement_and_values() {
    assert_eq!(
        said(
            "run",
            "(type percent (range 0 100))\n(var stick integer)\n(var speed percent)\n(main (:= stick 65) (:= speed (* stick 2)))\n"
        ),
        "exception -103 2 2\n\
         Exception -103 (Range_Error) at statement 2, line 4: The value is 130.\n\
         \x20   ..(:= speed (* stick 2))..\n\
         \x20               ^^^^^^^^^^^\n\
         Expected: a value of `percent`, which is 0 to 100.\n\
         There `stick` is 65.\n\
         Limit the value with `if` first, or widen the range.\n\
         stick 65\n\
         speed -\n"
    );
}

/// What ends a run, and parts of what is said of it.
const ENDS: [(&str, &[&str]); 17] = [
    ("(main (:= n 7) (:= m (div n 0)))", &["`div` has 0 on its right.", "There `n` is 7."]),
    ("(main (:= n 7) (:= m (mod n (- n))))", &["`mod` has -7 on its right.", "a number above 0 there"]),
    ("(main (:= n 7) (:= m (** n (- 1))))", &["7 to the power -1 has no whole value."]),
    ("(main (:= n 70000) (:= m (* n n)))", &["The result is 4900000000.", "-2147483648 to 2147483647", "There `n` is 70000."]),
    ("(main (:= m (** 2 31)))", &["The power is past the integers."]),
    ("(main (raise 0))", &["(System_Error)", "there was none"]),
    ("(main (:= n 7) (:= (at t n) 1))", &["The index is 7.", "`slot`, which is 1 to 4"]),
    ("(main (call p fast))", &["`succ` goes past fast.", "There `g` is fast.", "statement 1, line 12"]),
    ("(main (:= n (ord (setmin (members gears)))))", &["`setmin` has an empty set after it."]),
    ("(main (:= n (+ m 1)))", &["(Undefined_Error)", "`m` has no value yet.", "put it into the store"]),
    ("(main (:= (at t 1) 5) (:= u t))", &["`t[2]` has no value yet.", "a value in every part, before anything is copied"]),
    ("(main (:= now slow) (case now (arm fast (begin))))", &["No arm has the label slow, and there is no `else`.", "There `now` is slow."]),
    ("(main (raise (- 103)))", &["Exception -103 (Range_Error) at statement 2", "Its `raise` is here.", "see why the script raises it"]),
    ("(main (:= n 9) (call q n))", &["The argument is 9.", "`slot`, which is 1 to 4"]),
    ("(main (:= n (card (members slots 1 9))))", &["The member is 9.", "`slot`, which is 1 to 4"]),
    ("(main (raise 42))", &["Exception 42 raised by the script at statement 2, line 14"]),
    ("(main (begin (:= n 9) (for s 1 n (begin))))", &["The last bound is 9.", "`slot`, which is 1 to 4"]),
];

#[test]
fn each_exception_says_why() {
    let declared = "(type gear (enum slow fast))\n(type gears (setof gear))\n(type slot (range 1 4))\n(type slots (setof slot))\n(type row (array slot integer))\n(var now gear)\n(var n integer)\n(var m integer)\n(var s slot)\n(var t row)\n(var u row)\n(proc p ((g gear)) (:= now (succ g)))\n(proc q ((to slot)))\n";
    for (main, parts) in ENDS {
        let out = said("run", format!("{declared}{main}\n"));
        for part in parts {
            assert!(out.contains(part), "{part}: {out}");
        }
    }
}

/// The part of a profile that stops its copy is named, by both machines, and nothing is copied.
#[test]
fn an_undefined_part_of_a_profile() {
    let script = concat!(env!("CARGO_MANIFEST_DIR"), "/../../examples/profiles.txt");
    let store = "all[work].turn 20\nall[work].reverse 15\nwanted work\nstick 50\nchosen.turn 7\n";
    let store = file("profile", store);
    for machine in ["run", "mark"] {
        let (status, out, _) = drive(&[machine, script, "--store", &store], "");
        assert_eq!(status, 1);
        assert!(
            out.starts_with(
                "exception -104 1 1\n\
                 Exception -104 (Undefined_Error) at statement 1, line 10: `all[work].forward` has no value yet.\n\
                 \x20   ..(:= chosen (at all wanted))..\n\
                 \x20                ^^^^^^^^^^^^^^^\n\
                 Expected: a value in every part, before anything is copied.\n\
                 There `wanted` is work.\n\
                 Give it a value before it is read: put it into the store,"
            ),
            "{out}"
        );
        assert!(out.ends_with("chosen.forward -\nchosen.turn 7\nchosen.reverse -\nspeed -\n"), "{out}");
    }
}

/// What stops a copy on its source's side comes before the target's index.
#[test]
fn the_source_of_a_copy_comes_first() {
    let declared = "(type slot (range 1 4))\n(type pair (record (a integer) (b integer)))\n(type row (array slot pair))\n(var p pair)\n(var r row)\n(var n integer)\n";
    let cases = [
        ("(:= (at r (div 1 0)) p)", "exception -104 2 2\n"),
        ("(:= (at r n) p)", "exception -104 2 2\n"),
        ("(:= (at r (div 1 0)) (at r n))", "exception -103 2 2\n"),
        ("(:= (at r n) (at r (div 1 0)))", "exception -101 2 2\n"),
    ];
    for (copy, outcome) in cases {
        for machine in ["run", "mark"] {
            let out = said(machine, format!("{declared}(main (:= n 9) {copy})\n"));
            assert!(out.starts_with(outcome), "{copy}: {out}");
        }
    }
}

#[test]
fn an_exception_that_a_handler_passes_on() {
    let out = said(
        "run",
        "(var n integer)\n(var m integer)\n(proc p (:= n (div m 0)) (exception (:= m 9) (raise 0)))\n(main (:= m 3) (call p))\n",
    );
    assert!(out.contains("at statement 1, line 3: `div` has 0 on its right.") && out.contains("There `m` is 3.\n"), "{out}");
}

#[test]
fn a_spent_run_with_what_was_due() {
    let script = "(var n integer)\n(main (:= n 0) (while (>= n 0) (:= n (+ n 1))))\n";
    assert_eq!(
        said("run", script),
        "spent 10000\n\
         The script was not at its end after 10000 steps, which is all of its budget.\n\
         Due next was another round of statement 2, line 2:\n\
         \x20   ..(while (>= n 0) (:= n (+ n 1)))..\n\
         \x20     ^^^^^^^^^^^^^^^^^^^^^^^^^^^^^^^\n\
         There `n` is 4999.\n\
         Look for a loop that does not end, or allow more steps by --budget.\n\
         n 4999\n"
    );
    let (_, out, _) = drive(&["run", "-", "--budget", "3"], script);
    assert!(out.contains("Due next was statement 3, line 2:\n    ..(:= n (+ n 1)).."), "{out}");
    let (_, out, _) = drive(&["run", "-", "--budget", "50000000"], script);
    assert!(out.contains("all of its budget.\nLook for a loop") && out.ends_with("n 24999999\n"), "{out}");
}

#[test]
fn a_stuck_run_with_the_kinds() {
    let out = said("mark", "(var speed integer)\n(var moving boolean)\n(main (:= speed 40) (:= moving speed) (:= speed 0))\n");
    assert!(
        out.starts_with(
            "stuck 2\nThe marking machine stuck at step 2, at statement 2, line 3: This is an integer.\n    ..(:= moving speed)..\n                 ^^^^^\nExpected: a boolean, as `moving` holds it.\nThere `speed` is 40.\n"
        ),
        "{out}"
    );
    assert!(said("mark", "(main (raise true))\n").contains("`(ord VALUE)`"));
    assert!(said("mark", "(main (if (+ 1 true) (begin)))\n").contains("`+` has an integer on its left and a boolean on its right."));
}

const CHAIR: &str = "(type gear (enum slow medium fast))\n(type percent (range 0 100))\n(type profile (record (forward percent) (turn percent)))\n(type profiles (array gear profile))\n(type gears (setof gear))\n(var now gear)\n(var all profiles)\n(var allowed gears)\n(var locked boolean)\n(main (:= now fast) (:= (dot (at all medium) forward) 60) (:= allowed (members gears slow fast)) (:= locked true))\n";

#[test]
fn values_as_a_person_reads_them() {
    let (status, out, _) = drive(&["run", "-"], CHAIR);
    assert_eq!(status, 0);
    assert_eq!(
        out,
        "normal 4\nThe script ran to its end in 4 steps.\nnow fast\nall[slow].forward -\nall[slow].turn -\nall[medium].forward 60\nall[medium].turn -\nall[fast].forward -\nall[fast].turn -\nallowed {slow fast}\nlocked true\n"
    );
    let (_, out, _) = drive(&["run", "-", "--plain"], CHAIR);
    assert_eq!(out, "normal 4\n1 now 2\n2 all -\n3 all -\n4 all 60\n5 all -\n6 all -\n7 all -\n8 allowed 5\n9 locked 1\n");
    assert_eq!(drive(&["check", "-"], CHAIR).1, "accepted\nThe script may be loaded; it has 9 cells.\n");
}

#[test]
fn a_store_by_names_saved_and_read_back() {
    let saved = file("saved", "");
    let script = file("chair", CHAIR);
    drive(&["run", &script, "--save", &saved], "");
    let rows = "now fast\nall[slow].forward -\nall[slow].turn -\nall[medium].forward 60\nall[medium].turn -\nall[fast].forward -\nall[fast].turn -\nallowed {slow fast}\nlocked true\n";
    assert_eq!(std::fs::read_to_string(&saved).unwrap(), rows);
    let (status, out, _) = drive(&["run", &script, "--store", &saved, "--budget", "0"], "");
    assert_eq!(status, 1);
    assert!(out.starts_with("spent 0\n") && out.ends_with(rows), "{out}");
    drive(&["run", &script, "--plain", "--save", &saved], "");
    assert_eq!(std::fs::read_to_string(&saved).unwrap(), "2 1\n0 0\n0 0\n60 1\n0 0\n0 0\n0 0\n5 1\n1 1\n");
    assert!(drive(&["run", &script, "--store", &saved], "").1.ends_with(rows));
    let (status, _, err) = drive(&["run", &script, "--save", "/nowhere/at-all"], "");
    assert!(status == 2 && err.starts_with("drive: cannot write /nowhere/at-all"), "{err}");
}

#[test]
fn stores_that_do_not_fit() {
    let script = file("stores", "(type percent (range 0 100))\n(var stick percent)\n(main)\n");
    let run = |name: &str, store: &str| drive(&["run", &script, "--store", &file(name, store)], "");
    let out = run("outside", "stick 130\n").1;
    assert!(
        out.starts_with(
            "refused 11 0\nRefusal 11 (cell): Cell 1, `stick`, is 130, outside `percent`, which is 0 to 100.\nCorrect this cell"
        ),
        "{out}"
    );
    assert!(run("windows", "\u{feff}stick 30\r\n").1.ends_with("\nstick 30\n"));
    let out = run("two", "5 1\n5 1\n").1;
    assert!(out.starts_with("refused 10 0\nRefusal 10 (store): The script has 1 cell and the store 2 cells.\n"), "{out}");
    let (status, _, err) = run("misspelt", "stik 5\n");
    assert_eq!(status, 2);
    assert!(err.contains("line 1: The script has no cell `stik`. Did you mean `stick`?"), "{err}");
    let (status, _, err) = run("odd", "stick \x1b[2J\n");
    assert!(status == 2 && err.contains("`?[2J` is no value for `stick`") && !err.contains('\x1b'), "{err}");
}
