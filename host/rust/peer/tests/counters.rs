//! Point 2 of document 02: a case for each of its sentences, and what level 1 says of such texts.

use peer::print::{markscript, runscript, BUDGET};
use peer::Level;

const HEAD: &str = "(type r (range 1 4))\n(var i integer)\n(var k r)\n(var n integer)\n";

/// What both machines print at a budget for lines after the head.
fn at(level: Level, lines: &str, budget: u32) -> String {
    let text = format!("{HEAD}{lines}\n");
    let printed = runscript(level, text.as_bytes(), budget);
    assert_eq!(markscript(level, text.as_bytes(), budget), printed, "{lines}");
    printed
}

fn run(lines: &str) -> String {
    at(Level::COUNTERS, lines, BUDGET)
}

fn printed(outcome: &str, cells: [&str; 3]) -> String {
    format!("{outcome}\n1 i {}\n2 k {}\n3 n {}\n", cells[0], cells[1], cells[2])
}

#[test]
fn undefined_after_a_normal_end() {
    assert_eq!(run("(main (for i 1 3 (:= n i)))"), printed("normal 7", ["-", "-", "3"]));
    let read = "(main (for i 1 1 (begin)) (:= n i))";
    assert_eq!(run(read), printed("exception -104 3 4", ["-", "-", "-"]));
    let changed = "(proc p (:= i 9))\n(main (for i 1 2 (call p)))";
    assert_eq!(run(changed), printed("normal 7", ["-", "-", "-"]));
}

#[test]
fn also_with_no_round() {
    assert_eq!(run("(main (:= i 7) (for i 2 1 (begin)))"), printed("normal 2", ["-", "-", "-"]));
    let no_test = "(main (:= k 3) (for k 5 1 (begin)))";
    assert_eq!(run(no_test), printed("normal 2", ["-", "-", "-"]));
}

#[test]
fn kept_where_an_exception_leaves() {
    let out = "(main (for i 1 3 (if (= i 2) (raise 7))))";
    assert_eq!(run(out), printed("exception 7 3 6", ["2", "-", "-"]));
    let bounds = "(main (:= k 3) (for k 1 5 (begin)))";
    assert_eq!(run(bounds), printed("exception -103 2 2", ["-", "3", "-"]));
    let handled = "(main (for i 4 5 (raise i)) (exception (:= n i)))";
    assert_eq!(run(handled), printed("normal 4", ["4", "-", "4"]));
    let inside = "(proc p (raise 7) (exception))\n(main (for i 1 2 (call p)))";
    assert_eq!(run(inside), printed("normal 7", ["-", "-", "-"]));
}

/// The end takes no step; a spent run keeps the value.
#[test]
fn steps() {
    let lines = "(main (for i 1 2 (begin)))";
    assert_eq!(at(Level::COUNTERS, lines, 5), printed("normal 5", ["-", "-", "-"]));
    assert_eq!(at(Level::COUNTERS, lines, 4), printed("spent 4", ["2", "-", "-"]));
}

#[test]
fn parameters() {
    let after = "(proc p ((a integer)) (for a 1 2 (begin)) (:= n a) (exception (:= n error_number)))\n(main (call p 5))";
    assert_eq!(run(after), printed("normal 8", ["-", "-", "-104"]));
    let kept = "(proc p ((a r)) (for a 3 4 (raise 1)) (exception (:= n a)))\n(main (call p 1))";
    assert_eq!(run(kept), printed("normal 5", ["-", "-", "3"]));
}

/// Level 1 has document 01's words: the last value, and untouched with no round.
#[test]
fn level_1() {
    let last = at(Level::PARAMETERS, "(main (for i 1 3 (begin)))", BUDGET);
    assert_eq!(last, printed("normal 7", ["3", "-", "-"]));
    let untouched = at(Level::PARAMETERS, "(main (:= i 7) (for i 2 1 (begin)))", BUDGET);
    assert_eq!(untouched, printed("normal 2", ["7", "-", "-"]));
}
