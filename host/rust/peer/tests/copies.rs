//! Point 3 of document 02: a case for each of its sentences. No answer differs from level 2's.

use peer::print::{cells, markscript, outcome, runscript, BUDGET};
use peer::Level;

const HEAD: &str = "(type name (enum home work visit))\n(type profile (record (ahead integer) (turn integer)))\n(type all (array name profile))\n(var p profile)\n(var q profile)\n(var a all)\n(var n integer)\n";

/// What both machines print at a budget, at this level and the one before.
fn at(lines: &str, budget: u32) -> String {
    let text = format!("{HEAD}{lines}\n");
    let printed = runscript(Level::COPIES, text.as_bytes(), budget);
    assert_eq!(markscript(Level::COPIES, text.as_bytes(), budget), printed, "{lines}");
    assert_eq!(runscript(Level::COUNTERS, text.as_bytes(), budget), printed, "{lines}");
    printed
}

/// The same, with the ten of these values stored before that are above 0.
fn from(values: [i64; 11], lines: &str) -> String {
    let text = format!("{HEAD}{lines}\n");
    let (mut after, mut marks) =
        (values.to_vec(), values.map(|value| u8::from(value > 0)).to_vec());
    let answer = peer::run(
        Level::COPIES,
        text.as_bytes(),
        peer::bytes::WORK,
        &mut after,
        &mut marks,
        BUDGET,
    );
    let owners = peer::owners(Level::COPIES, text.as_bytes(), peer::bytes::WORK).expect("a script");
    let rows = cells(&owners, &after, &marks);
    outcome(&answer.expect("a run"))
        + &rows
            .lines()
            .map(|row| row.rsplit(' ').next().unwrap_or(""))
            .collect::<Vec<_>>()
            .join(" ")
}

const FULL: [i64; 11] = [1, 2, 3, 4, 11, 12, 21, 22, 31, 32, 9];

#[test]
fn a_whole_value_goes_from_cell_to_cell() {
    assert_eq!(from(FULL, "(main (:= q p))"), "normal 1\n1 2 1 2 11 12 21 22 31 32 9");
    assert_eq!(from(FULL, "(main (:= (at a work) p))"), "normal 1\n1 2 3 4 11 12 1 2 31 32 9");
    assert_eq!(from(FULL, "(main (:= p (at a visit)))"), "normal 1\n31 32 3 4 11 12 21 22 31 32 9");
    assert_eq!(
        from(FULL, "(main (:= (at a home) (at a visit)) (:= (at a visit) (at a work)))"),
        "normal 2\n1 2 3 4 31 32 21 22 21 22 9"
    );
}

/// Neither side knows of the other afterwards.
#[test]
fn the_copy_is_its_own() {
    assert_eq!(
        from(FULL, "(main (:= q p) (:= (dot p turn) 7))"),
        "normal 2\n1 7 1 2 11 12 21 22 31 32 9"
    );
    assert_eq!(
        from(FULL, "(main (:= q p) (:= (dot q turn) 7))"),
        "normal 2\n1 2 1 7 11 12 21 22 31 32 9"
    );
}

/// No cell is written where a component is undefined, whichever it is.
#[test]
fn the_test_precedes_the_first_write() {
    for hole in [0, 1] {
        let mut values = FULL;
        values[hole] = 0;
        let left: Vec<String> = values
            .iter()
            .map(|value| if *value == 0 { "-".into() } else { value.to_string() })
            .collect();
        assert_eq!(
            from(values, "(main (:= q p))"),
            format!("exception -104 1 1\n{}", left.join(" "))
        );
        assert_eq!(
            from(values, "(main (:= p p))"),
            format!("exception -104 1 1\n{}", left.join(" "))
        );
    }
    let mut values = FULL;
    values[9] = 0;
    assert_eq!(from(values, "(main (:= a a))"), "exception -104 1 1\n1 2 3 4 11 12 21 22 31 - 9");
    assert_eq!(from(values, "(main (:= p (at a work)))"), "normal 1\n21 22 3 4 11 12 21 22 31 - 9");
}

#[test]
fn a_profile_may_be_assigned_to_itself() {
    let as_it_was = "normal 1\n1 2 3 4 11 12 21 22 31 32 9";
    assert_eq!(from(FULL, "(main (:= p p))"), as_it_was);
    assert_eq!(from(FULL, "(main (:= a a))"), as_it_was);
    assert_eq!(from(FULL, "(main (:= (at a work) (at a (succ home))))"), as_it_was);
}

/// The value with its indices, then the test for undefined components, then the target's indices.
#[test]
fn the_order_of_faults() {
    let from_outside = "(main (:= (at a (succ visit)) (at a (pred home))))";
    assert!(at(from_outside, BUDGET).starts_with("exception -103 1 1\n"));
    assert!(at("(main (:= (at a (succ visit)) p))", BUDGET).starts_with("exception -104 1 1\n"));
    let target = "(main (:= (dot p ahead) 1) (:= (dot p turn) 2) (:= (at a (succ visit)) p))";
    assert!(at(target, BUDGET).starts_with("exception -103 3 3\n"));
}

/// A copy takes its statement's step and no other, of however many cells.
#[test]
fn steps() {
    let lines = "(main (:= (dot p ahead) 1) (:= (dot p turn) 2) (:= q p) (:= n 5))";
    assert!(at(lines, 4).starts_with("normal 4\n"));
    assert!(at(lines, 3).starts_with("spent 3\n1 p 1\n2 p 2\n3 q 1\n4 q 2\n"));
    assert!(at(lines, 2).starts_with("spent 2\n1 p 1\n2 p 2\n3 q -\n4 q -\n"));
}

#[test]
fn in_a_procedure_by_its_parameter() {
    let lines = "(proc take ((which name)) (:= p (at a which)) (exception (:= n error_number)))\n(main (call take work) (call take visit))";
    let mut values = FULL;
    values[8] = 0;
    assert_eq!(from(values, lines), "normal 5\n21 22 3 4 11 12 21 22 - 32 -104");
}
