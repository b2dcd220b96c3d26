//! Point 1 of document 02: a case for each of its sentences, and what level 0 says of such texts.

use peer::bytes::WORK;
use peer::print::{markscript, runscript, BUDGET};
use peer::Level;

const HEAD: &str = "(type r (range 1 4))\n(type t (array r integer))\n(type e (enum red green))\n\
                    (type s (setof e))\n(var x integer)\n(var y integer)\n";

fn verdict(level: Level, text: &str) -> (u32, u32) {
    let answer = peer::verdict(level, text.as_bytes(), WORK);
    answer.map_or_else(|refusal| (refusal.number, refusal.line), |_| (0, 0))
}

/// The refusal of a `proc` line after the head, 0 if it is accepted.
fn line(line: &str) -> u32 {
    let (number, place) = verdict(Level::PARAMETERS, &format!("{HEAD}{line}\n(main)\n"));
    assert!(number == 0 || place == 7, "{line}: line {place}");
    number
}

/// What both machines print for lines after the head.
fn run(lines: &str) -> String {
    let text = format!("{HEAD}{lines}\n");
    let printed = runscript(Level::PARAMETERS, text.as_bytes(), BUDGET);
    assert_eq!(markscript(Level::PARAMETERS, text.as_bytes(), BUDGET), printed, "{lines}");
    printed
}

/// The answers of verdict and marking machine for lines after the head, the outcome alone.
fn both(lines: &str) -> (String, String) {
    let text = format!("{HEAD}{lines}\n");
    let first = |printed: String| printed.lines().next().unwrap_or("").to_string();
    let level = Level::PARAMETERS;
    (
        first(runscript(level, text.as_bytes(), BUDGET)),
        first(markscript(level, text.as_bytes(), BUDGET)),
    )
}

#[test]
fn shapes() {
    for list in ["()", "(())", "((a))", "((a r r))", "((5 r))", "((a 5))", "((if r))", "((a true))"]
    {
        assert_eq!(line(&format!("(proc p {list})")), 6, "{list}");
    }
    assert_eq!(line("(proc p (a r))"), 6);
    assert_eq!(line("(proc p ((a (range 1 2))))"), 6);
    assert_eq!(line("(proc p ((a r)) ((b r)))"), 6);
    assert_eq!(line("(proc p (begin) ((b r)))"), 6);
    assert_eq!(line("(proc p ((a r) b))"), 6);
    assert_eq!(verdict(Level::PARAMETERS, "(main ((a integer)))\n"), (6, 1));
    assert_eq!(line("(proc p ((a r) (b integer) (c boolean) (d e) (f s)))"), 0);
}

#[test]
fn names() {
    for name in ["r", "x", "X", "red", "p", "b"] {
        assert_eq!(line(&format!("(proc p ((b r) ({name} r)))")), 7, "{name}");
    }
    assert_eq!(line("(proc p ((a nobody)))"), 7);
    assert_eq!(line("(proc p ((a x)))"), 7);
    assert_eq!(line("(proc p ((a integer) (b a)))"), 7);
    assert_eq!(line("(proc p ((a r)) (:= x b))"), 7);
    assert_eq!(line("(proc p ((a r)) (:= x (first a)))"), 7);
    // The callee's names are not the caller's.
    assert_eq!(both("(proc p ((a r)))\n(main (call p a))").0, "refused 7 8");
}

/// A later line may take the name, also as another sort; each line means its own.
#[test]
fn later_names() {
    let lines = "(proc p ((a integer)) (:= x a))\n(var a boolean)\n(main (:= a true) (call p 5))";
    assert_eq!(run(lines), "normal 3\n1 x 5\n2 y -\n3 a 1\n");
    let lines = "(proc p ((a integer)) (:= x a))\n(type f (enum a))\n(main (call p (ord a)))";
    assert_eq!(run(lines), "normal 2\n1 x 0\n2 y -\n");
    let lines = "(proc p ((a integer)) (:= x a))\n(proc a ((p2 e)) (:= y 2))\n(main (call p 5) (call a red))";
    assert_eq!(run(lines), "normal 4\n1 x 5\n2 y 2\n");
}

#[test]
fn kinds() {
    assert_eq!(line("(proc p ((a t)))"), 8);
    assert_eq!(line("(proc p ((a integer)) (if a (begin)))"), 8);
    assert_eq!(line("(proc p ((a r)) (for a 1 2 (:= a 1)))"), 8);
    assert_eq!(line("(proc p ((a r)) (for a 1 2 (for a 1 2 (begin))))"), 8);
    assert_eq!(line("(proc p ((a s)) (for a 1 2 (begin)))"), 8);
    let stuck = ("refused 8 8".to_string(), "stuck 1".to_string());
    assert_eq!(both("(proc p ((a r)))\n(main (call p true))"), stuck);
    assert_eq!(both("(proc p ((a r) (b r)))\n(main (call p true (div 1 0)))"), stuck);
    assert_eq!(both("(proc p ((a s)))\n(main (call p red))"), stuck);
}

/// A count meets no type: the marking machine refuses it too.
#[test]
fn counts() {
    for call in ["(call p)", "(call p 1)", "(call p 1 2 3)", "(call q 1)"] {
        let refused = both(&format!("(proc p ((a r) (b r)))\n(proc q)\n(main (if false {call}))"));
        assert_eq!(refused, ("refused 8 9".to_string(), "refused 8 9".to_string()), "{call}");
    }
    assert_eq!(both("(proc p)\n(main (call p zz))").0, "refused 7 8");
    assert_eq!(both("(proc p)\n(main (call p (begin)))").0, "refused 6 8");
}

/// A ninth parameter, or five thousand: their own rows 6 to 8 come first.
#[test]
fn ceilings() {
    let pairs = |count: usize| (0..count).map(|n| format!("(a{n} r)")).collect::<String>();
    assert_eq!(line(&format!("(proc p ({}))", pairs(8))), 0);
    for count in [9, 2_500] {
        let many = pairs(count);
        assert_eq!(line(&format!("(proc p ({many}))")), 9);
        assert_eq!(line(&format!("(proc p ({many}(b t)))")), 8);
        assert_eq!(line(&format!("(proc p ({many}(a3 r)))")), 7);
        assert_eq!(line(&format!("(proc p ({many}(b)))")), 6);
        assert_eq!(line(&format!("(proc p ({many}) (:= a{} true))", count - 1)), 8);
        assert_eq!(line(&format!("(proc p ({many}) (:= x a{count}))")), 7);
    }
}

/// Each argument is tested before the next is worked out, and all of it is the caller's.
#[test]
fn order() {
    let callee = "(proc p ((a r) (b integer)) (:= x b) (exception (:= x 99)))\n";
    assert_eq!(
        run(&format!("{callee}(main (call p 9 (div 1 0)))")),
        "exception -103 3 1\n1 x -\n2 y -\n"
    );
    assert_eq!(
        run(&format!("{callee}(main (call p 4 (div 1 0)))")),
        "exception -101 3 1\n1 x -\n2 y -\n"
    );
    assert_eq!(run(&format!("{callee}(main (call p 4 y))")), "exception -104 3 1\n1 x -\n2 y -\n");
    let handled = format!("{callee}(main (call p 0 1) (exception (:= y error_number)))");
    assert_eq!(run(&handled), "normal 2\n1 x -\n2 y -103\n");
}

/// Cells of their own: assignable, alive in the handler and across calls, gone at return.
#[test]
fn cells() {
    let lines = "(proc q ((a r)) (:= a 4))\n\
                 (proc p ((a r) (b integer)) (call q a) (:= b (* b 10)) (:= a (+ a 1)) (raise 7) (exception (:= x (+ a b))))\n\
                 (main (:= y 3) (call p y 5) (call p 2 1))";
    assert_eq!(run(lines), "normal 15\n1 x 13\n2 y 3\n");
    let lines =
        "(proc p ((a r)) (:= a 5) (exception (:= x a) (:= y error_number)))\n(main (call p 2))";
    assert_eq!(run(lines), "normal 4\n1 x 2\n2 y -103\n");
    let lines =
        "(proc p ((a r) (b s)) (for a 1 3 (:= b (+ b (members s green)))) (:= x (+ a (card b))))\n\
                 (main (call p 4 (members s red)))";
    assert_eq!(run(lines), "normal 9\n1 x 5\n2 y -\n");
}

/// Level 0 is document 01: no list, and a call with a surplus part is row 6.
#[test]
fn level_0() {
    assert_eq!(verdict(Level::BASE, "(proc p ((a integer)))\n(main)\n"), (6, 1));
    assert_eq!(verdict(Level::BASE, "(proc p)\n(main (call p 1))\n"), (6, 2));
    assert_eq!(verdict(Level::PARAMETERS, "(proc p)\n(main (call p 1))\n"), (8, 2));
}
