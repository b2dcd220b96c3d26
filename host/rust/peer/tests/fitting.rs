//! The fitting sheet of document 01, and a few cases for each row of its refusal table.

use peer::bytes::WORK;
use peer::print::{markscript, runscript, BUDGET};
use peer::{Answer, Outcome, Refusal, LANDED};

/// The value of an integer expression, or the number of its exception.
fn value(expr: &str) -> Result<i64, i64> {
    let text = format!(
        "(type o (range 0 31))\n(type s (setof o))\n(var x integer)\n(main (:= x {expr}))\n"
    );
    let (mut values, mut marks) = ([0], [0]);
    let answer = peer::run(LANDED, text.as_bytes(), WORK, &mut values, &mut marks, 100);
    match answer.expect(expr).outcome {
        Outcome::Normal => Ok(values[0]),
        Outcome::Exception { number, statement: 1 } => Err(number),
        other => panic!("{expr}: {other:?}"),
    }
}

fn refusal(text: &str) -> (u32, u32) {
    match peer::verdict(LANDED, text.as_bytes(), WORK) {
        Ok(_) => (0, 0),
        Err(Refusal { number, line }) => (number, line),
    }
}

#[test]
fn numbers() {
    assert_eq!(value("2147483647"), Ok(2147483647));
    assert_eq!(refusal("(main (raise 2147483648))\n"), (5, 1));
    assert_eq!(value("#FFFFFFFF"), Ok(-1));
    assert_eq!(value("#80000000"), Ok(-2147483648));
    assert_eq!(value("#FFFFFFF"), Ok(268435455));
    assert_eq!(refusal("(main (raise (- #80000000)))\n"), (8, 1));
    assert_eq!(refusal("(main (raise #123456789))\n"), (5, 1));
}

#[test]
fn arithmetic() {
    assert_eq!(value("(div (- 7) 2)"), Ok(-3));
    assert_eq!(value("(mod (- 7) 3)"), Ok(2));
    assert_eq!(value("(mod 7 (- 3))"), Err(-101));
    assert_eq!(value("(mod 7 0)"), Err(-101));
    assert_eq!(value("(div 7 0)"), Err(-101));
    assert_eq!(value("(div #80000000 (- 1))"), Err(-101));
    assert_eq!(value("(- (first integer))"), Err(-101));
    assert_eq!(value("(succ 2147483647)"), Err(-103));
}

#[test]
fn powers() {
    assert_eq!(value("(** (- 2) 31)"), Ok(-2147483648));
    assert_eq!(value("(** 2 31)"), Err(-101));
    assert_eq!(value("(** (- 1) 2147483647)"), Ok(-1));
    assert_eq!(value("(** 0 0)"), Err(-101));
    assert_eq!(value("(** 5 0)"), Ok(1));
    assert_eq!(value("(** 0 7)"), Ok(0));
    assert_eq!(value("(** 1 (- 1))"), Err(-101));
    assert_eq!(value("(** 2 2147483647)"), Err(-101));
}

#[test]
fn sets() {
    assert_eq!(value("(card (members s 1 3))"), Ok(2));
    assert_eq!(value("(setmin (members s 1 3))"), Ok(1));
    assert_eq!(value("(setmax (members s 1 3))"), Ok(3));
    assert_eq!(value("(setmax (members s))"), Err(-103));
    assert_eq!(value("(ord (in 3 (members s 1 3)))"), Ok(1));
    assert_eq!(value("(ord (in 2 (members s 1 3)))"), Ok(0));
    assert_eq!(value("(ord (in (- 1) (members s 1 3)))"), Ok(0));
}

#[test]
fn loops() {
    let near = "(var i integer)\n(main (for i 2147483646 2147483647 (begin)))\n";
    assert_eq!(runscript(LANDED, near.as_bytes(), BUDGET), "normal 5\n1 i -\n");
    let none = "(type r (range 1 4))\n(var i r)\n(main (for i 5 1 (begin)))\n";
    assert_eq!(runscript(LANDED, none.as_bytes(), BUDGET), "normal 1\n1 i -\n");
}

#[test]
fn outcomes() {
    let at =
        |text: &str, budget| peer::run(LANDED, text.as_bytes(), WORK, &mut [], &mut [], budget);
    assert_eq!(at("(main)\n", 0), Ok(Answer { outcome: Outcome::Normal, steps: 0 }));
    let system = Outcome::Exception { number: -102, statement: 1 };
    assert_eq!(at("(main (raise 0))\n", 1), Ok(Answer { outcome: system, steps: 1 }));
    assert_eq!(at("(main (raise 0))\n", 0), Ok(Answer { outcome: Outcome::Spent, steps: 0 }));
}

#[test]
fn sticking() {
    for act in ["(raise (+ 1 true))", "(if 1 (begin))"] {
        let text = format!("(main {act})\n");
        assert_eq!(refusal(&text), (8, 1));
        assert_eq!(markscript(LANDED, text.as_bytes(), BUDGET), "stuck 1\n");
    }
}

#[test]
fn sheet() {
    let text = b"(type slot (range 1 4))\n(var at_slot slot)\n(var sum integer)\n\
                 (main (:= at_slot 3) (:= sum (** 2 (+ at_slot 1))))\n";
    assert_eq!(runscript(LANDED, text, BUDGET), "normal 2\n1 at_slot 3\n2 sum 16\n");
    assert_eq!(runscript(LANDED, text, 1), "spent 1\n1 at_slot 3\n2 sum -\n");
}

#[test]
fn refusals() {
    assert_eq!(peer::cells(LANDED, b"(main)\n", WORK - 1), Err(Refusal { number: 1, line: 0 }));
    assert_eq!(refusal(&" ".repeat(32_769)), (2, 0));
    assert_eq!(refusal("(main)\n\t\n"), (3, 2));
    assert_eq!(refusal("(main)"), (4, 1));
    assert_eq!(refusal("(main) x\n"), (4, 1));
    assert_eq!(refusal("(var x__y integer)\n(main)\n"), (5, 1));
    assert_eq!(refusal(""), (6, 1));
    assert_eq!(refusal("(var x integer)\n"), (6, 2));
    assert_eq!(refusal("(main)\n(main)\n"), (6, 2));
    assert_eq!(refusal("(main (call p))\n"), (7, 1));
    assert_eq!(refusal("(type a (range 2 1))\n(main)\n"), (8, 1));
    assert_eq!(refusal("(type a (setof integer))\n(main)\n"), (9, 1));
}

#[test]
fn depth() {
    let deep = |pairs: usize| format!("(main {}{})\n", "(begin ".repeat(pairs), ")".repeat(pairs));
    assert_eq!(refusal(&deep(31)), (0, 0));
    assert_eq!(refusal(&deep(32)), (4, 1));
    assert_eq!(refusal(&"(".repeat(32_000)), (4, 1));
}

#[test]
fn store() {
    let text = b"(type t (range 2 5))\n(type s (setof t))\n(var x s)\n(var y t)\n(main)\n";
    let number = |values: &[i64], marks: &[u8]| {
        let (mut left, mut right) = (values.to_vec(), marks.to_vec());
        let answer = peer::run(LANDED, text, WORK, &mut left, &mut right, 0);
        assert_eq!((left, right), (values.to_vec(), marks.to_vec()));
        answer.map_or_else(|refusal| refusal.number, |_| 0)
    };
    assert_eq!(number(&[60, 2], &[1, 1]), 0);
    assert_eq!(number(&[0, 0], &[0, 0]), 0);
    assert_eq!(number(&[60], &[1, 1]), 10);
    assert_eq!(number(&[60, 2], &[1, 1, 0]), 10);
    assert_eq!(number(&[2, 2], &[1, 1]), 11);
    assert_eq!(number(&[-4, 2], &[1, 1]), 11);
    assert_eq!(number(&[60, 6], &[1, 1]), 11);
    assert_eq!(number(&[60, 2], &[1, 2]), 11);
    assert_eq!(number(&[60, 2], &[1, 0]), 11);
}

/// The deepest nesting that a text can ask for: 32 procedures of depth 32 each.
#[test]
fn deep_calls() {
    let wrap = |core: &str| format!("{}{core}{}", "(if true ".repeat(30), ")".repeat(30));
    let mut text = format!("(proc p0 {})\n", wrap("(raise 5)"));
    for which in 1..32 {
        text += &format!("(proc p{which} {})\n", wrap(&format!("(call p{})", which - 1)));
    }
    text += &format!("(main {})\n", wrap("(call p31)"));
    let report = "exception 5 31 1023\n";
    assert_eq!(runscript(LANDED, text.as_bytes(), BUDGET), report);
    assert_eq!(markscript(LANDED, text.as_bytes(), BUDGET), report);
}
