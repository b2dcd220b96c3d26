//! Texts at the ceilings that parameters have or count among (Point 1 of document 02).

use super::ceilings::{many, near};
use super::rng::Rng;

/// A text at one of them.
pub fn text(rng: &mut Rng) -> Vec<u8> {
    let text = match rng.below(7) {
        0 | 1 => list(rng),
        2 => variables(rng),
        3 => cells(rng),
        4 => endless(rng),
        5 => chain(rng),
        _ => wide(rng),
    };
    text.into_bytes()
}

/// Eight parameters or a ninth, with a fault of the list or of the body behind it or without.
fn list(rng: &mut Rng) -> String {
    let count = near(8, rng);
    let last = count - 1;
    let fault = *rng.pick(&["", "", "", "", " (a3 integer)", " (b99)", " (b99 nothing)", " (b r)"]);
    let body = *rng.pick(&["", "", "", " (:= zz 1)", " (if a0 (begin))", " (raise)"]);
    format!(
        "(type r (record (f integer)))\n(var x integer)\n\
         (proc p ({}{fault}) (:= x (+ a0 (* 10 a{last}))){body})\n(main (call p{}))\n",
        many(" (a{} integer)", count),
        many(" {}", count)
    )
}

/// Variables and parameters together; the line that passes the ceiling is a `var` or a `proc`.
fn variables(rng: &mut Rng) -> String {
    let (procedures, each) = *rng.pick(&[(1, 8), (15, 8), (16, 8), (31, 4), (32, 4), (10, 3)]);
    let pairs = many(" (a{} boolean)", each);
    let lists = many(&format!("(proc p{{}} ({pairs}))\n"), procedures);
    let count = near(128, rng).saturating_sub(procedures * each);
    match rng.percent(50) {
        true => format!("{lists}{}(main)\n", many("(var v{} integer)\n", count)),
        false => format!("{}{lists}(main)\n", many("(var v{} integer)\n", count)),
    }
}

/// Cells of variables and parameters together.
fn cells(rng: &mut Rng) -> String {
    let head = "(type i (range 0 255))\n(type a (array i integer))\n";
    let (whole, single) = (many("(var v{} a)\n", 7), 256 - 100);
    let index = format!("(type j (range 1 {single}))\n(type b (array j integer))\n(var w b)\n");
    let wanted = near(100, rng);
    let (lists, rest) = (wanted / 8, wanted % 8);
    let pairs = many(" (a{} i)", 8);
    let procedures = many(&format!("(proc p{{}} ({pairs}) (:= (at w 1) a7))\n"), lists);
    let singles = many("(var x{} integer)\n", rest);
    let call = "(call p0 0 1 2 3 4 5 6 255)";
    format!("{head}{whole}{index}{procedures}{singles}(main {call} (:= (at v6 255) 1))\n")
}

/// A list of hundreds or thousands: its own rows 6 to 8 come before the ceiling.
fn endless(rng: &mut Rng) -> String {
    let count = *rng.pick(&[9, 100, 255, 256, 257, 1_000, 1_360, 2_000, 2_700]);
    let last = count - 1;
    let again = rng.below(count);
    let fault = match rng.below(8) {
        0 => format!(" (a{again} t)"),
        1 => format!(" (A{last} t)"),
        2 => " (p t)".to_string(),
        3 => format!(" (b a{again})"),
        4 => " (b r)".to_string(),
        5 => " (b)".to_string(),
        _ => String::new(),
    };
    let body = match rng.below(4) {
        0 => format!(" (:= a{again} (+ a{last} 1))"),
        1 => format!(" (if a{again} (begin))"),
        2 => format!(" (:= a{count} 1)"),
        _ => String::new(),
    };
    let pairs = many("(a{} t)", count);
    format!(
        "(type t integer)\n(type r (array boolean t))\n(proc p ({pairs}{fault}){body})\n(main)\n"
    )
}

/// Procedures that hand their parameters on to the ones before, each through its own cells: what
/// the deepest is given is out of range or not.
fn chain(rng: &mut Rng) -> String {
    let most = near(32, rng);
    let count = if rng.percent(50) { most } else { 3 + rng.below(most - 2) };
    let top = rng.between(count as i64 - 3, count as i64 + 3);
    let mut text = format!("(type t (range 0 {top}))\n(var x integer)\n(var y integer)\n");
    text += "(proc p0 ((a t) (b integer)) (:= x (+ a b)) (:= b 0) (:= a b))\n";
    for which in 1..count {
        let before = which - 1;
        let handler = match rng.below(4) {
            0 => " (exception (:= y (+ a (* 100 b))))",
            1 => " (exception (:= y a) (raise 0))",
            _ => "",
        };
        text += &format!(
            "(proc p{which} ((a t) (b integer)) (call p{before} (+ a 1) (- b a)) (:= x (+ x a)){handler})\n"
        );
    }
    text + &format!("(main (:= y 0) (call p{} 0 {}))\n", count - 1, rng.below(50))
}

/// A call with as many arguments as a text has room for.
fn wide(rng: &mut Rng) -> String {
    let count = *rng.pick(&[0, 1, 2, 3, 7, 8, 9, 255, 256, 257, 4_070, 4_080, 4_090, 8_000]);
    let last = *rng.pick(&["", "", " true", " zz", " (begin)", " (div 1 0)"]);
    let pairs = many(" (a{} integer)", [1, 2, 8][rng.below(3)]);
    format!("(proc p ({pairs}))\n(main (call p{}{last}))\n", " 7".repeat(count))
}

#[cfg(test)]
mod tests {
    use super::*;
    use crate::level::Level;
    use std::collections::BTreeSet;

    /// The answers for many texts of one sort, 0 for accepted.
    fn answers(sort: fn(&mut Rng) -> String) -> BTreeSet<u32> {
        let verdict = |seed| {
            let text = sort(&mut Rng::new(seed));
            crate::verdict(Level::PARAMETERS, text.as_bytes(), crate::bytes::WORK)
        };
        (0..200).map(|seed| verdict(seed).map_or_else(|refusal| refusal.number, |_| 0)).collect()
    }

    #[test]
    fn both_sides_of_each_ceiling() {
        assert_eq!(answers(list), BTreeSet::from([0, 6, 7, 8, 9]));
        assert_eq!(answers(variables), BTreeSet::from([0, 9]));
        assert_eq!(answers(cells), BTreeSet::from([0, 9]));
        assert_eq!(answers(endless), BTreeSet::from([6, 7, 8, 9]));
        assert_eq!(answers(chain), BTreeSet::from([0, 9]));
        assert_eq!(answers(wide), BTreeSet::from([0, 6, 7, 8]));
    }
}
