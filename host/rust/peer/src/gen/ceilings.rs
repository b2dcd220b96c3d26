//! Texts at the ceilings of document 01, a little below, on and above them.

use super::rng::Rng;

/// A text at one of the ceilings.
pub fn text(rng: &mut Rng) -> Vec<u8> {
    let text = match rng.below(18) {
        0 => many("(type t{} (range 0 3))\n", near(64, rng)) + "(main)\n",
        1 => many("(var v{} integer)\n", near(128, rng)) + "(main)\n",
        2 => many("(proc p{} (raise 1))\n", near(32, rng)) + "(main (call p0))\n",
        3 => nodes(rng),
        4 => cells(rng),
        5 => names(rng),
        6 => fields(rng),
        7 => depth(rng),
        8 => length(rng),
        9 => sets(rng),
        10 => index(rng),
        11 => labels(rng),
        12 => chain(rng),
        13 => aliases(rng),
        14 => tower(rng),
        15 => long_words(rng),
        16 => total(rng),
        _ => wide(rng),
    };
    text.into_bytes()
}

/// A count at a ceiling or beside it.
pub fn near(most: usize, rng: &mut Rng) -> usize {
    most + [0, 1, 2, 0, 0][rng.below(5)] - [0, 0, 0, 1, 0][rng.below(5)]
}

/// A pattern for each number.
pub fn many(pattern: &str, count: usize) -> String {
    (0..count).map(|n| pattern.replace("{}", &n.to_string())).collect()
}

/// Brackets and words in `main`, or spread over procedures.
fn nodes(rng: &mut Rng) -> String {
    let wanted = near(4_096, rng);
    match rng.percent(50) {
        // `(main ..)` is 2; each `(raise 0)` is 3 and each `(begin)` is 2.
        true => {
            let left = wanted - 2;
            let pairs = if left.is_multiple_of(2) { left / 2 } else { (left - 3) / 2 };
            let odd = if left.is_multiple_of(2) { "" } else { " (raise 7)" };
            format!("(main{odd}{})\n", " (begin)".repeat(pairs))
        }
        // A `var` line is 4, a `proc` line with n statements 3 + 2n, `(main)` is 2.
        false => {
            let left = wanted - 2 - 4 * 10 - 3 * 20;
            let (each, rest) = (left / 2 / 20, left / 2 % 20);
            let body = " (begin)".repeat(each);
            let odd = if left.is_multiple_of(2) { "" } else { " " };
            format!(
                "{}{}(main{}{odd})\n",
                many("(var v{} integer)\n", 10),
                many(&format!("(proc p{{}}{body})\n"), 20),
                " (begin)".repeat(rest)
            )
        }
    }
}

/// Cells in one type, or in all variables.
fn cells(rng: &mut Rng) -> String {
    let head = "(type i (range 0 255))\n(type j (range 1 7))\n(type a (array i integer))\n";
    let more = rng.below(3);
    match rng.below(4) {
        0 => format!(
            "{head}(type r (record (x1 a) (x2 a) (x3 a) (x4 a) (x5 a) (x6 a) (x7 a) (x8 a){}))\n(var v r)\n\
             (main (:= (at (dot v x8) 255) 5))\n",
            many(" (y{} integer)", more)
        ),
        1 => format!(
            "{head}(type b (array j a))\n(var v b)\n(var w a)\n{}(main (:= (at w 255) 9) (:= (at (at v 7) 255) 1))\n",
            many("(var x{} integer)\n", more)
        ),
        2 => format!(
            "{head}(type k (range 1 {}))\n(type b (array k a))\n(var v b)\n(main (:= (at v 1) (at v 2)))\n",
            7 + more
        ),
        _ => format!("{head}{}(main)\n", many("(var v{} a)\n", 7 + more)),
    }
}

/// Names of one enumeration, with a fault behind the surplus or without.
fn names(rng: &mut Rng) -> String {
    let count = near(256, rng);
    let fault = *rng.pick(&["", "", "", " n3", " 5", " type", " x"]);
    let last = count - 1;
    format!(
        "(var x integer)\n(type e (enum{}{fault}))\n(type t (array e boolean))\n(var y t)\n\
         (main (:= (at y n{last}) (= n{last} (last e))))\n",
        many(" n{}", count)
    )
}

fn fields(rng: &mut Rng) -> String {
    let count = near(16, rng);
    let fault = *rng.pick(&["", "", "", " (f3 integer)", " (f16)", " (f99 nothing)"]);
    let last = count - 1;
    format!(
        "(type r (record{}{fault}))\n(var v r)\n(main (:= (dot v f{last}) 4) (:= (dot v f0) (dot v f{last})))\n",
        many(" (f{} integer)", count)
    )
}

/// Bracket depth, by several forms.
fn depth(rng: &mut Rng) -> String {
    let wrap = |open: &str, core: &str, close: &str, count: usize| {
        format!("{}{core}{}", open.repeat(count), close.repeat(count))
    };
    let pairs = near(31, rng) + rng.below(2);
    let head = "(var x integer)\n(var b boolean)\n(var i integer)\n";
    let inner = match rng.below(8) {
        0 => wrap("(begin ", "", ")", pairs),
        1 => wrap("(if true ", "(:= x 5)", ")", pairs - 1),
        2 => format!("(:= x {})", wrap("(+ 1 ", "1", ")", pairs - 1)),
        3 => format!("(:= b {})", wrap("(not ", "true", ")", pairs - 1)),
        4 => wrap("(case 1 (arm 1 ", "(begin)", "))", (pairs - 1) / 2),
        5 => format!("(:= x {})", wrap("(- ", "7", ")", pairs - 1)),
        6 => format!("(:= x {})", wrap("(abs (- ", "7", "))", (pairs - 1) / 2)),
        _ => wrap("(while b ", "(begin)", ")", pairs - 1),
    };
    format!("{head}(main {inner})\n")
}

/// Texts about as long as the longest, by spaces, statements or long names.
fn length(rng: &mut Rng) -> String {
    let wanted = near(32_768, rng);
    let start = "(var x integer)\n(main (:= x 1)";
    match rng.below(3) {
        0 => format!("{start}{})\n", " ".repeat(wanted - start.len() - 2)),
        1 => format!("{}{start})\n", " ".repeat(wanted - start.len() - 2)),
        _ => {
            let lines = many("(var a_name_of_thirty_bytes_or_so_{} integer)\n", 10);
            let rest = wanted - lines.len() - start.len() - 2;
            let filler = "                              (begin)".repeat(rest / 37);
            format!("{lines}{start}{filler}{})\n", " ".repeat(rest % 37))
        }
    }
}

fn sets(rng: &mut Rng) -> String {
    let (low, high) =
        *rng.pick(&[("0", "31"), ("0", "32"), ("(- 1)", "5"), ("31", "31"), ("30", "31")]);
    format!(
        "(type b (range {low} {high}))\n(type s (setof b))\n(var x s)\n(var y integer)\n\
         (main (:= x (members s 31 (first b))) (:= y (setmax x)) (:= x (- x (members s 31))) (:= y (setmin x)))\n"
    )
}

fn index(rng: &mut Rng) -> String {
    let count = near(256, rng) as i64;
    let low = *rng.pick(&[0, 1, -128, 1_000_000, 2_147_483_647 - 300]);
    let sign = |value: i64| if value < 0 { format!("(- {})", -value) } else { value.to_string() };
    let (first, last) = (sign(low), sign(low + count - 1));
    format!(
        "(type i (range {first} {last}))\n(type a (array i boolean))\n(var v a)\n\
         (main (:= (at v {last}) true) (:= (at v {first}) (at v {last})) (:= (at v (+ 1 {last})) false))\n"
    )
}

/// A case of many labels; the last may repeat one.
fn labels(rng: &mut Rng) -> String {
    let count = *rng.pick(&[200, 255, 256, 257, 300, 512, 1_000, 2_000, 3_000]);
    let again = match rng.below(4) {
        0 => format!(" {}", rng.below(count)),
        1 => format!(" #{:X}", rng.below(count)),
        _ => String::new(),
    };
    let select = rng.below(count + 2);
    format!(
        "(var x integer)\n(main (case {select} (arm{} (:= x 1)) (arm 5000{again} (:= x 2))))\n",
        many(" {}", count)
    )
}

/// Procedures that call all the ones before.
fn chain(rng: &mut Rng) -> String {
    let count = near(32, rng);
    let mut text = "(var n integer)\n(proc p0 (:= n (+ n 1)))\n".to_string();
    for which in 1..count {
        let before = which - 1;
        text += &format!("(proc p{which} (call p{before}) (exception (call p{before})))\n");
    }
    text + &format!("(main (:= n {}) (call p{}))\n", rng.below(2) * 2_147_483_640, count - 1)
}

fn aliases(rng: &mut Rng) -> String {
    let count = near(64, rng);
    let mut text = "(type t0 (range 1 9))\n".to_string();
    for which in 1..count {
        text += &format!("(type t{which} t{})\n", which - 1);
    }
    text + &format!("(var x t{})\n(var y t0)\n(main (:= x 9) (:= y x) (:= y (+ x 1)))\n", count - 1)
}

/// Arrays in arrays, down to one cell each or two.
fn tower(rng: &mut Rng) -> String {
    let levels = 9 + rng.below(4);
    let mut text = "(type t0 integer)\n".to_string();
    for which in 1..=levels {
        text += &format!("(type t{which} (array boolean t{}))\n", which - 1);
    }
    let open = "(at ".repeat(levels);
    let index = *rng.pick(&[" true)", " false)", " (not false))"]);
    text + &format!("(var v t{levels})\n(main (:= {open}v{} 5) (:= v v))\n", index.repeat(levels))
}

/// Names of 31 and 32 bytes, and numbers with many zeros.
fn long_words(rng: &mut Rng) -> String {
    let name = "n".repeat(near(31, rng));
    let zeros = "0".repeat(rng.below(3_000));
    format!("(var {name} integer)\n(main (:= {name} {zeros}7))\n")
}

/// A long run: nested loops.
fn total(rng: &mut Rng) -> String {
    let (rounds, deep) = *rng.pick(&[(3, 6), (20, 3), (5_000, 1), (9_998, 1), (100, 2), (2, 12)]);
    let vars = many("(var i{} integer)\n", deep);
    let open: String = (0..deep).map(|n| format!("(for i{n} 1 {rounds} ")).collect();
    format!("{vars}(main {open}(begin){})\n", ")".repeat(deep))
}

/// One very wide form.
fn wide(rng: &mut Rng) -> String {
    let count = 500 + rng.below(1_500);
    match rng.below(3) {
        0 => format!(
            "(type b (range 0 31))\n(type s (setof b))\n(var x s)\n(main (:= x (members s{})))\n",
            " 7".repeat(count)
        ),
        1 => format!("(main (begin{}))\n", " (begin)".repeat(count)),
        _ => format!("(var x integer)\n(main (:= x 1 {}))\n", "2 ".repeat(count)),
    }
}

#[cfg(test)]
mod tests {
    use super::*;
    use crate::level::Level;
    use std::collections::BTreeSet;

    /// The answers for many texts of one sort, 0 for accepted.
    fn answers(sort: fn(&mut Rng) -> String) -> BTreeSet<u32> {
        let verdict = |seed| {
            let text = sort(&mut Rng::new(seed));
            crate::verdict(Level::BASE, text.as_bytes(), crate::bytes::WORK)
        };
        (0..60).map(|seed| verdict(seed).map_or_else(|refusal| refusal.number, |_| 0)).collect()
    }

    #[test]
    fn both_sides_of_each_ceiling() {
        for sort in [nodes, cells, names, fields, sets, index, chain, aliases, tower] {
            let answers = answers(sort);
            assert!(answers.contains(&0) && answers.contains(&9), "{answers:?}");
        }
        assert_eq!(answers(depth), BTreeSet::from([0, 4]));
        assert_eq!(answers(length), BTreeSet::from([0, 2]));
        assert_eq!(answers(labels), BTreeSet::from([0, 8]));
        assert_eq!(answers(long_words), BTreeSet::from([0, 5]));
    }
}
