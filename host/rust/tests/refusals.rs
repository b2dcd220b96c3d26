//! What `drive` tells a person of a refused script, for each fault that a person might make.
mod common;

use common::{drive, file, said};

/// Each script is refused in these words, of which each is a part.
fn refusals<T: AsRef<[u8]>>(cases: &[(T, &[&str])]) {
    for (script, parts) in cases {
        let out = said("check", script);
        for part in *parts {
            assert!(out.contains(part), "{part}: {out}");
        }
    }
}

#[test]
fn a_misspelt_name() {
    assert_eq!(
        said("check", "(var stick integer)\n(main (:= stik 5))\n"),
        "refused 7 2\n\
         Refusal 7 (name), line 2: No line above declares `stik`.\n\
         \x20   (main (:= stik 5))\n\
         \x20             ^^^^\n\
         Expected: a variable.\n\
         Did you mean `stick`?\n"
    );
    refusals(&[
        ("(type percent (range 0 100))\n(var stick percnt)\n(main)\n", &["Expected: a type.", "Did you mean `percent`?"]),
        ("(proc brake)\n(main (call braek))\n", &["Expected: a procedure.", "Did you mean `brake`?"]),
        ("(type gear (enum slow fast))\n(type upper (range slo fast))\n(main)\n", &["a name of a list", "Did you mean `slow`?"]),
        ("(var n integer)\n(proc set ((wanted integer)) (:= n wantd))\n(main)\n", &["Did you mean `wanted`?"]),
        (
            "(type pair (record (left integer) (right integer)))\n(var p pair)\n(main (:= (dot p rigt) 5))\n",
            &["The record `pair` has no part `rigt`.", "one of its parts: `left` `right`", "Did you mean `right`?"],
        ),
        ("(main (call stop))\n", &["Declare it on a line above.\n"]),
        ("(proc go ((on integer)) (raise speed))\n(main)\n", &["Declare it on a line above, or use one of `on`.\n"]),
        ("(proc go (call stop))\n(proc stop)\n(main)\n", &["Line 2 declares it: move that line up."]),
        ("(proc stop (call stop))\n(main)\n", &["A name is known from the line after its own."]),
    ]);
}

#[test]
fn a_name_of_another_sort_or_taken() {
    refusals(&[
        ("(var speed integer)\n(var limit speed)\n(main)\n", &["`speed` is a variable (line 1).", "Expected: a type."]),
        ("(var speed integer)\n(main (call speed))\n", &["`speed` is a variable (line 1).", "Expected: a procedure."]),
        ("(var speed integer)\n(proc speed)\n(main)\n", &["`speed` is a variable (line 1) already.", "a name that is not taken"]),
        ("(type t (enum a b a))\n(main)\n", &["`a` stands twice on this line."]),
    ]);
}

#[test]
fn a_misspelt_head_word() {
    refusals(&[
        (
            "(vra stick integer)\n(main)\n",
            &["The brackets start with the name `vra`.", "Expected: `type`, `var`, `proc` or `main`.", "Did you mean `var`?"],
        ),
        ("(var n integer)\n(main (whlie (> n 3) (:= n 3)))\n", &["     ^^^^^", "Did you mean `while`?"]),
        ("(type g (enmu a b))\n(main)\n", &["Did you mean `enum`?"]),
        ("(var n integer)\n(main (:= n (dvi n 2)))\n", &["Did you mean `div`?"]),
        ("(var n integer)\n(main (case n (amr 1 (begin))))\n", &["Expected: `arm` or `else`.", "Did you mean `arm`?"]),
        ("(proc stop)\n(main (stop))\n", &["To do the procedure write `(call stop)`."]),
        ("(main (stop))\n", &["If `stop` is a procedure, write `(call stop)`."]),
    ]);
}

#[test]
fn a_form_of_another_shape() {
    refusals(&[
        (
            "(var range integer)\n(main)\n",
            &["`range` is a word of the language and cannot be a name.", "Choose another one, as `my_range`."],
        ),
        ("(var n integer)\n(main (n := 5))\n", &["`:=` comes first: `(:= n 5)`."]),
        ("(var n integer)\n(main (:= n (n + 5)))\n", &["`+` comes first: `(+ n 5)`."]),
        ("(var n integer)\n(main (:= n 5 6))\n", &["`:=` has 3 parts after it.", "Expected: `(:= TARGET VALUE)`."]),
        (
            "(var n integer)\n(main (if (> n 3)))\n",
            &["`if` has 1 part after it.", "`(if TEST STATEMENT)` or `(if TEST STATEMENT STATEMENT)`"],
        ),
        ("(var n integer)\n(main (while (> n 3) (begin) (begin)))\n", &["Put several statements into one `(begin ..)`."]),
        ("(var speed (range 0 100))\n(main)\n", &["Here is a form `(range ..)`.", "the name of a type", "`(type NAME (range ..))`"]),
        ("(proc go () (begin))\n(main)\n", &["The brackets are empty.", "Leave the brackets out"]),
        ("(main (exception (begin)) (begin))\n", &["`(exception ..)` stands once, as the last part"]),
        ("(main (+ 1 2))\n", &["This is a value: store it with `:=`"]),
        ("(var n integer)\n(main (:= n (if true 1 2)))\n", &["is a statement and gives no value"]),
        ("(:= n 5)\n(main)\n", &["A statement stands inside `(main ..)` or `(proc NAME ..)`."]),
        ("(main (case 1 (arm (begin))))\n", &["`(arm LABEL .. STATEMENT)`, with at least one label"]),
        ("(main (raise (first 5)))\n", &["Here is the number 5.", "the name of a type"]),
        ("(var n integer)\n", &["refused 6 2\n", "The script ends here without `main`.", "a last line `(main STATEMENT ..)`"]),
        ("", &["refused 6 1\n", "The script ends here without `main`."]),
        ("(main)\n(var n integer)\n", &["This line stands after `main` (line 1).", "Move this line up"]),
    ]);
}

#[test]
fn what_was_meant() {
    refusals(&[
        ("(type gear (slow fast))\n(main)\n", &["A list of names is `(enum NAME ..)`."]),
        ("(var n integer)\n(main (:= n (5)))\n", &["Leave the brackets out: `5`."]),
        ("(var n integer)\n(main (:= n (n)))\n", &["Leave the brackets out: `n`."]),
        ("(var t integer)\n(main (:= t (t 3)))\n", &["`(at t INDEX)`"]),
        ("(proc p (a integer) (begin))\n(main)\n", &["`((a integer))`"]),
        ("(type t (array 10 integer))\n(main)\n", &["Here is the number 10.", "`(type NAME (range LOW HIGH))`"]),
        ("(type t (range 0..100))\n(main)\n", &["`(range 0 100)`"]),
        ("(var n integer)\n(main (if (> n 1) (begin) (else (begin))))\n", &["the second statement of an `if` stands without it"]),
        ("(main (if (and true true false) (begin)))\n", &["`and` has 3 parts after it.", "`(and (and A B) C)`"]),
        ("(main (case 1 (1 (begin))))\n", &["The brackets start with the number 1.", "`(arm LABEL .. STATEMENT)`"]),
        ("(var n integer)\n(main (:= n (5 + n)))\n", &["`+` comes first: `(+ 5 n)`."]),
        ("(var n integer)\n(main (n 5))\n", &["`(:= n VALUE)`"]),
    ]);
    let long = "x-".repeat(3_000);
    let out = said("check", format!("(var {long} integer)\n(main)\n"));
    assert!(out.len() < 800, "{out}");
}

#[test]
fn kinds_on_both_sides() {
    assert_eq!(
        said("check", "(var a integer)\n(main (:= a true))\n"),
        "refused 8 2\n\
         Refusal 8 (type), line 2: This is a boolean.\n\
         \x20   (main (:= a true))\n\
         \x20               ^^^^\n\
         Expected: an integer, as `a` holds it.\n\
         `(ord VALUE)` is 1 for true and 0 for false.\n"
    );
    let gears = |main: &str| {
        format!("(type gear (enum slow fast))\n(type gears (setof gear))\n(type row (array gear integer))\n(var now gear)\n(var n integer)\n(var t row)\n(proc p ((g gear)))\n{main}\n")
    };
    let cases: [(&str, &[&str]); 13] = [
        ("(main (if n (begin)))", &["This is an integer.", "a boolean, the test of `if`", "as `(> VALUE 0)`"]),
        (
            "(main (:= n (+ n true)))",
            &["`+` has an integer on its left and a boolean on its right.", "two integers, or two sets", "`(ord VALUE)`"],
        ),
        ("(main (:= n now))", &["This is a name of `gear`.", "an integer, as `n` holds it", "`(ord NAME)`"]),
        ("(main (:= n (at t 1)))", &["This is an integer.", "a name of `gear`, the index of `t`"]),
        ("(main (:= n (at n 1)))", &["`n` is an integer.", "a table, for `at`"]),
        ("(main (:= (dot t x) 1))", &["`t` is a table `row`.", "a record, for `dot`"]),
        ("(main (call p 1))", &["a name of `gear`, for the parameter `g`"]),
        ("(main (call p))", &["This call gives 0 values.", "1, for the parameters `g`"]),
        ("(main (case now (arm 1 (begin))))", &["a name of `gear`, as the `case` chooses by it"]),
        ("(main (for n 1 now (begin)))", &["an integer, as `n` counts"]),
        ("(main (raise true))", &["an integer, the number of the exception"]),
        ("(main (:= n (card n)))", &["`card` has an integer after it.", "a set"]),
        ("(main (:= n (ord (members gear slow))))", &["`gear` is the kind of a name of `gear`.", "a kind that a `setof` made"]),
    ];
    for (main, parts) in cases {
        refusals(&[(gears(main), parts)]);
    }
}

#[test]
fn broken_rules() {
    refusals(&[
        ("(type back (range 10 1))\n(main)\n", &["The range is reversed: 10 is above 1.", "1 to 10."]),
        ("(type t (range 1 true))\n(main)\n", &["The range starts with an integer and ends with a boolean."]),
        ("(main (raise (- #80000000)))\n", &["The negative of this number is 2147483648.", "-2147483648 to 2147483647"]),
        ("(main (raise 2147483648))\n", &["The number 2147483648 is too large.", "a number from 0 to 2147483647"]),
        ("(main (case 1 (arm 1 2 (begin)) (arm 2 (begin))))\n", &["The label 2 stands in this `case` already."]),
        ("(var i integer)\n(main (for i 1 2 (:= i 5)))\n", &["`i` is counted by the `for` around."]),
        (
            "(type r (record (a integer)))\n(proc p ((x r)))\n(main)\n",
            &["The parameter `x` is a record `r`.", "a number, a boolean, a name from a list, or a set"],
        ),
    ]);
}

#[test]
fn words_of_no_kind() {
    refusals(&[
        ("(main (raise -5))\n", &["`-5` has its sign stuck to the number.", "Write `(- 5)`."]),
        ("(var top-speed integer)\n(main)\n", &["has the sign `-`", "`top_speed` would be one."]),
        ("(var top__speed integer)\n(main)\n", &["has two underscores together", "`top_speed` would be one."]),
        ("(var 2nd integer)\n(main)\n", &["`2nd` starts with a digit."]),
        ("(main (raise 1.5))\n", &["a whole number"]),
        ("(main (if (== 1 1) (begin)))\n", &["`==` is no name, number or operator.", "Write `=`."]),
        ("(main (raise #123456789))\n", &["1 to 8 hexadecimal digits after `#`"]),
        ("(var a_name_of_more_than_thirty_one_signs integer)\n(main)\n", &["This name has 36 signs.", "at most 31 signs"]),
    ]);
}

#[test]
fn brackets_and_line_ends() {
    assert_eq!(
        said("check", "(main (begin (raise 5))\n"),
        "refused 4 1\n\
         Refusal 4 (bracket), line 1: This bracket is not closed.\n\
         \x20   (main (begin (raise 5))\n\
         \x20   ^\n\
         1 closing bracket is missing before the end of the line.\n"
    );
    refusals(&[
        (
            "(main (begin (raise 5)\n".to_string(),
            &["This bracket and 1 other before it are not closed.", "          ^\n", "2 closing brackets are missing"],
        ),
        ("(main\n  (raise 5))\n".to_string(), &["A form stays on one line: join this line with the next."]),
        ("(main)".to_string(), &["The last line has no line end.", "          ^\n", "Press Enter", "`drive tidy FILE`"]),
        ("(main))\n".to_string(), &["`)` stands after the end of the line's form."]),
        ("(main) stop\n".to_string(), &["`stop` stands after the end", "there are no comments"]),
        ("(main) (main)\n".to_string(), &["Put each form on a line of its own."]),
        ("; stop\n(main)\n".to_string(), &["The line starts with `;`.", "there are no comments"]),
        ("(var a integer)\n\n(main)\n".to_string(), &["refused 4 2\n", "This line is empty.", "`drive tidy FILE`"]),
        (format!("(main {}{})\n", "(begin ".repeat(32), ")".repeat(32)), &["the 33rd inside one another", "at most 32 brackets deep"]),
    ]);
}

#[test]
fn bytes_by_name() {
    let cases: [(&[u8], &[&str]); 6] = [
        (
            b"(main)\r\n",
            &["a carriage return, as in texts with Windows line ends", "    (main)?\n", "          ^\n", "`drive tidy FILE` mends this."],
        ),
        (b"(main\t(begin))\n", &["Here is a tab.", "`drive tidy FILE`"]),
        (b"\xef\xbb\xbf(main)\n", &["a byte order mark", "`drive tidy FILE`"]),
        (b"(main (raise \xe2\x80\x9c5))\n", &["a curly quote", "`drive tidy FILE`"]),
        (b"(var gr\xc3\xb6sse integer)\n(main)\n", &["the character U+00F6", "Remove it, or write it in plain letters."]),
        (b"(main\x1b[31m)\n", &["the control byte 27", "    (main?[31m)\n"]),
    ];
    refusals(&cases);
    let long = format!("(main{})\n", " ".repeat(32_800));
    refusals(&[(long, &["refused 2 0\nRefusal 2 (length): The text has 32807 bytes, 39 too many.\nExpected: at most 32768 bytes.\n"])]);
}

#[test]
fn tidy_mends_and_shows() {
    let path = file("tidy", b"\xef\xbb\xbf(var\ta integer)\r\n\r\n(main (:= a \xe2\x80\x9c5\xe2\x80\x9d))");
    assert!(drive(&["check", &path], "").1.starts_with("refused 3 1\n"));
    let (status, out, err) = drive(&["tidy", &path], "");
    assert_eq!((status, err.as_str()), (0, ""));
    for part in [
        "line 1: removed a byte order mark",
        "line 1: put a space in place of a tab",
        "lines 1, 2 (2 times): ended the line plainly",
        "line 2: removed an empty line",
        "line 3 (2 times): removed a curly quote",
        "line 3: ended the last line",
    ] {
        assert!(out.contains(part), "{part}: {out}");
    }
    assert_eq!(std::fs::read_to_string(&path).unwrap(), "(var a integer)\n(main (:= a 5))\n");
    assert_eq!(drive(&["tidy", &path], ""), (0, "nothing to mend\n".to_string(), String::new()));
    assert!(drive(&["check", &path], "").1.starts_with("accepted\n"));
    let (status, out, err) = drive(&["tidy", "-"], "(main)\r\n");
    assert_eq!((status, out.as_str()), (0, "(main)\n"));
    assert!(err.contains("line 1: ended"), "{err}");
    let (status, out, err) = drive(&["tidy", "-"], "(var \u{e9} integer)\n");
    assert_eq!((status, out.as_str()), (1, "(var \u{e9} integer)\n"));
    assert!(err.contains("U+00E9") && err.contains("left for you"), "{err}");
}

#[test]
fn ceilings_and_by_how_much() {
    let lines = |count: usize, line: fn(usize) -> String| (0..count).map(line).collect::<String>();
    let names = |count: usize| (0..count).map(|i| format!(" n{i}")).collect::<String>();
    let pairs = |count: usize| (0..count).map(|i| format!(" (n{i} integer)")).collect::<String>();
    let cases: [(String, &str); 11] = [
        (lines(65, |i| format!("(type t{i} integer)\n")) + "(main)\n", "These are 65 `type` lines, 1 too many.\n"),
        (lines(129, |i| format!("(var v{i} integer)\n")) + "(main)\n", "These are 129 variables and parameters in all, 1 too many.\n"),
        (lines(33, |i| format!("(proc p{i})\n")) + "(main)\n", "These are 33 `proc` lines, 1 too many.\n"),
        (format!("(type e (enum{}))\n(main)\n", names(260)), "These are 260 names in a list, 4 too many.\n"),
        (format!("(type r (record{}))\n(main)\n", pairs(17)), "These are 17 parts of a record, 1 too many.\n"),
        (format!("(proc p ({}))\n(main)\n", pairs(9)), "These are 9 parameters of one procedure, 1 too many.\n"),
        ("(type i (range 1 300))\n(type a (array i integer))\n(main)\n".to_string(), "These are 300 values of an index, 44 too many.\n"),
        (
            "(type i (range 1 100))\n(type a (array i integer))\n(type b (array i a))\n(main)\n".to_string(),
            "These are 10000 cells in one kind, 7952 too many.\n",
        ),
        (
            "(type i (range 1 250))\n(type a (array i integer))\n".to_string() + &lines(9, |i| format!("(var v{i} a)\n")) + "(main)\n",
            "These are 2250 cells of all variables and parameters, 202 too many.\n",
        ),
        ("(type b (range 0 63))\n(type s (setof b))\n(main)\n".to_string(), "`b` has the values 0 to 63.\n"),
        (format!("(main{})\n", " (begin)".repeat(2_060)), "These are 4122 brackets and words up to the end of this line, 26 too many.\n"),
    ];
    for (script, part) in cases {
        let out = said("check", script);
        assert!(out.starts_with("refused 9 ") && out.contains(part) && out.contains("Expected: "), "{out}");
    }
}
