//! The words of the tables of document 01, and general remedies.

use crate::fault::count;

/// The word of a refusal.
pub fn refusal(number: u32) -> &'static str {
    match number {
        1 => "bench",
        2 => "length",
        3 => "byte",
        4 => "bracket",
        5 => "word",
        6 => "form",
        7 => "name",
        8 => "type",
        9 => "limit",
        10 => "store",
        _ => "cell",
    }
}

/// What is said of an accepted text.
pub fn accepted(cells: usize) -> String {
    format!("The script may be loaded; it has {}.", count(cells, "cell"))
}

/// The name of an exception; the script's own have none.
pub fn exception(number: i64) -> Option<&'static str> {
    match number {
        -101 => Some("Numeric_Error"),
        -102 => Some("System_Error"),
        -103 => Some("Range_Error"),
        -104 => Some("Undefined_Error"),
        -105 => Some("Case_Error"),
        _ => None,
    }
}

/// What to do about a refusal, where nothing more is known of it.
pub fn remedy(number: u32) -> &'static str {
    match number {
        1 => "Lend a working list of 16,384 numbers.",
        2 => "Shorten the script to at most 32,768 bytes.",
        3 => "Remove each byte that is no plain letter, digit, sign, bracket, space or line end; a tab, an accent and a carriage return are such.",
        4 => "Make the line one form in matching brackets, at most 32 deep, and end it with a line feed.",
        5 => "Correct the word that is no name of at most 31 letters, digits and single underscores, no number up to 2147483647, and no operator.",
        6 => "Write the line as one of the forms, each with the parts that it takes; `main` stands once, as the last line.",
        7 => "Declare the name on an earlier line, spell it as it is declared, use it as what it is, or choose one that is not taken.",
        8 => "Make the kinds fit: the value to its variable or parameter, both sides to the operator, a condition boolean; a call gives a value for each parameter, which is no array or record; a range must not be reversed, a label not repeated, a loop's variable not assigned.",
        9 => "Make the script smaller: it passes one of the ceilings on types, variables, procedures, their parameters, words, cells, index or set values.",
        10 => "Lend a store with exactly as many cells as the script has, or start anew, with nothing stored.",
        _ => "Correct this cell in the store, or start anew, with nothing stored.",
    }
}

/// What to do about an exception.
pub fn cure(number: i64) -> &'static str {
    match number {
        -101 => "Test the value with `if` first, or keep the numbers small.",
        -102 => "Use `(raise 0)` only after an exception has come, as in a handler.",
        -103 => "Limit the value with `if` first, or widen the range.",
        -104 => "Give it a value before it is read: put it into the store, or store it at the top of `main`; a loop's variable has none after the loop.",
        -105 => "Add an arm for this value, or an `(else ..)`.",
        _ => "Handle it by an `(exception ..)`, or see why the script raises it.",
    }
}
