//! Words: the table of reserved words and operators, names, numbers (row 5).

use crate::fault::Fault;
use crate::near::nearest;
use crate::span::{printable, Span};

/// What the words of the table are for.
#[derive(Clone, Copy, Debug, PartialEq, Eq)]
pub enum Role {
    /// Starts a line.
    Line,
    /// Starts the form of a type.
    Type,
    /// Starts a statement.
    Statement,
    /// Starts a part of a statement or body that is no statement.
    Part,
    /// Starts a place in a variable.
    Target,
    /// Starts a value of other values.
    Function,
    /// Starts a value of two others.
    Operator,
    /// The name of a type.
    TypeName,
    /// A value.
    Value,
}

/// The one table of words, by what they are for. `-` is an operator and a function.
pub const TABLE: [(Role, &[&str]); 9] = [
    (Role::Line, &["type", "var", "proc", "main"]),
    (Role::Type, &["enum", "range", "array", "record", "setof"]),
    (Role::Statement, &[":=", "begin", "if", "while", "for", "case", "call", "raise"]),
    (Role::Part, &["exception", "arm", "else"]),
    (Role::Target, &["at", "dot"]),
    (Role::Function, &["members", "first", "last", "not", "abs", "sqr", "odd", "ord", "pred", "succ", "card", "setmin", "setmax"]),
    (Role::Operator, &["+", "-", "*", "**", "=", "<>", "<", "<=", ">", ">=", "div", "mod", "in", "and", "or", "and_then", "or_else"]),
    (Role::TypeName, &["integer", "boolean"]),
    (Role::Value, &["true", "false", "error_number"]),
];

/// Signs in the longest name.
pub const NAME_MOST: usize = 31;

#[derive(Clone, Debug, PartialEq, Eq)]
pub enum Word {
    /// A reserved word or an operator.
    Fixed(Role, &'static str),
    /// In small letters: case is ignored.
    Name(String),
    Number(i64),
    /// A word of no kind.
    Bad,
}

/// All words of the table, with their roles.
pub fn table() -> impl Iterator<Item = (Role, &'static str)> {
    TABLE.iter().flat_map(|(role, words)| words.iter().map(move |word| (*role, *word)))
}

/// The words of some roles.
pub fn words_of(roles: &'static [Role]) -> impl Iterator<Item = &'static str> {
    table().filter(move |(role, _)| roles.contains(role)).map(|(_, word)| word)
}

/// The kind of a longest run of visible bytes other than brackets.
pub fn read(bytes: &[u8]) -> Word {
    let text = printable(bytes).to_ascii_lowercase();
    if let Some((role, word)) = table().find(|(_, word)| *word == text) {
        return Word::Fixed(role, word);
    }
    if is_name(text.as_bytes()) {
        return Word::Name(text);
    }
    number(&text).map_or(Word::Bad, Word::Number)
}

/// Letters, digits, single underscores between them, a letter first.
fn is_name(text: &[u8]) -> bool {
    let plain = |b: &u8| b.is_ascii_alphanumeric();
    text.len() <= NAME_MOST
        && text.first().map_or(false, u8::is_ascii_alphabetic)
        && text.last().map_or(false, plain)
        && text.iter().all(|b| plain(b) || *b == b'_')
        && !text.windows(2).any(|pair| pair == b"__")
}

fn number(text: &str) -> Option<i64> {
    if let Some(digits) = text.strip_prefix('#') {
        let fits = (1..=8).contains(&digits.len()) && digits.bytes().all(|b| b.is_ascii_hexdigit());
        let value = u32::from_str_radix(digits, 16).ok().filter(|_| fits)?;
        return Some(i64::from(value as i32));
    }
    if text.is_empty() || !text.bytes().all(|b| b.is_ascii_digit()) {
        return None;
    }
    let digits = text.trim_start_matches('0');
    if digits.is_empty() {
        return Some(0);
    }
    digits.parse().ok().filter(|value| *value <= i64::from(i32::MAX))
}

/// Signs that other languages use, and what is written here.
const ELSEWHERE: [(&str, &str); 14] = [
    ("==", "="),
    ("!=", "<>"),
    ("/=", "<>"),
    ("=>", ">="),
    ("=<", "<="),
    ("<-", ":="),
    ("=:", ":="),
    (":", ":="),
    ("/", "div"),
    ("%", "mod"),
    ("^", "**"),
    ("&&", "and"),
    ("||", "or"),
    ("!", "not"),
];

/// What is wrong with a word of no kind.
pub fn fault(text: &[u8], span: Span) -> Fault {
    let word = printable(span.bytes(text));
    let shown = span.shown(text);
    let fault = |found: String| Fault::new(5, span, found);
    let none = || fault(format!("`{shown}` is no name, number or operator."));
    if let Some((_, here)) = ELSEWHERE.iter().find(|(sign, _)| *sign == word) {
        return none().hint(format!("Write `{here}`."));
    }
    let digits = |text: &str| !text.is_empty() && text.bytes().all(|b| b.is_ascii_digit());
    if digits(&word) {
        return fault(format!("The number {shown} is too large.")).expected("a number from 0 to 2147483647");
    }
    if word.strip_prefix(|sign| sign == '-' || sign == '+').map_or(false, digits) {
        let size = &shown[1..];
        let here = if word.starts_with('-') { format!("(- {size})") } else { size.to_string() };
        return fault(format!("`{shown}` has its sign stuck to the number.")).hint(format!("Write `{here}`."));
    }
    if word.starts_with('#') {
        return none().expected("1 to 8 hexadecimal digits after `#`");
    }
    if let Some((low, high)) = word.split_once("..").filter(|(low, high)| digits(low) && digits(high)) {
        return none().hint(format!("Write the two bounds as two words: `(range {low} {high})`."));
    }
    if word.bytes().all(|b| b.is_ascii_digit() || matches!(b, b'.' | b',')) {
        return none().expected("a whole number");
    }
    misspelt(span, &word, &shown)
}

/// A word that was meant to be a name, or one of the table's.
fn misspelt(span: Span, word: &str, shown: &str) -> Fault {
    let fault = |found: String| Fault::new(5, span, found);
    let plain: String = word.chars().map(|c| if c.is_ascii_alphanumeric() { c } else { '_' }).collect();
    let parts: Vec<&str> = plain.split('_').filter(|part| !part.is_empty()).collect();
    let mended = parts.join("_");
    if mended.len() > NAME_MOST && word.bytes().all(|b| b.is_ascii_alphanumeric() || b == b'_') {
        return fault(format!("This name has {} signs.", word.len())).expected(format!("at most {NAME_MOST} signs"));
    }
    let odd = word.chars().find(|c| !c.is_ascii_alphanumeric() && *c != '_');
    let found = match odd {
        Some(sign) => format!("`{shown}` has the sign `{sign}`, which no name has."),
        None if word.contains("__") => format!("`{shown}` has two underscores together."),
        None if word.starts_with(|c: char| c.is_ascii_digit()) => format!("`{shown}` starts with a digit."),
        None => format!("`{shown}` starts or ends with an underscore."),
    };
    let fault = fault(found).expected("a name: letters, digits and single underscores between them, a letter first");
    match (nearest(&mended, table().map(|(_, word)| word)), is_name(mended.to_ascii_lowercase().as_bytes())) {
        (Some(known), _) if known.len() > 1 && odd.is_some() => fault.hint(format!("Did you mean `{known}`?")),
        (_, true) => fault.hint(format!("`{mended}` would be one.")),
        _ => fault,
    }
}
