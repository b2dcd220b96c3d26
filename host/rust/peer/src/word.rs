//! Words: reserved words, operators, names, numbers (row 5).

/// All reserved words of document 01, in small letters.
pub const RESERVED: [&str; 46] = [
    "type", "var", "proc", "main", "exception", "enum", "range", "array", "record", "setof",
    "begin", "if", "while", "for", "case", "arm", "else", "call", "raise", "at", "dot", "members",
    "not", "abs", "sqr", "odd", "ord", "pred", "succ", "card", "setmin", "setmax", "first", "last",
    "div", "mod", "in", "and", "or", "and_then", "or_else", "integer", "boolean", "true", "false",
    "error_number",
];

pub const OPERATORS: [&str; 11] = [":=", "+", "-", "*", "**", "=", "<>", "<", "<=", ">", ">="];

const NAME: usize = 31;

#[derive(Clone, Debug, PartialEq, Eq)]
pub enum Word {
    Reserved(&'static str),
    Operator(&'static str),
    /// In small letters: case is ignored.
    Name(String),
    Number(i64),
    /// A word of no kind.
    Bad,
}

/// The kind of a longest run of visible bytes other than brackets.
pub fn read(bytes: &[u8]) -> Word {
    let text = String::from_utf8_lossy(bytes).to_ascii_lowercase();
    if let Some(word) = RESERVED.iter().find(|w| **w == text) {
        return Word::Reserved(word);
    }
    if let Some(word) = OPERATORS.iter().find(|w| **w == text) {
        return Word::Operator(word);
    }
    if is_name(text.as_bytes()) {
        return Word::Name(text);
    }
    match number(&text) {
        Some(value) => Word::Number(value),
        None => Word::Bad,
    }
}

/// Letters, digits, single underscores between them, a letter first.
fn is_name(text: &[u8]) -> bool {
    let plain = |b: u8| b.is_ascii_alphanumeric();
    text.len() <= NAME
        && text.first().is_some_and(u8::is_ascii_alphabetic)
        && text.last().is_some_and(|b| plain(*b))
        && text.iter().all(|&b| plain(b) || b == b'_')
        && !text.windows(2).any(|pair| pair == b"__")
}

fn number(text: &str) -> Option<i64> {
    match text.strip_prefix('#') {
        Some(digits) => hexadecimal(digits),
        None => decimal(text),
    }
}

/// Any count of leading zeros is fine: the value decides (R28).
fn decimal(text: &str) -> Option<i64> {
    if text.is_empty() || !text.bytes().all(|b| b.is_ascii_digit()) {
        return None;
    }
    let digits = text.trim_start_matches('0');
    if digits.is_empty() {
        return Some(0);
    }
    digits.parse().ok().filter(|v| *v <= i64::from(i32::MAX))
}

/// One to eight digits; with the top bit set, the value less 4294967296.
fn hexadecimal(digits: &str) -> Option<i64> {
    if !(1..=8).contains(&digits.len()) || !digits.bytes().all(|b| b.is_ascii_hexdigit()) {
        return None;
    }
    let value = u32::from_str_radix(digits, 16).ok()?;
    Some(i64::from(value as i32))
}
