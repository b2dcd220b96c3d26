//! The text as bytes: its length, its refused bytes and what they are, its lines (rows 2 and 3).

use crate::fault::{count, Fault};
use crate::span::Span;

pub const TEXT: usize = 32_768;

/// Bytes up to which a text's length is told; a caller need not read more of it.
pub const HUGE: usize = 1 << 20;

/// A character that no script may have, as it came into the text.
pub struct Odd {
    pub span: Span,
    pub what: String,
    /// What `tidy` puts in its place; nothing where only the writer knows.
    pub mend: Option<&'static [u8]>,
}

/// Row 2.
pub fn too_long(text: &[u8]) -> Option<Fault> {
    let over = text.len().checked_sub(TEXT + 1)? + 1;
    let found = match text.len() {
        length if length > HUGE => format!("The text has more than {HUGE} bytes."),
        length => format!("The text has {length} bytes, {over} too many."),
    };
    let hint = "Shorten names, and put repeated work into a `proc`.";
    Some(Fault::new(2, Span::new(TEXT, text.len()), found).expected(format!("at most {TEXT} bytes")).hint(hint))
}

/// Row 3, at the first refused byte.
pub fn refused_byte(text: &[u8]) -> Option<Fault> {
    let at = text.iter().position(|&b| !allowed(b))?;
    let odd = odd_at(text, at);
    let fault = Fault::new(3, odd.span, format!("Here is {}.", odd.what)).expected("plain letters, digits, signs, spaces and line ends");
    Some(match odd.mend {
        Some(_) => fault.hint("`drive tidy FILE` mends this."),
        None => fault.hint("Remove it, or write it in plain letters."),
    })
}

pub fn allowed(byte: u8) -> bool {
    matches!(byte, b'\n' | b' '..=b'~')
}

/// The refused byte at an offset with those that belong to it.
pub fn odd_at(text: &[u8], at: usize) -> Odd {
    let longest = (1..=4).filter_map(|length| text.get(at..at + length));
    let sign = longest.filter_map(|bytes| std::str::from_utf8(bytes).ok()).find_map(|word| word.chars().next());
    let (what, mend) = match sign {
        Some(sign) => character(sign),
        None if text[at] >= 0xfe => ("a byte of a text that was saved as UTF-16; save it as plain text".to_string(), None),
        None => (format!("the byte {}, which is no character", text[at]), None),
    };
    let mut end = at + sign.map_or(1, char::len_utf8);
    if sign == Some('\r') && text.get(end) == Some(&b'\n') {
        end += 1;
    }
    Odd { span: Span::new(at, end), what, mend }
}

fn character(sign: char) -> (String, Option<&'static [u8]>) {
    let (what, mend): (&str, &'static [u8]) = match sign {
        '\r' => ("a carriage return, as in texts with Windows line ends", b"\n"),
        '\t' => ("a tab", b" "),
        '\u{feff}' => ("a byte order mark, which some editors write unseen", b""),
        '\u{2018}' | '\u{2019}' | '\u{201c}' | '\u{201d}' => ("a curly quote", b""),
        '\u{a0}' | '\u{202f}' => ("a space of fixed width", b" "),
        '\u{2010}'..='\u{2015}' | '\u{2212}' => ("a long dash", b"-"),
        '\0' => return ("a zero byte: the text was not saved as plain text".to_string(), None),
        _ if (sign as u32) < 32 || sign as u32 == 127 => return (format!("the control byte {}", sign as u32), None),
        _ => return (format!("the character U+{:04X}, which is no plain letter or sign", sign as u32), None),
    };
    (what.to_string(), Some(mend))
}

/// One line: where it is, without its line feed.
#[derive(Clone, Copy, Debug)]
pub struct Line {
    pub number: usize,
    pub span: Span,
    pub ended: bool,
}

/// The lines of a text. The rest after the last line feed is a line if it is not empty.
pub fn lines(text: &[u8]) -> Vec<Line> {
    let mut start = 0;
    let mut lines = Vec::new();
    for piece in text.split_inclusive(|&b| b == b'\n') {
        let ended = piece.ends_with(b"\n");
        let end = start + piece.len() - usize::from(ended);
        lines.push(Line { number: lines.len() + 1, span: Span::new(start, end), ended });
        start += piece.len();
    }
    lines
}

/// A text that was mended, and what was done to it.
pub struct Tidied {
    pub text: Vec<u8>,
    /// What was done, a sentence for each sort of change.
    pub changes: Vec<String>,
    /// What is still refused and only the writer can mend.
    pub left: Vec<String>,
}

/// Mends what a person cannot see in a text: Windows line ends, tabs, byte order marks, curly quotes, long dashes, spaces of fixed
/// width, empty lines, and a last line without its end.
pub fn tidy(text: &[u8]) -> Tidied {
    let mut log = Log::default();
    let mut mended = Vec::new();
    let (mut at, mut line) = (0, 1);
    while at < text.len() {
        let mut end = at + 1;
        if allowed(text[at]) {
            mended.push(text[at]);
        } else {
            let odd = odd_at(text, at);
            end = odd.span.end;
            mended.extend_from_slice(odd.mend.unwrap_or(&text[at..end]));
            log.note(odd.mend.is_some(), done(&odd), line);
        }
        line += text[at..end].iter().filter(|&&b| b == b'\n').count();
        at = end;
    }
    let text = without_empty_lines(&mended, &mut log);
    Tidied { text, changes: log.sentences(true), left: log.sentences(false) }
}

fn done(odd: &Odd) -> String {
    match odd.mend {
        None => odd.what.clone(),
        Some(b"") => format!("removed {}", odd.what),
        Some(b"\n") => format!("ended the line plainly in place of {}", odd.what),
        Some(b" ") => format!("put a space in place of {}", odd.what),
        Some(_) => format!("put `-` in place of {}", odd.what),
    }
}

/// The lines that are not empty, each with its end.
fn without_empty_lines(text: &[u8], log: &mut Log) -> Vec<u8> {
    let mut kept = Vec::new();
    for line in lines(text) {
        let bytes = &text[line.span.start..line.span.end];
        if bytes.iter().all(|&b| b == b' ') {
            log.note(true, "removed an empty line".to_string(), line.number);
            continue;
        }
        kept.extend_from_slice(bytes);
        kept.push(b'\n');
        if !line.ended {
            log.note(true, "ended the last line".to_string(), line.number);
        }
    }
    kept
}

/// What was done or left, with the lines where it was, in the order in which it was met.
#[derive(Default)]
struct Log {
    notes: Vec<(bool, String, Vec<usize>)>,
}

/// Lines that a sentence names; of more it only gives the count.
const NAMED: usize = 8;

impl Log {
    fn note(&mut self, done: bool, what: String, line: usize) {
        match self.notes.iter_mut().find(|(_, same, _)| *same == what) {
            Some((_, _, lines)) => lines.push(line),
            None => self.notes.push((done, what, vec![line])),
        }
    }

    fn sentences(&self, done: bool) -> Vec<String> {
        let notes = self.notes.iter().filter(|(was, _, _)| *was == done);
        notes.map(|(_, what, lines)| format!("{}: {what}", places(lines))).collect()
    }
}

fn places(lines: &[usize]) -> String {
    let mut distinct = lines.to_vec();
    distinct.dedup();
    let named: Vec<String> = distinct.iter().take(NAMED).map(usize::to_string).collect();
    let more = if distinct.len() > NAMED { " .." } else { "" };
    let times = if lines.len() > 1 { format!(" ({})", count(lines.len(), "time")) } else { String::new() };
    format!("line{} {}{more}{times}", if distinct.len() == 1 { "" } else { "s" }, named.join(", "))
}

#[cfg(test)]
mod tests {
    use super::*;

    #[test]
    fn bytes_are_told_by_name() {
        let told = |text: &[u8]| refused_byte(text).map(|fault| (fault.found, fault.span, fault.hint.contains("tidy")));
        let cases: [(&[u8], &str, usize, bool); 9] = [
            (b"(main)\r\n", "carriage return", 2, true),
            (b"(main\t)\n", "a tab", 1, true),
            (b"\xef\xbb\xbf(main)\n", "byte order mark", 3, true),
            (b"(raise \xe2\x80\x9c)\n", "curly quote", 3, true),
            (b"(a\xc2\xa0b)\n", "space of fixed width", 2, true),
            (b"(- \xe2\x80\x93 5)\n", "long dash", 3, true),
            (b"\xc3\xa9\n", "U+00E9", 2, false),
            (b"\x1b[0m\n", "control byte 27", 1, false),
            (b"\xff\xfe(\0", "UTF-16", 1, false),
        ];
        for (text, part, length, tidies) in cases {
            let (found, span, hint) = told(text).unwrap();
            assert!(found.contains(part), "{found}");
            assert_eq!((span.end - span.start, hint), (length, tidies), "{found}");
        }
        assert_eq!(told(b"(main)\n"), None);
    }

    #[test]
    fn tidy_mends_and_tells() {
        let tidied = tidy(b"\xef\xbb\xbf(var\ta integer)\r\n\r\n(main (:= a \xe2\x80\x98 \xe2\x88\x925))");
        assert_eq!(tidied.text, b"(var a integer)\n(main (:= a  -5))\n");
        assert_eq!(tidied.left, Vec::<String>::new());
        let told = tidied.changes.join("\n");
        for part in [
            "line 1: removed a byte order mark",
            "line 1: put a space",
            "lines 1, 2 (2 times): ended",
            "line 3: removed a curly",
            "put `-`",
            "an empty line",
            "ended the last line",
        ] {
            assert!(told.contains(part), "{part}: {told}");
        }
        assert_eq!(tidy(&tidied.text).changes, Vec::<String>::new());
        let accent = tidy(b"(var gr\xc3\xb6\xc3\x9fe integer)\n");
        assert_eq!((accent.changes.len(), accent.left.len()), (0, 2));
        assert_eq!(accent.text, b"(var gr\xc3\xb6\xc3\x9fe integer)\n");
    }
}
