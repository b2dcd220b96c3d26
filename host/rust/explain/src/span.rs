//! Places in a text, and a line of it as a person sees it.

/// The bytes from `start` up to, not with, `end`.
#[derive(Clone, Copy, Debug, PartialEq, Eq, Hash)]
pub struct Span {
    pub start: usize,
    pub end: usize,
}

/// Bytes of a line that are shown at most; a longer one is clipped around the fault.
const WIDTH: usize = 100;

/// Bytes of a word or a form that a sentence quotes at most.
const QUOTED: usize = 48;

impl Span {
    pub fn new(start: usize, end: usize) -> Span {
        Span { start, end }
    }

    /// Its bytes in a text, as far as they are there.
    pub fn bytes(self, text: &[u8]) -> &[u8] {
        let end = self.end.min(text.len());
        &text[self.start.min(end)..end]
    }

    /// The same for a message: nothing that a terminal would act on, and the start alone of what is long.
    pub fn shown(self, text: &[u8]) -> String {
        match self.bytes(text) {
            long if long.len() > QUOTED => printable(&long[..QUOTED]) + "..",
            bytes => printable(bytes),
        }
    }
}

/// Bytes as signs that a terminal only prints: each byte that is no plain character becomes `?`.
pub fn printable(bytes: &[u8]) -> String {
    bytes.iter().map(|&b| if matches!(b, b' '..=b'~') { b as char } else { '?' }).collect()
}

/// The number of the line in which an offset lies, from 1.
pub fn line_of(text: &[u8], offset: usize) -> usize {
    1 + text.iter().take(offset).filter(|&&b| b == b'\n').count()
}

/// The bytes of the line around an offset, without its line feed.
fn line_at(text: &[u8], offset: usize) -> Span {
    let offset = offset.min(text.len());
    let start = text[..offset].iter().rposition(|&b| b == b'\n').map_or(0, |at| at + 1);
    let end = text[offset..].iter().position(|&b| b == b'\n').map_or(text.len(), |at| offset + at);
    Span { start, end }
}

/// The line of a span, clipped around it, and carets under it.
pub fn clip(text: &[u8], span: Span) -> [String; 2] {
    clip_within(text, line_at(text, span.start), span)
}

/// The same of a part of a line that holds the span.
pub fn clip_within(text: &[u8], frame: Span, span: Span) -> [String; 2] {
    let line = line_at(text, frame.start);
    let (start, end) = (frame.start, frame.end.min(line.end));
    let length = end - start;
    let from = span.start.clamp(start, end) - start;
    let to = span.end.clamp(start + from, end) - start;
    let left = if length <= WIDTH { 0 } else { from.saturating_sub(WIDTH.saturating_sub(to - from) / 2).min(length - WIDTH) };
    let right = length.min(left + WIDTH);
    let dots = |cut: bool| if cut { ".." } else { "" };
    let (before, after) = (dots(start + left > line.start), dots(start + right < line.end));
    let shown = printable(&text[start + left..start + right]);
    let carets = to.min(right).saturating_sub(from).max(1);
    [format!("    {before}{shown}{after}"), format!("    {}{}", " ".repeat(before.len() + from - left), "^".repeat(carets))]
}

#[cfg(test)]
mod tests {
    use super::*;

    #[test]
    fn short_lines_are_shown_whole() {
        let text = b"(var a integer)\n(main (:= b 1))\n";
        assert_eq!(clip(text, Span::new(26, 27)), ["    (main (:= b 1))", "              ^"]);
        assert_eq!(clip(text, Span::new(text.len(), text.len())), ["    ", "    ^"]);
        assert_eq!(line_of(text, 26), 2);
    }

    #[test]
    fn long_lines_are_clipped_around_the_fault() {
        let text = format!("{}WRONG{}\n", "a ".repeat(100), " b".repeat(100));
        let [line, carets] = clip(text.as_bytes(), Span::new(200, 205));
        assert!(line.starts_with("    .. a") && line.ends_with("b..") && line.len() == WIDTH + 8, "{line}");
        assert_eq!(&line[carets.find('^').unwrap()..][..5], "WRONG");
        assert_eq!(carets.trim(), "^^^^^");
        let [line, carets] = clip(text.as_bytes(), Span::new(0, 400));
        assert!(line.starts_with("    a") && carets.trim().len() == WIDTH);
        assert_eq!(clip_within(text.as_bytes(), Span::new(198, 207), Span::new(200, 205)), ["    ..a WRONG b..", "        ^^^^^"]);
    }

    #[test]
    fn control_bytes_are_not_shown_raw() {
        let text = b"(main\x1b[31m)\x07\xff\n";
        assert_eq!(clip(text, Span::new(5, 6))[0], "    (main?[31m)??");
        assert_eq!(Span::new(4, 99).shown(text), "n?[31m)???");
        assert_eq!(Span::new(0, 90).shown(&[b'a'; 90]), "a".repeat(QUOTED) + "..");
    }
}
