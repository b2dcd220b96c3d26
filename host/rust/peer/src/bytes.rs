//! The text as bytes: its length, its refused bytes, its lines (rows 1 to 3).

use crate::answer::Refusal;

pub const WORK: usize = 16_384;
pub const TEXT: usize = 32_768;

/// Rows 1 to 3, in this order.
pub fn plain(text: &[u8], work_len: usize) -> Result<(), Refusal> {
    if work_len < WORK {
        return Err(Refusal { number: 1, line: 0 });
    }
    if text.len() > TEXT {
        return Err(Refusal { number: 2, line: 0 });
    }
    let mut line = 1;
    for &byte in text {
        match byte {
            b'\n' => line += 1,
            b' '..=b'~' => {}
            _ => return Err(Refusal { number: 3, line }),
        }
    }
    Ok(())
}

/// One line, without its line feed.
pub struct Line<'a> {
    pub bytes: &'a [u8],
    pub ended: bool,
}

/// The lines of a text. The rest after the last line feed is a line if it is not empty (R12).
pub fn lines(text: &[u8]) -> impl Iterator<Item = Line<'_>> {
    text.split_inclusive(|&b| b == b'\n').map(|piece| match piece.strip_suffix(b"\n") {
        Some(bytes) => Line { bytes, ended: true },
        None => Line { bytes: piece, ended: false },
    })
}
