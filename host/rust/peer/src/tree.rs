//! A line as a tree of brackets and words (rows 4 and 5).

use crate::bytes::Line;
use crate::word::{self, Word};

const DEPTH: usize = 32;

#[derive(Clone, Debug)]
pub enum Tree {
    Word(Word),
    List(Vec<Tree>),
}

/// One balanced form, with its count of brackets and words.
pub struct Form {
    pub tree: Tree,
    pub nodes: usize,
    /// A word of no kind stands in it.
    pub bad_word: bool,
}

/// Brackets and longest runs of other visible bytes.
fn tokens(bytes: &[u8]) -> impl Iterator<Item = &[u8]> {
    let breaks = |byte: &u8| matches!(byte, b' ' | b'(' | b')');
    let pieces = bytes.chunk_by(move |left, right| !breaks(left) && !breaks(right));
    pieces.filter(|piece| *piece != b" ")
}

/// Reads a line; none if it is not one balanced form, too deep, or has no line feed at its end.
pub fn form(line: &Line) -> Option<Form> {
    let mut open: Vec<Vec<Tree>> = Vec::new();
    let mut form = None;
    let (mut nodes, mut bad_word) = (0, false);
    for token in tokens(line.bytes) {
        // Nothing may stand after the form.
        if form.is_some() {
            return None;
        }
        match token {
            b"(" if open.len() == DEPTH => return None,
            b"(" => open.push(Vec::new()),
            b")" => {
                let list = Tree::List(open.pop()?);
                nodes += 1;
                match open.last_mut() {
                    Some(outer) => outer.push(list),
                    None => form = Some(list),
                }
            }
            _ => {
                let word = word::read(token);
                bad_word |= word == Word::Bad;
                nodes += 1;
                open.last_mut()?.push(Tree::Word(word));
            }
        }
    }
    let tree = form.filter(|_| line.ended)?;
    Some(Form { tree, nodes, bad_word })
}
