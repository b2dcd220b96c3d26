//! A line as a tree of brackets and words with their places (rows 4 and 5).

use crate::bytes::Line;
use crate::fault::{count, Fault};
use crate::span::Span;
use crate::word::{self, Word};

const DEPTH: usize = 32;

#[derive(Clone, Debug)]
pub enum Tree {
    Word(Word, Span),
    List(Vec<Tree>, Span),
}

impl Tree {
    pub fn span(&self) -> Span {
        match self {
            Tree::Word(_, span) | Tree::List(_, span) => *span,
        }
    }
}

/// One balanced form, with its count of brackets and words.
pub struct Form {
    pub tree: Tree,
    pub nodes: usize,
    /// The first word of no kind.
    pub bad: Option<Span>,
}

/// Brackets and longest runs of other visible bytes.
pub fn tokens(text: &[u8], line: Span) -> Vec<Span> {
    let breaks = |byte: u8| matches!(byte, b' ' | b'(' | b')');
    let mut tokens: Vec<Span> = Vec::new();
    let mut at = line.start;
    while at < line.end {
        let length = match text[at] {
            byte if breaks(byte) => 1,
            _ => text[at..line.end].iter().take_while(|&&b| !breaks(b)).count(),
        };
        if text[at] != b' ' {
            tokens.push(Span::new(at, at + length));
        }
        at += length;
    }
    tokens
}

/// A list that is not closed yet: its bracket's place and its parts.
type Open = (usize, Vec<Tree>);

/// Reads a line, or tells why it is not one balanced form.
pub fn form(text: &[u8], line: &Line) -> Result<Form, Fault> {
    let mut open: Vec<Open> = Vec::new();
    let mut tree: Option<Tree> = None;
    let (mut nodes, mut bad) = (0, None);
    for token in tokens(text, line.span) {
        if tree.is_some() {
            return Err(after_the_form(text, token));
        }
        match &text[token.start..token.end] {
            b"(" if open.len() == DEPTH => return Err(too_deep(token)),
            b"(" => open.push((token.start, Vec::new())),
            b")" => {
                let (start, parts) = open.pop().ok_or_else(|| no_bracket(text, token))?;
                nodes += 1;
                let list = Tree::List(parts, Span::new(start, token.end));
                match open.last_mut() {
                    Some((_, outer)) => outer.push(list),
                    None => tree = Some(list),
                }
            }
            bytes => {
                let word = word::read(bytes);
                bad = bad.or_else(|| Some(token).filter(|_| word == Word::Bad));
                nodes += 1;
                let (_, parts) = open.last_mut().ok_or_else(|| no_bracket(text, token))?;
                parts.push(Tree::Word(word, token));
            }
        }
    }
    match tree {
        Some(tree) if line.ended => Ok(Form { tree, nodes, bad }),
        Some(_) => Err(no_line_end(line)),
        None => Err(unclosed(text, line, &open)),
    }
}

fn after_the_form(text: &[u8], token: Span) -> Fault {
    let what = token.shown(text);
    let fault = Fault::new(4, token, format!("`{what}` stands after the end of the line's form."));
    match what.as_str() {
        ")" => fault.hint("Remove this bracket, or one before it that closes too early."),
        "(" => fault.hint("Put each form on a line of its own."),
        _ => fault.hint("Remove it; there are no comments."),
    }
}

fn too_deep(token: Span) -> Fault {
    let found = format!("This bracket is the {}rd inside one another.", DEPTH + 1);
    Fault::new(4, token, found).expected(format!("at most {DEPTH} brackets deep")).hint("Put the inner part into a `proc` and call it.")
}

/// What stands where the line's first bracket belongs.
fn no_bracket(text: &[u8], token: Span) -> Fault {
    let what = token.shown(text);
    let fault = Fault::new(4, token, format!("The line starts with `{what}`.")).expected("an opening bracket `(`");
    let comment = ["//", ";", "{", "#", "--", "%"].iter().any(|sign| what.starts_with(sign));
    match what.as_str() {
        ")" => fault.hint("Remove this bracket, or write the one that it closes."),
        _ if comment => fault.hint("Remove the line; there are no comments."),
        _ => fault.hint("Each line is one form in brackets; a form that goes on here belongs on one line with its start."),
    }
}

fn no_line_end(line: &Line) -> Fault {
    let at = Span::new(line.span.end, line.span.end);
    let hint = "Press Enter after the last line; `drive tidy FILE` does that too.";
    Fault::new(4, at, "The last line has no line end.").hint(hint)
}

fn unclosed(text: &[u8], line: &Line, open: &[Open]) -> Fault {
    let Span { start, end } = line.span;
    let innermost = match open.last() {
        Some((at, _)) => *at,
        None => {
            let fault = Fault::new(4, Span::new(start, end), "This line is empty.");
            return fault.hint("Remove it; `drive tidy FILE` removes all empty lines.");
        }
    };
    let found = match open.len() {
        1 => "This bracket is not closed.".to_string(),
        several => format!("This bracket and {} before it are not closed.", count(several - 1, "other")),
    };
    let missing = if open.len() == 1 { "1 closing bracket is".to_string() } else { format!("{} closing brackets are", open.len()) };
    let next = text.get(end + 1..).unwrap_or_default();
    let goes_on = !next.is_empty() && !["(type", "(var", "(proc", "(main"].iter().any(|head| next.starts_with(head.as_bytes()));
    let hint = match goes_on {
        true => "A form stays on one line: join this line with the next.".to_string(),
        false => format!("{missing} missing before the end of the line."),
    };
    Fault::new(4, Span::new(innermost, innermost + 1), found).hint(hint)
}
