//! What is said of a shape that is not in the list of forms.

use super::{Form, Reader};
use crate::fault::{count, Fault};
use crate::near::nearest;
use crate::span::Span;
use crate::tree::Tree;
use crate::word::{words_of, Role, Word};
use crate::world::Meaning;

pub const CONSTANT: &str = "a plain value: a number, `(- NUMBER)`, a name from a list, `true` or `false`";

/// How a form is written.
fn pattern(head: &str) -> &'static str {
    match head {
        "type" => "(type NAME KIND)",
        "var" => "(var NAME KIND)",
        "proc" => "(proc NAME STATEMENT ..)",
        "main" => "(main STATEMENT ..)",
        "enum" => "(enum NAME ..), with at least one name",
        "range" => "(range LOW HIGH)",
        "array" => "(array INDEX KIND)",
        "record" => "(record (NAME KIND) ..), with at least one part",
        "setof" => "(setof KIND)",
        ":=" => "(:= TARGET VALUE)",
        "begin" => "(begin STATEMENT ..)",
        "if" => "(if TEST STATEMENT) or (if TEST STATEMENT STATEMENT)",
        "while" => "(while TEST STATEMENT)",
        "for" => "(for VARIABLE FROM TO STATEMENT)",
        "case" => "(case VALUE (arm LABEL .. STATEMENT) .. (else STATEMENT)), with at least one arm",
        "arm" => "(arm LABEL .. STATEMENT), with at least one label",
        "else" => "(else STATEMENT)",
        "exception" => "(exception STATEMENT ..)",
        "call" => "(call NAME VALUE ..)",
        "raise" => "(raise NUMBER)",
        "at" => "(at TABLE INDEX)",
        "dot" => "(dot RECORD NAME)",
        "members" => "(members KIND VALUE ..)",
        "first" => "(first KIND)",
        "last" => "(last KIND)",
        "-" => "(- A B) or (- A)",
        "not" | "abs" | "sqr" | "odd" | "ord" | "pred" | "succ" | "card" | "setmin" | "setmax" => "one value after the word",
        _ => "two values after the word",
    }
}

/// A pattern as a message quotes it.
pub fn written(head: &str) -> String {
    match pattern(head).split_once("), ") {
        Some((form, rest)) => format!("`{form})`, {rest}"),
        None if pattern(head).starts_with('(') => format!("`{}`", pattern(head).replace(" or ", "` or `")),
        None => pattern(head).to_string(),
    }
}

pub fn empty(whole: Span, expected: &str) -> Fault {
    Fault::new(6, whole, "The brackets are empty.").expected(expected)
}

/// A word of the language where a name belongs.
pub fn reserved(span: Span, word: &str, what: &str) -> Fault {
    let fault = Fault::new(6, span, format!("`{word}` is a word of the language and cannot be a name."));
    let fault = fault.expected(format!("a name for {what}"));
    match word.starts_with(|c: char| c.is_ascii_alphabetic()) {
        true => fault.hint(format!("Choose another one, as `my_{word}`.")),
        false => fault,
    }
}

impl Reader<'_> {
    /// What a part is, in a few words.
    fn what(&self, tree: &Tree) -> String {
        let shown = tree.span().shown(self.text);
        match tree {
            Tree::Word(Word::Number(_), _) => format!("the number {shown}"),
            Tree::Word(Word::Fixed(Role::Operator, _), _) => format!("the operator `{shown}`"),
            Tree::Word(Word::Fixed(..), _) => format!("`{shown}`, a word of the language"),
            Tree::Word(..) => format!("the name `{shown}`"),
            Tree::List(parts, _) => match parts.first() {
                Some(Tree::Word(_, head)) => format!("a form `({} ..)`", head.shown(self.text)),
                Some(Tree::List(..)) => "a list in brackets".to_string(),
                None => "an empty pair of brackets".to_string(),
            },
        }
    }

    pub(super) fn unexpected(&self, tree: &Tree, expected: &str) -> Fault {
        Fault::new(6, tree.span(), format!("Here is {}.", self.what(tree))).expected(expected)
    }

    /// A form with too few or too many parts.
    pub(super) fn wrong_count(&self, form: &Form) -> Fault {
        let parts = match form.parts.len() {
            0 => "nothing".to_string(),
            several => count(several, "part"),
        };
        let found = format!("`{}` has {parts} after it.", form.head);
        let fault = Fault::new(6, form.at, found).expected(written(form.head));
        match form.head {
            "if" if form.parts.len() > 3 => fault.hint("Put several statements into one `(begin ..)`."),
            "while" | "for" if form.parts.len() > 2 => fault.hint("Put several statements into one `(begin ..)`."),
            "type" if form.parts.len() > 2 => fault.hint("A type has one form in brackets after its name."),
            word if form.parts.len() > 2 && words_of(&[Role::Operator]).any(|operator| operator == word) => {
                fault.hint(format!("Join two at a time: `({word} ({word} A B) C)`."))
            }
            _ => fault,
        }
    }

    /// A bracket pair whose first part is no word of these roles.
    pub(super) fn wrong_head(&self, first: &Tree, parts: &[Tree], roles: &'static [Role], expected: &str) -> Fault {
        let fault = Fault::new(6, first.span(), format!("The brackets start with {}.", self.what(first))).expected(expected);
        let hint = self.infix(first, parts).or_else(|| match first {
            Tree::Word(Word::Name(name), _) => self.meant(name, parts, roles),
            Tree::Word(Word::Fixed(role, head), _) => place_of(*role, head, roles),
            _ => None,
        });
        fault.hint(hint.or_else(|| self.bare(first, parts, roles)).unwrap_or_default())
    }

    /// What a name at the start of a form was meant for.
    fn meant(&self, name: &str, parts: &[Tree], roles: &'static [Role]) -> Option<String> {
        if let Some(word) = nearest(name, words_of(roles)) {
            return Some(format!("Did you mean `{word}`?"));
        }
        let statement = roles.contains(&Role::Statement);
        match (self.world.meaning(name), parts) {
            (_, [Tree::Word(Word::Fixed(Role::TypeName, ty), _)]) if statement => {
                Some(format!("Parameters are pairs in a list of their own: `(({name} {ty}))`."))
            }
            (Some(Meaning::Procedure(_)), _) => Some(format!("To do the procedure write `(call {name})`.")),
            (Some(Meaning::Variable(..)), _) if statement => Some(format!("To store a value write `(:= {name} VALUE)`.")),
            (Some(Meaning::Variable(..)), [_, ..]) => {
                Some(format!("A part of a table is `(at {name} INDEX)`, one of a record `(dot {name} NAME)`."))
            }
            (None, _) if statement => Some(format!("If `{name}` is a procedure, write `(call {name})`.")),
            _ => None,
        }
    }

    /// What is missing at the start of a form that has no head word.
    fn bare(&self, first: &Tree, parts: &[Tree], roles: &'static [Role]) -> Option<String> {
        let shown = first.span().shown(self.text);
        if roles.contains(&Role::Type) {
            return Some("A list of names is `(enum NAME ..)`.".to_string()).filter(|_| matches!(first, Tree::Word(Word::Name(_), _)));
        }
        if roles.contains(&Role::Part) {
            return Some("A branch is `(arm LABEL .. STATEMENT)`.".to_string());
        }
        Some(format!("Leave the brackets out: `{shown}`.")).filter(|_| parts.is_empty() && roles.contains(&Role::Operator))
    }

    /// `(a + b)`: the word that comes first stands second.
    fn infix(&self, first: &Tree, parts: &[Tree]) -> Option<String> {
        let word = match parts.first()? {
            Tree::Word(Word::Fixed(Role::Operator | Role::Statement, word), _) => *word,
            _ => return None,
        };
        let left = first.span().shown(self.text);
        let right = parts.get(1).map_or(String::new(), |part| format!(" {}", part.span().shown(self.text)));
        Some(format!("`{word}` comes first: `({word} {left}{right})`."))
    }
}

/// Where a form belongs that stands in another place.
fn place_of(role: Role, head: &str, roles: &'static [Role]) -> Option<String> {
    let in_body = roles.contains(&Role::Statement);
    Some(match role {
        Role::Line => format!("`{head}` starts a line of its own."),
        Role::Statement if roles.contains(&Role::Line) => "A statement stands inside `(main ..)` or `(proc NAME ..)`.".to_string(),
        Role::Statement => format!("`{}` is a statement and gives no value.", written(head).trim_matches('`')),
        Role::Type if !roles.contains(&Role::Type) => format!("A kind is made on a line `(type NAME ({head} ..))`."),
        Role::Part if head == "exception" => "`(exception ..)` stands once, as the last part of `main` or of a `proc`.".to_string(),
        Role::Part if head == "else" => "`else` belongs into a `case`; the second statement of an `if` stands without it.".to_string(),
        Role::Part => format!("`{head}` belongs into a `case`."),
        Role::Target | Role::Function | Role::Operator if in_body => {
            "This is a value: store it with `:=`, or use it in a statement.".to_string()
        }
        _ => return None,
    })
}
