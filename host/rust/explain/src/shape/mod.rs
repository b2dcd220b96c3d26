//! From trees to syntax (row 6), or what is wrong with the shape.

mod body;
mod told;

use crate::fault::Fault;
use crate::span::Span;
use crate::syntax::*;
use crate::tree::Tree;
use crate::word::{Role, Word};
use crate::world::World;

pub type Shaped<T> = Result<T, Fault>;

/// What reading a line depends on beside its tree. The world only serves the hints.
pub struct Reader<'a> {
    pub text: &'a [u8],
    pub world: &'a World,
    /// Statements so far over the text.
    pub statements: u32,
}

/// A bracket pair that starts with a word of the table: the word, its parts, and the places of both.
#[derive(Clone, Copy)]
struct Form<'t> {
    head: &'static str,
    at: Span,
    parts: &'t [Tree],
    whole: Span,
}

const LINES: &str = "`type`, `var`, `proc` or `main`";

impl Reader<'_> {
    /// Reads one line.
    pub fn line(&mut self, tree: &Tree) -> Shaped<Line> {
        let form = self.head(tree, &[Role::Line], LINES)?;
        match (form.head, form.parts) {
            ("type", [name, ty]) => Ok(Line::Type(self.name(name, "the new type")?, self.type_form(ty)?)),
            ("var", [name, ty]) => Ok(Line::Var(self.name(name, "the new variable")?, self.type_name(ty)?)),
            ("proc", [name, rest @ ..]) => {
                let name = self.name(name, "the new procedure")?;
                let (pairs, rest) = self.parameters(rest)?;
                Ok(Line::Proc(name, pairs, self.body(rest)?))
            }
            ("main", rest) => Ok(Line::Main(self.body(rest)?)),
            _ => Err(self.wrong_count(&form)),
        }
    }

    /// The pairs of a parameter list, and the parts after it. No statement begins with two brackets or is empty, so that a part which
    /// does is a list, and an empty one is short of a pair.
    fn parameters<'t>(&self, parts: &'t [Tree]) -> Shaped<(Vec<Pair>, &'t [Tree])> {
        match parts {
            [Tree::List(pairs, span), rest @ ..] => match pairs.first() {
                None => Err(told::empty(*span, "parameters or a statement").hint("Leave the brackets out where there are no parameters.")),
                Some(Tree::List(..)) => Ok((pairs.iter().map(|tree| self.pair(tree, "parameter")).collect::<Shaped<_>>()?, rest)),
                Some(Tree::Word(..)) => Ok((Vec::new(), parts)),
            },
            _ => Ok((Vec::new(), parts)),
        }
    }

    /// A bracket pair whose first word has one of these roles.
    fn head<'t>(&self, tree: &'t Tree, roles: &'static [Role], expected: &str) -> Shaped<Form<'t>> {
        let (list, whole) = match tree {
            Tree::List(list, whole) => (list, *whole),
            Tree::Word(..) => return Err(self.unexpected(tree, &format!("a bracket pair that starts with {expected}"))),
        };
        match list.split_first() {
            Some((Tree::Word(Word::Fixed(role, head), at), parts)) if roles.contains(role) => Ok(Form { head, at: *at, parts, whole }),
            Some((first, parts)) => Err(self.wrong_head(first, parts, roles, expected)),
            None => Err(told::empty(whole, expected)),
        }
    }

    /// A name that a line or a pair makes, or that stands for a thing of the sort.
    fn name(&self, tree: &Tree, what: &str) -> Shaped<Name> {
        match tree {
            Tree::Word(Word::Name(text), span) => Ok(Name { text: text.clone(), span: *span }),
            Tree::Word(Word::Fixed(_, word), span) => Err(told::reserved(*span, word, what)),
            _ => Err(self.unexpected(tree, &format!("a name for {what}"))),
        }
    }

    fn type_name(&self, tree: &Tree) -> Shaped<Name> {
        match tree {
            Tree::Word(Word::Fixed(Role::TypeName, word), span) => Ok(Name { text: word.to_string(), span: *span }),
            Tree::Word(Word::Name(text), span) => Ok(Name { text: text.clone(), span: *span }),
            Tree::List(parts, _) => {
                let fault = self.unexpected(tree, "the name of a type");
                match parts.first() {
                    Some(Tree::Word(Word::Fixed(Role::Type, word), _)) => {
                        Err(fault.hint(format!("Give the type a line of its own, `(type NAME ({word} ..))`, and write its name here.")))
                    }
                    _ => Err(fault),
                }
            }
            Tree::Word(Word::Number(_), _) => {
                let hint = "A number of values is a range of its own: `(type NAME (range LOW HIGH))`.";
                Err(self.unexpected(tree, "the name of a type").hint(hint))
            }
            _ => Err(self.unexpected(tree, "the name of a type")),
        }
    }

    fn type_form(&self, tree: &Tree) -> Shaped<TypeForm> {
        if let Tree::Word(..) = tree {
            return Ok(TypeForm::Alias(self.type_name(tree)?));
        }
        let form = self.head(tree, &[Role::Type], "`enum`, `range`, `array`, `record` or `setof`")?;
        match (form.head, form.parts) {
            ("enum", [_, ..]) => {
                Ok(TypeForm::Enum(form.parts.iter().map(|part| self.name(part, "a value of the list")).collect::<Shaped<_>>()?))
            }
            ("range", [low, high]) => Ok(TypeForm::Range(self.constant(low)?, self.constant(high)?)),
            ("array", [index, element]) => Ok(TypeForm::Array(self.type_name(index)?, self.type_name(element)?)),
            ("record", [_, ..]) => Ok(TypeForm::Record(form.parts.iter().map(|part| self.pair(part, "part")).collect::<Shaped<_>>()?)),
            ("setof", [base]) => Ok(TypeForm::SetOf(self.type_name(base)?)),
            _ => Err(self.wrong_count(&form)),
        }
    }

    /// `(N T)`: a part of a record or a parameter.
    fn pair(&self, tree: &Tree, what: &str) -> Shaped<Pair> {
        match tree {
            Tree::List(parts, _) if parts.len() == 2 => {
                Ok(Pair { name: self.name(&parts[0], &format!("the {what}"))?, ty: self.type_name(&parts[1])? })
            }
            _ => Err(self.unexpected(tree, &format!("a {what} as `(NAME KIND)`"))),
        }
    }

    fn constant(&self, tree: &Tree) -> Shaped<Constant> {
        let span = tree.span();
        let kind = match tree {
            Tree::Word(Word::Number(value), _) => ConstantKind::Number(*value),
            Tree::Word(Word::Fixed(_, "true"), _) => ConstantKind::Truth(true),
            Tree::Word(Word::Fixed(_, "false"), _) => ConstantKind::Truth(false),
            Tree::Word(Word::Name(text), span) => ConstantKind::Name(Name { text: text.clone(), span: *span }),
            Tree::List(parts, _) => match parts.as_slice() {
                [Tree::Word(Word::Fixed(_, "-"), _), Tree::Word(Word::Number(value), _)] => ConstantKind::Negated(*value),
                _ => return Err(self.unexpected(tree, told::CONSTANT)),
            },
            _ => return Err(self.unexpected(tree, told::CONSTANT)),
        };
        Ok(Constant { span, kind })
    }
}
