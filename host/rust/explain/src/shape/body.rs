//! Bodies: statements, targets and expressions.

use super::{told, Form, Reader, Shaped};
use crate::syntax::*;
use crate::tree::Tree;
use crate::word::{Role, Word};

const STATEMENTS: &str = "a statement: `:=`, `begin`, `if`, `while`, `for`, `case`, `call` or `raise`";
const VALUES: &str = "a value";

impl Reader<'_> {
    /// Statements, then at most one `(exception S..)`.
    pub(super) fn body(&mut self, parts: &[Tree]) -> Shaped<Body> {
        let (last, before) = match parts.split_last() {
            Some(split) => split,
            None => return Ok(Body::default()),
        };
        if let Tree::List(list, _) = last {
            if let Some((Tree::Word(Word::Fixed(_, "exception"), _), handler)) = list.split_first() {
                return Ok(Body { statements: self.statements(before)?, handler: Some(self.statements(handler)?) });
            }
        }
        Ok(Body { statements: self.statements(parts)?, handler: None })
    }

    fn statements(&mut self, parts: &[Tree]) -> Shaped<Vec<Statement>> {
        parts.iter().map(|part| self.statement(part)).collect()
    }

    fn boxed(&mut self, tree: &Tree) -> Shaped<Box<Statement>> {
        self.statement(tree).map(Box::new)
    }

    fn statement(&mut self, tree: &Tree) -> Shaped<Statement> {
        self.statements += 1;
        let number = self.statements;
        let form = self.head(tree, &[Role::Statement], STATEMENTS)?;
        let act = match (form.head, form.parts) {
            (":=", [to, value]) => Act::Assign(self.target(to)?, self.expr(value)?),
            ("begin", parts) => Act::Begin(self.statements(parts)?),
            ("if", [test, yes]) => Act::If(self.expr(test)?, self.boxed(yes)?, None),
            ("if", [test, yes, no]) => Act::If(self.expr(test)?, self.boxed(yes)?, Some(self.boxed(no)?)),
            ("while", [test, inner]) => Act::While(self.expr(test)?, self.boxed(inner)?),
            ("for", [control, from, to, inner]) => {
                Act::For(self.name(control, "the loop's variable")?, self.expr(from)?, self.expr(to)?, self.boxed(inner)?)
            }
            ("case", [selector, branches @ ..]) => self.case(&form, selector, branches)?,
            ("call", [procedure, parts @ ..]) => {
                let procedure = self.name(procedure, "a procedure")?;
                Act::Call(procedure, parts.iter().map(|part| self.expr(part)).collect::<Shaped<_>>()?)
            }
            ("raise", [value]) => Act::Raise(self.expr(value)?),
            _ => return Err(self.wrong_count(&form)),
        };
        Ok(Statement { number, span: form.whole, act })
    }

    /// One or more arms, then at most one `(else S)`.
    fn case(&mut self, form: &Form, selector: &Tree, branches: &[Tree]) -> Shaped<Act> {
        let selector = self.expr(selector)?;
        let (last, before) = branches.split_last().ok_or_else(|| self.wrong_count(form))?;
        let last_form = self.head(last, &[Role::Part], "`arm` or `else`")?;
        let (arms, otherwise) = match (last_form.head, last_form.parts) {
            ("else", [inner]) => (before, Some(inner)),
            ("else", _) => return Err(self.wrong_count(&last_form)),
            _ => (branches, None),
        };
        if arms.is_empty() {
            return Err(self.wrong_count(form));
        }
        let arms = arms.iter().map(|part| self.arm(part)).collect::<Shaped<_>>()?;
        let otherwise = match otherwise {
            Some(inner) => Some(self.boxed(inner)?),
            None => None,
        };
        Ok(Act::Case(selector, arms, otherwise))
    }

    /// The last part is the statement and all before it are labels.
    fn arm(&mut self, tree: &Tree) -> Shaped<Arm> {
        let form = self.head(tree, &[Role::Part], "`arm` or `else`")?;
        match (form.head, form.parts) {
            ("arm", [labels @ .., inner]) if !labels.is_empty() => {
                let labels = labels.iter().map(|label| self.constant(label)).collect::<Shaped<_>>()?;
                Ok(Arm { labels, statement: self.statement(inner)? })
            }
            ("arm", _) => Err(self.wrong_count(&form)),
            ("else", _) => Err(self.unexpected(tree, "`(else STATEMENT)` once, as the last part of its `case`")),
            _ => Err(self.unexpected(tree, "`(arm LABEL .. STATEMENT)` or a last `(else STATEMENT)`")),
        }
    }

    fn target(&self, tree: &Tree) -> Shaped<Target> {
        const PLACES: &str = "a variable, `(at TABLE INDEX)` or `(dot RECORD NAME)`";
        match tree {
            Tree::Word(Word::Name(text), span) => return Ok(Target::Name(Name { text: text.clone(), span: *span })),
            Tree::Word(Word::Fixed(_, word), span) => return Err(told::reserved(*span, word, "a variable")),
            Tree::Word(..) => return Err(self.unexpected(tree, PLACES)),
            Tree::List(..) => {}
        }
        let form = self.head(tree, &[Role::Target], PLACES)?;
        match (form.head, form.parts) {
            ("at", [inner, index]) => Ok(Target::At(Box::new(self.target(inner)?), Box::new(self.expr(index)?), form.whole)),
            ("dot", [inner, field]) => {
                Ok(Target::Dot(Box::new(self.target(inner)?), self.name(field, "a part of the record")?, form.whole))
            }
            _ => Err(self.wrong_count(&form)),
        }
    }

    fn expr(&self, tree: &Tree) -> Shaped<Expr> {
        let kind = match tree {
            Tree::Word(Word::Number(value), _) => ExprKind::Number(*value),
            Tree::Word(Word::Fixed(_, "true"), _) => ExprKind::Truth(true),
            Tree::Word(Word::Fixed(_, "false"), _) => ExprKind::Truth(false),
            Tree::Word(Word::Fixed(_, "error_number"), _) => ExprKind::ErrorNumber,
            Tree::Word(Word::Name(_), _) => ExprKind::Target(self.target(tree)?),
            Tree::Word(..) => return Err(self.unexpected(tree, VALUES)),
            Tree::List(..) => self.compound(tree)?,
        };
        Ok(Expr { span: tree.span(), kind })
    }

    fn compound(&self, tree: &Tree) -> Shaped<ExprKind> {
        let form =
            self.head(tree, &[Role::Target, Role::Function, Role::Operator], "a word that gives a value, as `+`, `div`, `at` or `not`")?;
        match (form.head, form.parts) {
            ("at" | "dot", _) => Ok(ExprKind::Target(self.target(tree)?)),
            ("members", [ty, parts @ ..]) => {
                let ty = self.type_name(ty)?;
                Ok(ExprKind::Members(ty, parts.iter().map(|part| self.expr(part)).collect::<Shaped<_>>()?))
            }
            ("members", _) => Err(self.wrong_count(&form)),
            ("first", [ty]) => Ok(ExprKind::First(self.type_name(ty)?)),
            ("last", [ty]) => Ok(ExprKind::Last(self.type_name(ty)?)),
            ("first" | "last", _) => Err(self.wrong_count(&form)),
            ("-", [Tree::Word(Word::Number(value), _)]) => Ok(ExprKind::Negated(*value)),
            (word, [part]) if is_function(word) => Ok(ExprKind::Unary(word, Box::new(self.expr(part)?))),
            (word, [left, right]) if word == "-" || !is_function(word) => {
                Ok(ExprKind::Binary(word, Box::new(self.expr(left)?), Box::new(self.expr(right)?)))
            }
            _ => Err(self.wrong_count(&form)),
        }
    }
}

/// Does a word take one value?
fn is_function(word: &str) -> bool {
    matches!(word, "-" | "not" | "abs" | "sqr" | "odd" | "ord" | "pred" | "succ" | "card" | "setmin" | "setmax")
}
