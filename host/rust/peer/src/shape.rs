//! From trees to syntax (row 6). `None` means that a shape is not in the list of forms.

use crate::level::Level;
use crate::syntax::*;
use crate::tree::Tree;
use crate::word::Word;

/// What reading a line depends on beside its tree.
#[derive(Clone, Debug)]
pub struct Reader {
    level: Level,
    /// Statements so far over the text.
    statements: u32,
}

impl Reader {
    pub fn new(level: Level) -> Reader {
        Reader { level, statements: 0 }
    }
}

/// Reads one line.
pub fn line(tree: &Tree, reader: &mut Reader) -> Option<Line> {
    let (head, parts) = head(tree)?;
    match (head, parts) {
        ("type", [name, form]) => Some(Line::Type(self::name(name)?, type_form(form)?)),
        ("var", [name, ty]) => Some(Line::Var(self::name(name)?, type_name(ty)?)),
        ("proc", [name, rest @ ..]) => {
            let (pairs, rest) = parameters(rest, reader.level)?;
            Some(Line::Proc(self::name(name)?, pairs, body(rest, reader)?))
        }
        ("main", rest) => Some(Line::Main(body(rest, reader)?)),
        _ => None,
    }
}

/// The pairs of a parameter list, and the parts after it. No statement begins with two brackets
/// or is empty, so that a part which does is a list, and an empty one is short of a pair.
fn parameters(parts: &[Tree], level: Level) -> Option<(Vec<Pair>, &[Tree])> {
    match parts {
        [Tree::List(pairs), rest @ ..] if level.has(Level::PARAMETERS) => match pairs.first() {
            None => None,
            Some(Tree::List(_)) => Some((pairs.iter().map(pair).collect::<Option<_>>()?, rest)),
            Some(Tree::Word(_)) => Some((Vec::new(), parts)),
        },
        _ => Some((Vec::new(), parts)),
    }
}

fn list(tree: &Tree) -> Option<&[Tree]> {
    match tree {
        Tree::List(parts) => Some(parts),
        Tree::Word(_) => None,
    }
}

/// The head word of a bracket pair and the parts after it.
fn head(tree: &Tree) -> Option<(&'static str, &[Tree])> {
    match list(tree)?.split_first()? {
        (Tree::Word(Word::Reserved(head) | Word::Operator(head)), parts) => Some((head, parts)),
        _ => None,
    }
}

fn name(tree: &Tree) -> Option<String> {
    match tree {
        Tree::Word(Word::Name(name)) => Some(name.clone()),
        _ => None,
    }
}

fn type_name(tree: &Tree) -> Option<String> {
    match tree {
        Tree::Word(Word::Reserved(word @ ("integer" | "boolean"))) => Some(word.to_string()),
        _ => name(tree),
    }
}

fn number(tree: &Tree) -> Option<i64> {
    match tree {
        Tree::Word(Word::Number(value)) => Some(*value),
        _ => None,
    }
}

fn type_form(tree: &Tree) -> Option<TypeForm> {
    if let Tree::Word(_) = tree {
        return Some(TypeForm::Alias(type_name(tree)?));
    }
    match head(tree)? {
        ("enum", names) if !names.is_empty() => {
            Some(TypeForm::Enum(names.iter().map(name).collect::<Option<_>>()?))
        }
        ("range", [low, high]) => Some(TypeForm::Range(constant(low)?, constant(high)?)),
        ("array", [index, element]) => {
            Some(TypeForm::Array(type_name(index)?, type_name(element)?))
        }
        ("record", fields) if !fields.is_empty() => {
            Some(TypeForm::Record(fields.iter().map(pair).collect::<Option<_>>()?))
        }
        ("setof", [base]) => Some(TypeForm::SetOf(type_name(base)?)),
        _ => None,
    }
}

/// `(N T)`: a field or a parameter.
fn pair(tree: &Tree) -> Option<Pair> {
    match list(tree)? {
        [first, ty] => Some((name(first)?, type_name(ty)?)),
        _ => None,
    }
}

fn constant(tree: &Tree) -> Option<Constant> {
    match tree {
        Tree::Word(Word::Number(value)) => Some(Constant::Number(*value)),
        Tree::Word(Word::Reserved("true")) => Some(Constant::Truth(true)),
        Tree::Word(Word::Reserved("false")) => Some(Constant::Truth(false)),
        Tree::Word(Word::Name(name)) => Some(Constant::Name(name.clone())),
        Tree::Word(_) => None,
        Tree::List(_) => match head(tree)? {
            ("-", [value]) => Some(Constant::Negated(number(value)?)),
            _ => None,
        },
    }
}

/// Statements, then at most one `(exception S..)`.
fn body(parts: &[Tree], reader: &mut Reader) -> Option<Body> {
    let Some((last, before)) = parts.split_last() else {
        return Some(Body::default());
    };
    match head(last)? {
        ("exception", handler) => Some(Body {
            statements: statements(before, reader)?,
            handler: Some(statements(handler, reader)?),
        }),
        _ => Some(Body { statements: statements(parts, reader)?, handler: None }),
    }
}

fn statements(parts: &[Tree], reader: &mut Reader) -> Option<Vec<Statement>> {
    parts.iter().map(|part| statement(part, reader)).collect()
}

fn boxed(tree: &Tree, reader: &mut Reader) -> Option<Box<Statement>> {
    Some(Box::new(statement(tree, reader)?))
}

fn statement(tree: &Tree, reader: &mut Reader) -> Option<Statement> {
    reader.statements += 1;
    let number = reader.statements;
    let act = match head(tree)? {
        (":=", [to, value]) => Act::Assign(target(to)?, expr(value)?),
        ("begin", parts) => Act::Begin(statements(parts, reader)?),
        ("if", [test, yes]) => Act::If(expr(test)?, boxed(yes, reader)?, None),
        ("if", [test, yes, no]) => {
            Act::If(expr(test)?, boxed(yes, reader)?, Some(boxed(no, reader)?))
        }
        ("while", [test, inner]) => Act::While(expr(test)?, boxed(inner, reader)?),
        ("for", [control, from, to, inner]) => {
            Act::For(name(control)?, expr(from)?, expr(to)?, boxed(inner, reader)?)
        }
        ("case", [selector, branches @ ..]) => case(selector, branches, reader)?,
        ("call", [procedure]) => Act::Call(name(procedure)?, Vec::new()),
        ("call", [procedure, parts @ ..]) if reader.level.has(Level::PARAMETERS) => {
            Act::Call(name(procedure)?, parts.iter().map(expr).collect::<Option<_>>()?)
        }
        ("raise", [value]) => Act::Raise(expr(value)?),
        _ => return None,
    };
    Some(Statement { number, act })
}

/// One or more arms, then at most one `(else S)`.
fn case(selector: &Tree, branches: &[Tree], reader: &mut Reader) -> Option<Act> {
    let selector = expr(selector)?;
    let (last, before) = branches.split_last()?;
    let (arms, otherwise) = match head(last)? {
        ("else", [inner]) => (before, Some(inner)),
        _ => (branches, None),
    };
    if arms.is_empty() {
        return None;
    }
    let arms = arms.iter().map(|part| arm(part, reader)).collect::<Option<_>>()?;
    let otherwise = match otherwise {
        Some(inner) => Some(boxed(inner, reader)?),
        None => None,
    };
    Some(Act::Case(selector, arms, otherwise))
}

/// The last part is the statement and all before it are labels (R16).
fn arm(tree: &Tree, reader: &mut Reader) -> Option<Arm> {
    let ("arm", [labels @ .., inner]) = head(tree)? else {
        return None;
    };
    if labels.is_empty() {
        return None;
    }
    let labels = labels.iter().map(constant).collect::<Option<_>>()?;
    Some(Arm { labels, statement: statement(inner, reader)? })
}

fn target(tree: &Tree) -> Option<Target> {
    if let Some(name) = name(tree) {
        return Some(Target::Name(name));
    }
    match head(tree)? {
        ("at", [inner, index]) => {
            Some(Target::At(Box::new(target(inner)?), Box::new(expr(index)?)))
        }
        ("dot", [inner, field]) => Some(Target::Dot(Box::new(target(inner)?), name(field)?)),
        _ => None,
    }
}

fn expr(tree: &Tree) -> Option<Expr> {
    match tree {
        Tree::Word(Word::Number(value)) => Some(Expr::Number(*value)),
        Tree::Word(Word::Reserved("true")) => Some(Expr::Truth(true)),
        Tree::Word(Word::Reserved("false")) => Some(Expr::Truth(false)),
        Tree::Word(Word::Reserved("error_number")) => Some(Expr::ErrorNumber),
        Tree::Word(_) => Some(Expr::Target(target(tree)?)),
        Tree::List(_) => compound(tree),
    }
}

fn compound(tree: &Tree) -> Option<Expr> {
    match head(tree)? {
        ("at" | "dot", _) => Some(Expr::Target(target(tree)?)),
        ("members", [ty, parts @ ..]) => {
            Some(Expr::Members(type_name(ty)?, parts.iter().map(expr).collect::<Option<_>>()?))
        }
        ("first", [ty]) => Some(Expr::First(type_name(ty)?)),
        ("last", [ty]) => Some(Expr::Last(type_name(ty)?)),
        ("-", [Tree::Word(Word::Number(value))]) => Some(Expr::Negated(*value)),
        (word, [part]) => Some(Expr::Unary(function(word)?, Box::new(expr(part)?))),
        (word, [left, right]) => {
            Some(Expr::Binary(operator(word)?, Box::new(expr(left)?), Box::new(expr(right)?)))
        }
        _ => None,
    }
}

fn function(word: &str) -> Option<Function> {
    Some(match word {
        "-" => Function::Negate,
        "not" => Function::Not,
        "abs" => Function::Abs,
        "sqr" => Function::Sqr,
        "odd" => Function::Odd,
        "ord" => Function::Ord,
        "pred" => Function::Pred,
        "succ" => Function::Succ,
        "card" => Function::Card,
        "setmin" => Function::SetMin,
        "setmax" => Function::SetMax,
        _ => return None,
    })
}

fn operator(word: &str) -> Option<Operator> {
    Some(match word {
        "+" => Operator::Add,
        "-" => Operator::Subtract,
        "*" => Operator::Multiply,
        "**" => Operator::Power,
        "div" => Operator::Div,
        "mod" => Operator::Mod,
        "=" => Operator::Equal,
        "<>" => Operator::Unequal,
        "<" => Operator::Less,
        "<=" => Operator::LessEqual,
        ">" => Operator::Greater,
        ">=" => Operator::GreaterEqual,
        "in" => Operator::In,
        "and" => Operator::And,
        "or" => Operator::Or,
        "and_then" => Operator::AndThen,
        "or_else" => Operator::OrElse,
        _ => return None,
    })
}
