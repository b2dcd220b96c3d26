//! Lines, types, statements and expressions as they are written, with their places; names not yet looked up.

use crate::span::Span;

/// A name in small letters.
#[derive(Clone, Debug)]
pub struct Name {
    pub text: String,
    pub span: Span,
}

#[derive(Clone, Debug)]
pub enum Line {
    Type(Name, TypeForm),
    Var(Name, Name),
    /// Its name, the pairs of its parameters, and its body.
    Proc(Name, Vec<Pair>, Body),
    Main(Body),
}

/// A name and a type's name: a field or a parameter.
#[derive(Clone, Debug)]
pub struct Pair {
    pub name: Name,
    pub ty: Name,
}

/// `integer` and `boolean` are type names like others.
#[derive(Clone, Debug)]
pub enum TypeForm {
    Alias(Name),
    Enum(Vec<Name>),
    Range(Constant, Constant),
    Array(Name, Name),
    Record(Vec<Pair>),
    SetOf(Name),
}

#[derive(Clone, Debug)]
pub struct Constant {
    pub span: Span,
    pub kind: ConstantKind,
}

#[derive(Clone, Debug)]
pub enum ConstantKind {
    Number(i64),
    /// `(- number)`
    Negated(i64),
    Truth(bool),
    Name(Name),
}

#[derive(Clone, Debug, Default)]
pub struct Body {
    pub statements: Vec<Statement>,
    pub handler: Option<Vec<Statement>>,
}

/// A statement with its number: they count from 1 over the text.
#[derive(Clone, Debug)]
pub struct Statement {
    pub number: u32,
    pub span: Span,
    pub act: Act,
}

#[derive(Clone, Debug)]
pub enum Act {
    Assign(Target, Expr),
    Begin(Vec<Statement>),
    If(Expr, Box<Statement>, Option<Box<Statement>>),
    While(Expr, Box<Statement>),
    For(Name, Expr, Expr, Box<Statement>),
    Case(Expr, Vec<Arm>, Option<Box<Statement>>),
    Call(Name, Vec<Expr>),
    Raise(Expr),
}

#[derive(Clone, Debug)]
pub struct Arm {
    pub labels: Vec<Constant>,
    pub statement: Statement,
}

#[derive(Clone, Debug)]
pub enum Target {
    Name(Name),
    At(Box<Target>, Box<Expr>, Span),
    Dot(Box<Target>, Name, Span),
}

impl Target {
    pub fn span(&self) -> Span {
        match self {
            Target::Name(name) => name.span,
            Target::At(_, _, span) | Target::Dot(_, _, span) => *span,
        }
    }
}

#[derive(Clone, Debug)]
pub struct Expr {
    pub span: Span,
    pub kind: ExprKind,
}

/// A bare name is a target here, also where it turns out to be an enum name.
#[derive(Clone, Debug)]
pub enum ExprKind {
    Number(i64),
    Negated(i64),
    Truth(bool),
    Target(Target),
    ErrorNumber,
    Members(Name, Vec<Expr>),
    Binary(&'static str, Box<Expr>, Box<Expr>),
    Unary(&'static str, Box<Expr>),
    First(Name),
    Last(Name),
}
