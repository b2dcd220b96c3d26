//! Lines, types, statements and expressions as they are written, names not yet looked up.

#[derive(Clone, Debug)]
pub enum Line {
    Type(String, TypeForm),
    Var(String, String),
    /// Its name, the pairs of its parameters, and its body.
    Proc(String, Vec<Pair>, Body),
    Main(Body),
}

/// A name and a type's name.
pub type Pair = (String, String);

/// `integer` and `boolean` are type names like others.
#[derive(Clone, Debug)]
pub enum TypeForm {
    Alias(String),
    Enum(Vec<String>),
    Range(Constant, Constant),
    Array(String, String),
    Record(Vec<Pair>),
    SetOf(String),
}

#[derive(Clone, Debug)]
pub enum Constant {
    Number(i64),
    /// `(- number)`
    Negated(i64),
    Truth(bool),
    Name(String),
}

#[derive(Clone, Debug, Default)]
pub struct Body {
    pub statements: Vec<Statement>,
    pub handler: Option<Vec<Statement>>,
}

/// A statement with its number: they count from 1 over the text.
#[derive(Clone, Debug)]
pub struct Statement {
    pub number: u32,
    pub act: Act,
}

#[derive(Clone, Debug)]
pub enum Act {
    Assign(Target, Expr),
    Begin(Vec<Statement>),
    If(Expr, Box<Statement>, Option<Box<Statement>>),
    While(Expr, Box<Statement>),
    For(String, Expr, Expr, Box<Statement>),
    Case(Expr, Vec<Arm>, Option<Box<Statement>>),
    Call(String, Vec<Expr>),
    Raise(Expr),
}

#[derive(Clone, Debug)]
pub struct Arm {
    pub labels: Vec<Constant>,
    pub statement: Statement,
}

#[derive(Clone, Debug)]
pub enum Target {
    Name(String),
    At(Box<Target>, Box<Expr>),
    Dot(Box<Target>, String),
}

/// A bare name is a target here, also where it turns out to be an enum name.
#[derive(Clone, Debug)]
pub enum Expr {
    Number(i64),
    Negated(i64),
    Truth(bool),
    Target(Target),
    ErrorNumber,
    Members(String, Vec<Expr>),
    Binary(Operator, Box<Expr>, Box<Expr>),
    Unary(Function, Box<Expr>),
    First(String),
    Last(String),
}

#[derive(Clone, Copy, Debug, PartialEq, Eq)]
pub enum Operator {
    Add,
    Subtract,
    Multiply,
    Power,
    Div,
    Mod,
    Equal,
    Unequal,
    Less,
    LessEqual,
    Greater,
    GreaterEqual,
    In,
    And,
    Or,
    AndThen,
    OrElse,
}

#[derive(Clone, Copy, Debug, PartialEq, Eq)]
pub enum Function {
    Negate,
    Not,
    Abs,
    Sqr,
    Odd,
    Ord,
    Pred,
    Succ,
    Card,
    SetMin,
    SetMax,
}
