//! An accepted script as the chair's runner takes it: names looked up, kinds known, no types left.

use crate::scope::Cell;
use crate::syntax::{Function, Operator};

#[derive(Clone, Debug, Default)]
pub struct Body {
    pub statements: Vec<Statement>,
    pub handler: Option<Vec<Statement>>,
}

#[derive(Clone, Debug)]
pub struct Statement {
    pub number: u32,
    pub act: Act,
}

#[derive(Clone, Debug)]
pub enum Act {
    /// An ordinal or a set, with the bounds that the value is tested against.
    Assign {
        to: Place,
        value: Expr,
        low: i64,
        high: i64,
    },
    /// A whole array or record of so many cells.
    Copy {
        to: Place,
        from: Place,
        cells: usize,
    },
    Begin(Vec<Statement>),
    If(Expr, Box<Statement>, Option<Box<Statement>>),
    While(Expr, Box<Statement>),
    For {
        cell: Cell,
        low: i64,
        high: i64,
        from: Expr,
        to: Expr,
        inner: Box<Statement>,
    },
    Case {
        selector: Expr,
        arms: Vec<(Vec<i64>, Statement)>,
        otherwise: Option<Box<Statement>>,
    },
    Call {
        procedure: usize,
        arguments: Vec<Argument>,
    },
    Raise(Expr),
}

/// An argument, with its parameter's number and the bounds that it is tested against.
#[derive(Clone, Debug)]
pub struct Argument {
    pub value: Expr,
    pub parameter: Cell,
    pub low: i64,
    pub high: i64,
}

/// A place: a first cell, moved on by indices in text order.
#[derive(Clone, Debug)]
pub struct Place {
    pub cell: Cell,
    pub indices: Vec<Index>,
}

#[derive(Clone, Debug)]
pub struct Index {
    pub value: Expr,
    pub low: i64,
    pub high: i64,
    /// Cells of one element.
    pub cells: usize,
}

#[derive(Clone, Debug)]
pub enum Expr {
    Constant(i64),
    ErrorNumber,
    Read(Place),
    Members {
        low: i64,
        high: i64,
        parts: Vec<Expr>,
    },
    /// On integers, booleans and enumerations.
    Ordinals(Operator, Box<Expr>, Box<Expr>),
    /// On two sets.
    Sets(Operator, Box<Expr>, Box<Expr>),
    In {
        member: Box<Expr>,
        set: Box<Expr>,
    },
    /// With the bounds of the argument's host, for `pred` and `succ`.
    Unary {
        function: Function,
        part: Box<Expr>,
        low: i64,
        high: i64,
    },
}
