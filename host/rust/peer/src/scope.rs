//! Variables with their cells, and the names that a body knows.

use crate::types::TypeId;
use crate::world::{Meaning, World};

/// A cell. Parameters are counted over all procedures: none calls itself, so that no two calls
/// under way want the same one.
#[derive(Clone, Copy, Debug, PartialEq, Eq)]
pub enum Cell {
    Store(usize),
    Parameter(usize),
}

impl Cell {
    /// The cell so many further on.
    pub fn on(self, cells: usize) -> Cell {
        match self {
            Cell::Store(first) => Cell::Store(first + cells),
            Cell::Parameter(first) => Cell::Parameter(first + cells),
        }
    }
}

/// A variable of a `var` line, or a parameter.
#[derive(Clone, Debug)]
pub struct Variable {
    pub name: String,
    pub ty: TypeId,
    /// Its first cell.
    pub cell: Cell,
}

/// The names of the lines before, and the parameters of the procedure whose body it is.
#[derive(Clone, Copy)]
pub struct Scope<'a> {
    pub world: &'a World,
    pub parameters: &'a [Variable],
}

impl Scope<'_> {
    /// Parameters come first: a *later* line may declare the name of one, and the marking machine
    /// looks names up when all lines are known (RULINGS-02, 0.12).
    pub fn meaning(&self, name: &str) -> Option<Meaning> {
        match self.parameters.iter().find(|parameter| parameter.name == name) {
            Some(parameter) => Some(Meaning::Variable(parameter.ty, parameter.cell)),
            None => self.world.meaning(name),
        }
    }
}
