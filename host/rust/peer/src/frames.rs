//! The cells that the marking machine works on: the lent store, and a frame for each call that is
//! under way.

use crate::answer::Alive;
use crate::scope::{Cell, Variable};

/// The cells of one call's parameters, in their order.
struct Frame<'a> {
    parameters: &'a [Variable],
    cells: Vec<Option<i64>>,
}

pub struct Memory<'a> {
    values: &'a mut [i64],
    marks: &'a mut [u8],
    frames: Vec<Frame<'a>>,
    /// How many frames there were at most.
    pub deepest: usize,
}

impl<'a> Memory<'a> {
    pub fn new(values: &'a mut [i64], marks: &'a mut [u8]) -> Memory<'a> {
        Memory { values, marks, frames: Vec::new(), deepest: 0 }
    }

    /// A call starts: its parameters are all that is known of parameters now.
    pub fn enter(&mut self, parameters: &'a [Variable], values: Vec<i64>) {
        let cells = values.into_iter().map(Some).collect();
        self.frames.push(Frame { parameters, cells });
        self.deepest = self.deepest.max(self.frames.len());
    }

    /// A call returns: the caller's parameters are known again.
    pub fn leave(&mut self) {
        self.frames.pop();
    }

    /// The parameters of the procedure that runs; none in `main`.
    pub fn parameters(&self) -> &'a [Variable] {
        self.frames.last().map_or(&[], |frame| frame.parameters)
    }

    /// So many cells, if all are defined.
    pub fn read(&self, first: Cell, count: usize) -> Option<Vec<i64>> {
        (0..count).map(|offset| self.cell(first.on(offset))).collect()
    }

    fn cell(&self, cell: Cell) -> Option<i64> {
        match cell {
            Cell::Store(which) => (self.marks[which] != 0).then(|| self.values[which]),
            Cell::Parameter(_) => {
                let frame = self.frames.last()?;
                frame.place(cell).and_then(|place| frame.cells[place])
            }
        }
    }

    /// Defines cells, one after the other.
    pub fn store(&mut self, first: Cell, values: &[i64]) {
        for (offset, value) in values.iter().enumerate() {
            match first.on(offset) {
                Cell::Store(which) => (self.values[which], self.marks[which]) = (*value, 1),
                cell => {
                    if let Some(frame) = self.frames.last_mut() {
                        frame.set(cell, Some(*value));
                    }
                }
            }
        }
    }

    /// A cell has no value from now on.
    pub fn undefine(&mut self, cell: Cell) {
        match (cell, self.frames.last_mut()) {
            (Cell::Store(which), _) => (self.values[which], self.marks[which]) = (0, 0),
            (_, Some(frame)) => frame.set(cell, None),
            (_, None) => {}
        }
    }

    /// The cells of all frames, by the numbers that parameters have over all procedures.
    pub fn alive(&self, parameter_cells: usize) -> Alive {
        let mut alive = vec![None; parameter_cells];
        for frame in &self.frames {
            for (parameter, value) in frame.parameters.iter().zip(&frame.cells) {
                if let Cell::Parameter(which) = parameter.cell {
                    alive[which] = *value;
                }
            }
        }
        alive
    }
}

impl Frame<'_> {
    fn place(&self, cell: Cell) -> Option<usize> {
        self.parameters.iter().position(|parameter| parameter.cell == cell)
    }

    fn set(&mut self, cell: Cell, value: Option<i64>) {
        if let Some(place) = self.place(cell) {
            self.cells[place] = value;
        }
    }
}
