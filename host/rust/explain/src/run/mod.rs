//! The explainer's own machine: it runs a script as written, keeps a type with every value, and remembers where and why it stopped.

mod arith;
mod expr;

pub use arith::{CASE_ERROR, NUMERIC_ERROR, RANGE_ERROR, SYSTEM_ERROR, UNDEFINED_ERROR};

use std::cell::Cell as StdCell;
use std::ops::RangeInclusive;

use crate::fault::Fault;
use crate::judge::Script;
use crate::kinds::meaning;
use crate::span::Span;
use crate::syntax::{Act, Arm, Body, Constant, Expr, Name, Statement, Target};
use crate::types::{TypeId, BOOLEAN, INTEGER};
use crate::world::{Cell, Meaning, Variable, World};
use expr::Place;

/// How a run ended, as the library tells it.
#[derive(Clone, Copy, Debug, PartialEq, Eq)]
pub enum Outcome {
    Normal,
    Raised { number: i64, statement: u32 },
    Spent,
    Stuck,
}

/// An outcome beside the steps taken.
#[derive(Clone, Copy, Debug, PartialEq, Eq)]
pub struct Answer {
    pub outcome: Outcome,
    pub steps: u32,
}

/// Why an exception arose.
#[derive(Clone, Copy, Debug, PartialEq, Eq)]
pub enum Why {
    /// A result past the integers; none where it is too large to tell.
    Past(Option<i64>),
    Divisor(&'static str, i64),
    /// Base and exponent.
    Exponent(i64, i64),
    /// What is outside its type (`value`, `index` ..), and the type.
    Outside(&'static str, i64, TypeId),
    /// `pred` or `succ` of the last value on that side.
    Edge(&'static str, i64, TypeId),
    EmptySet(&'static str),
    Undefined(Cell),
    /// The first cell without a value of a table or record that is read whole.
    UndefinedPart(Cell),
    NoLabel(i64, TypeId),
    Raised,
    NothingBefore,
}

/// Why an expression has no value.
pub enum Failure {
    Raise(Span, Why),
    Misfit(Box<Fault>),
}

pub type Worked<T> = Result<T, Failure>;

/// Why statements end early. The exception itself stands in `last`.
enum Stop {
    Exception,
    Spent,
    Stuck,
}

/// Where a run stopped: its statement, the part at fault, and the values that the statement uses.
#[derive(Clone, Debug)]
pub struct Stopped {
    pub number: u32,
    pub statement: Span,
    pub part: Span,
    pub values: Vec<(Span, TypeId, Option<i64>)>,
}

/// What there is to say of the end of a run.
#[derive(Clone, Debug)]
pub enum Detail {
    Raised(Stopped, Why),
    /// Whether another round of the statement was due, and not the statement itself.
    Due(Stopped, bool),
    Stuck(Stopped, Fault),
}

/// A value with its type, which is never a range. An ordinal or set has one cell.
pub struct Value {
    pub ty: TypeId,
    pub cells: Vec<i64>,
}

/// The cells of one call's parameters.
struct Frame<'a> {
    parameters: &'a [Variable],
    cells: Vec<Option<i64>>,
}

pub struct Machine<'a> {
    script: &'a Script,
    world: &'a World,
    values: Vec<i64>,
    marks: Vec<u8>,
    frames: Vec<Frame<'a>>,
    budget: u32,
    steps: u32,
    /// Number and statement of the last exception; the number is 0 before any.
    last: (i64, u32),
    detail: Option<Detail>,
    /// Statements, parts of expressions and cells that were looked at.
    work: StdCell<u64>,
}

/// The work after which a run is given up, as if its budget were used up: within a second.
const MOST_WORK: u64 = 10_000_000;

/// Runs a script on a store that fits it.
pub fn run(script: &Script, store: (&[i64], &[u8]), budget: u32) -> (Answer, Option<Detail>) {
    let (values, marks) = (store.0.to_vec(), store.1.to_vec());
    let world = &script.world;
    let (frames, steps, last, detail, work) = (Vec::new(), 0, (0, 0), None, StdCell::new(0));
    let mut machine = Machine { script, world, values, marks, frames, budget, steps, last, detail, work };
    let outcome = match machine.body(&script.main) {
        Ok(()) => Outcome::Normal,
        Err(Stop::Spent) => Outcome::Spent,
        Err(Stop::Stuck) => Outcome::Stuck,
        Err(Stop::Exception) => Outcome::Raised { number: machine.last.0, statement: machine.last.1 },
    };
    let detail = machine.detail.filter(|_| outcome != Outcome::Normal);
    (Answer { outcome, steps: machine.steps }, detail)
}

impl<'a> Machine<'a> {
    fn body(&mut self, body: &'a Body) -> Result<(), Stop> {
        match (self.statements(&body.statements), &body.handler) {
            (Err(Stop::Exception), Some(handler)) => self.statements(handler),
            (end, _) => end,
        }
    }

    fn statements(&mut self, list: &'a [Statement]) -> Result<(), Stop> {
        list.iter().try_for_each(|statement| self.statement(statement))
    }

    /// A step is due: of the statement, or of a round of it.
    fn step(&mut self, statement: &Statement, round: bool) -> Result<(), Stop> {
        self.worked(1);
        if self.steps == self.budget || self.work.get() > MOST_WORK {
            let place = self.place_of(statement, statement.span);
            self.detail = Some(Detail::Due(place, round));
            return Err(Stop::Spent);
        }
        self.steps += 1;
        Ok(())
    }

    fn worked(&self, work: usize) {
        self.work.set(self.work.get() + work as u64);
    }

    fn place_of(&self, statement: &Statement, part: Span) -> Stopped {
        Stopped { number: statement.number, statement: statement.span, part, values: self.values_in(statement) }
    }

    /// Turns a failed part of a statement into an exception at that statement, or sticks.
    fn at<T>(&mut self, statement: &Statement, worked: Worked<T>) -> Result<T, Stop> {
        match worked {
            Ok(value) => Ok(value),
            Err(Failure::Misfit(fault)) => {
                let place = self.place_of(statement, fault.span);
                self.detail = Some(Detail::Stuck(place, *fault));
                Err(Stop::Stuck)
            }
            Err(Failure::Raise(part, why)) => Err(self.raised(statement, part, why, why.number())),
        }
    }

    fn raised(&mut self, statement: &Statement, part: Span, why: Why, number: i64) -> Stop {
        let place = self.place_of(statement, part);
        self.last = (number, statement.number);
        self.detail = Some(Detail::Raised(place, why));
        Stop::Exception
    }

    fn statement(&mut self, statement: &'a Statement) -> Result<(), Stop> {
        self.step(statement, false)?;
        match &statement.act {
            Act::Assign(to, value) => {
                let worked = self.assign(to, value);
                self.at(statement, worked)
            }
            Act::Begin(list) => self.statements(list),
            Act::If(test, yes, no) => match (self.condition(statement, test, "if")?, no) {
                (true, _) => self.statement(yes),
                (false, Some(no)) => self.statement(no),
                (false, None) => Ok(()),
            },
            Act::While(test, inner) => {
                while self.condition(statement, test, "while")? {
                    self.step(statement, true)?;
                    self.statement(inner)?;
                }
                Ok(())
            }
            Act::For(name, from, to, inner) => self.count(statement, name, (from, to), inner),
            Act::Case(selector, arms, otherwise) => {
                let chosen = self.choose(selector, arms, otherwise.as_deref());
                let inner = self.at(statement, chosen)?;
                self.statement(inner)
            }
            Act::Call(name, arguments) => self.call(statement, name, arguments),
            Act::Raise(value) => self.raise(statement, value),
        }
    }

    /// The arguments are worked out among the caller's names, the body runs among its own.
    fn call(&mut self, statement: &Statement, name: &Name, arguments: &[Expr]) -> Result<(), Stop> {
        let which = match self.meaning(&name.text) {
            Some(Meaning::Procedure(which)) => which,
            _ => return Err(Stop::Stuck),
        };
        let script = self.script;
        let parameters = script.world.procedures[which].as_slice();
        let mut cells = Vec::new();
        for (argument, parameter) in arguments.iter().zip(parameters) {
            let worked = self.argument(argument, parameter);
            cells.push(Some(self.at(statement, worked)?));
        }
        self.frames.push(Frame { parameters, cells });
        let end = self.body(&script.procedures[which]);
        self.frames.pop();
        end
    }

    fn argument(&self, argument: &Expr, parameter: &Variable) -> Worked<i64> {
        let why = || format!("for the parameter `{}`", parameter.name);
        let value = self.wanted(argument, self.world.types.host(parameter.ty), why)?;
        self.within(("argument", value), parameter.ty, argument.span)
    }

    fn condition(&mut self, statement: &Statement, test: &Expr, word: &str) -> Result<bool, Stop> {
        let worked = self.wanted(test, BOOLEAN, || format!("the test of `{word}`"));
        Ok(self.at(statement, worked)? == 1)
    }

    /// Value, indices, the fitting of types, the range test, then the cells.
    fn assign(&mut self, to: &Target, value: &Expr) -> Worked<()> {
        let found = self.expr(value)?;
        let place = self.place(to)?;
        self.meets(&found, self.world.types.host(place.ty), value.span, || expr::holds(to))?;
        if self.world.types.is_ordinal(place.ty) {
            self.within(("value", found.cells[0]), place.ty, value.span)?;
        }
        self.store(&place, &found.cells);
        Ok(())
    }

    fn count(&mut self, statement: &'a Statement, name: &Name, bounds: (&Expr, &Expr), inner: &'a Statement) -> Result<(), Stop> {
        let rounds = self.rounds(name, bounds.0, bounds.1);
        let (place, values) = self.at(statement, rounds)?;
        for value in values {
            self.step(statement, true)?;
            self.store(&place, &[value]);
            self.statement(inner)?;
        }
        self.set(place.cell, None);
        Ok(())
    }

    /// The control variable and its values, of which there may be none.
    fn rounds(&self, name: &Name, from: &Expr, to: &Expr) -> Worked<(Place, RangeInclusive<i64>)> {
        let (first, last) = (self.expr(from)?, self.expr(to)?);
        let control = self.place(&Target::Name(name.clone()))?;
        if !self.world.types.is_ordinal(control.ty) {
            return Err(self.not_countable(name, control.ty));
        }
        let host = self.world.types.host(control.ty);
        let why = || format!("as `{}` counts", name.text);
        let first = self.meets(&first, host, from.span, why)?;
        let last = self.meets(&last, host, to.span, why)?;
        if first <= last {
            self.within(("first bound", first), control.ty, from.span)?;
            self.within(("last bound", last), control.ty, to.span)?;
        }
        Ok((control, first..=last))
    }

    /// A case meets its labels in text order up to the match.
    fn choose<'s>(&self, selector: &Expr, arms: &'s [Arm], otherwise: Option<&'s Statement>) -> Worked<&'s Statement> {
        let chosen = self.expr(selector)?;
        if !self.world.types.is_ordinal(chosen.ty) {
            return Err(self.not_choosable(selector.span, chosen.ty));
        }
        for arm in arms {
            for label in &arm.labels {
                if self.label(label, chosen.ty)? == chosen.cells[0] {
                    return Ok(&arm.statement);
                }
            }
        }
        otherwise.ok_or(Failure::Raise(selector.span, Why::NoLabel(chosen.cells[0], chosen.ty)))
    }

    fn label(&self, label: &Constant, ty: TypeId) -> Worked<i64> {
        let (found, value) = self.world.constant(label, &mut Vec::new()).unwrap_or((INTEGER, 0));
        let value = Value { ty: found, cells: vec![value] };
        self.meets(&value, ty, label.span, || "as the `case` chooses by it".to_string())
    }

    /// 0 passes on the last exception with its number and statement kept.
    fn raise(&mut self, statement: &Statement, value: &Expr) -> Result<(), Stop> {
        let worked = self.wanted(value, INTEGER, || "the number of the exception".to_string());
        match self.at(statement, worked)? {
            0 if self.last.0 != 0 => Err(Stop::Exception),
            0 => Err(self.raised(statement, value.span, Why::NothingBefore, SYSTEM_ERROR)),
            number => Err(self.raised(statement, value.span, Why::Raised, number)),
        }
    }

    fn meaning(&self, name: &str) -> Option<Meaning> {
        meaning(self.world, self.frames.last().map_or(&[], |frame| frame.parameters), name)
    }

    /// Defines cells, one after the other.
    fn store(&mut self, place: &Place, values: &[i64]) {
        for (offset, value) in values.iter().enumerate() {
            self.set(place.cell.on(offset), Some(*value));
        }
    }

    /// Gives a cell a value, or takes it away.
    fn set(&mut self, cell: Cell, value: Option<i64>) {
        match (cell, self.frames.last_mut()) {
            (Cell::Store(which), _) => {
                self.values[which] = value.unwrap_or(0);
                self.marks[which] = u8::from(value.is_some());
            }
            (_, Some(frame)) => frame.set(cell, value),
            (_, None) => {}
        }
    }

    fn cell(&self, cell: Cell) -> Option<i64> {
        match cell {
            Cell::Store(which) => Some(self.values[which]).filter(|_| self.marks[which] != 0),
            Cell::Parameter(_) => self.frames.last().and_then(|frame| frame.cells[frame.place(cell)?]),
        }
    }
}

impl Frame<'_> {
    fn place(&self, cell: Cell) -> Option<usize> {
        self.parameters.iter().position(|parameter| parameter.cell == cell)
    }

    fn set(&mut self, cell: Cell, value: Option<i64>) {
        if let Some(place) = self.place(cell) {
            self.cells[place] = value;
        }
    }
}

impl Why {
    /// The number of the exception; `raise` gives its own.
    fn number(self) -> i64 {
        match self {
            Why::Past(_) | Why::Divisor(..) | Why::Exponent(..) => NUMERIC_ERROR,
            Why::Outside(..) | Why::Edge(..) | Why::EmptySet(_) => RANGE_ERROR,
            Why::Undefined(_) | Why::UndefinedPart(_) => UNDEFINED_ERROR,
            Why::NoLabel(..) => CASE_ERROR,
            Why::Raised | Why::NothingBefore => SYSTEM_ERROR,
        }
    }
}
