//! The marking machine: it runs a script as written, keeps a type with every value, and sticks
//! when a part that it carries out meets a type which the forms don't admit there.

use crate::answer::{Alive, Answer, Outcome};
use crate::arith::{self, *};
use crate::frames::Memory;
use crate::judge::Script;
use crate::level::Level;
use crate::scope::{Cell, Scope};
use crate::syntax::{Act, Arm, Body, Constant, Expr, Function, Operator, Statement, Target};
use crate::types::{Type, TypeId, BOOLEAN, INTEGER};
use crate::world::{Meaning, World};

/// Why statements end early. The exception itself stands in `last`.
enum Stop {
    Exception,
    Spent,
    Stuck,
}

/// Why an expression has no value.
enum Failure {
    Exception(i64),
    Misfit,
}

type Worked<T> = Result<T, Failure>;

impl From<i64> for Failure {
    fn from(exception: i64) -> Failure {
        Failure::Exception(exception)
    }
}

/// A value with its type, which is never a range. An ordinal or set has one cell.
struct Value {
    ty: TypeId,
    cells: Vec<i64>,
}

/// A part of the store, or a parameter, with its type.
struct Place {
    ty: TypeId,
    cell: Cell,
}

struct Machine<'a> {
    level: Level,
    world: &'a World,
    procedures: &'a [Body],
    memory: Memory<'a>,
    budget: u32,
    steps: u32,
    /// Number and statement of the last exception; the number is 0 before any.
    last: (i64, u32),
}

/// Marks a script that breaks no rule but the fitting of kinds in a body, on a store that fits it.
pub fn mark(script: &Script, values: &mut [i64], marks: &mut [u8], budget: u32) -> (Answer, Alive) {
    let (machine, outcome) = marked(script, values, marks, budget);
    let alive = machine.memory.alive(script.world.parameter_cells);
    (Answer { outcome, steps: machine.steps }, alive)
}

/// How deep the calls nest when the script is marked.
pub fn deepest(script: &Script, values: &mut [i64], marks: &mut [u8], budget: u32) -> usize {
    marked(script, values, marks, budget).0.memory.deepest
}

/// The machine when it stops, and how it ended.
fn marked<'a>(
    script: &'a Script,
    values: &'a mut [i64],
    marks: &'a mut [u8],
    budget: u32,
) -> (Machine<'a>, Outcome) {
    let (world, procedures) = (&script.world, script.procedures.as_slice());
    let memory = Memory::new(values, marks);
    let (level, steps, last) = (script.level, 0, (0, 0));
    let mut machine = Machine { level, world, procedures, memory, budget, steps, last };
    let outcome = match machine.body(&script.main) {
        Ok(()) => Outcome::Normal,
        Err(Stop::Spent) => Outcome::Spent,
        Err(Stop::Stuck) => Outcome::Stuck,
        Err(Stop::Exception) => {
            Outcome::Exception { number: machine.last.0, statement: machine.last.1 }
        }
    };
    (machine, outcome)
}

fn one(ty: TypeId, value: i64) -> Value {
    Value { ty, cells: vec![value] }
}

fn truth(value: bool) -> Value {
    one(BOOLEAN, i64::from(value))
}

impl Value {
    /// The number that a value of the wanted type stands for, else a misfit.
    fn of(&self, ty: TypeId) -> Worked<i64> {
        match self.ty == ty {
            true => Ok(self.cells[0]),
            false => Err(Failure::Misfit),
        }
    }
}

impl<'a> Machine<'a> {
    /// The names that are known where the machine is.
    fn scope(&self) -> Scope<'a> {
        Scope { world: self.world, parameters: self.memory.parameters() }
    }

    fn body(&mut self, body: &Body) -> Result<(), Stop> {
        match (self.statements(&body.statements), &body.handler) {
            (Err(Stop::Exception), Some(handler)) => self.statements(handler),
            (end, _) => end,
        }
    }

    fn statements(&mut self, list: &[Statement]) -> Result<(), Stop> {
        list.iter().try_for_each(|statement| self.statement(statement))
    }

    fn step(&mut self) -> Result<(), Stop> {
        if self.steps == self.budget {
            return Err(Stop::Spent);
        }
        self.steps += 1;
        Ok(())
    }

    /// Turns a failed part of a statement into an exception at that statement, or sticks.
    fn at<T>(&mut self, number: u32, worked: Worked<T>) -> Result<T, Stop> {
        worked.map_err(|failure| match failure {
            Failure::Misfit => Stop::Stuck,
            Failure::Exception(exception) => {
                self.last = (exception, number);
                Stop::Exception
            }
        })
    }

    fn statement(&mut self, statement: &Statement) -> Result<(), Stop> {
        self.step()?;
        let number = statement.number;
        match &statement.act {
            Act::Assign(to, value) => {
                let worked = self.assign(to, value);
                self.at(number, worked)
            }
            Act::Begin(list) => self.statements(list),
            Act::If(test, yes, no) => match (self.condition(number, test)?, no) {
                (true, _) => self.statement(yes),
                (false, Some(no)) => self.statement(no),
                (false, None) => Ok(()),
            },
            Act::While(test, inner) => {
                while self.condition(number, test)? {
                    self.step()?;
                    self.statement(inner)?;
                }
                Ok(())
            }
            Act::For(name, from, to, inner) => self.count(number, name, (from, to), inner),
            Act::Case(selector, arms, otherwise) => {
                let chosen = self.choose(selector, arms, otherwise.as_deref());
                self.at(number, chosen).and_then(|inner| self.statement(inner))
            }
            Act::Call(name, arguments) => self.call(number, name, arguments),
            Act::Raise(value) => self.raise(number, value),
        }
    }

    /// The arguments are worked out among the caller's names, the body runs among its own.
    fn call(&mut self, number: u32, name: &str, arguments: &[Expr]) -> Result<(), Stop> {
        let Some(Meaning::Procedure(which)) = self.scope().meaning(name) else {
            return Err(Stop::Stuck);
        };
        let parameters = &self.world.procedures[which];
        let mut values = Vec::new();
        for (argument, parameter) in arguments.iter().zip(parameters) {
            let worked = self.argument(argument, parameter.ty);
            values.push(self.at(number, worked)?);
        }
        self.memory.enter(parameters, values);
        let end = self.body(&self.procedures[which]);
        // A run that is spent or stuck stays where it is; all else returns.
        if !matches!(end, Err(Stop::Spent | Stop::Stuck)) {
            self.memory.leave();
        }
        end
    }

    /// The value, the meeting of types, the range test: all before the next argument.
    fn argument(&self, argument: &Expr, ty: TypeId) -> Worked<i64> {
        let value = self.expr(argument)?.of(self.world.types.host(ty))?;
        match self.world.types.bounds(ty) {
            Some((low, high)) => Ok(within(value, low, high)?),
            None => Ok(value),
        }
    }

    fn condition(&mut self, number: u32, test: &Expr) -> Result<bool, Stop> {
        let worked = self.expr(test).and_then(|value| value.of(BOOLEAN));
        Ok(self.at(number, worked)? == 1)
    }

    /// Value, indices, the fitting of types, the range test, then the cells (R6).
    fn assign(&mut self, to: &Target, value: &Expr) -> Worked<()> {
        let value = self.expr(value)?;
        let place = self.place(to)?;
        if value.ty != self.world.types.host(place.ty) {
            return Err(Failure::Misfit);
        }
        if let Some((low, high)) = self.world.types.bounds(place.ty) {
            within(value.cells[0], low, high)?;
        }
        self.memory.store(place.cell, &value.cells);
        Ok(())
    }

    fn count(
        &mut self,
        number: u32,
        name: &str,
        (from, to): (&Expr, &Expr),
        inner: &Statement,
    ) -> Result<(), Stop> {
        let rounds = self.rounds(name, from, to);
        let (cell, from, to) = self.at(number, rounds)?;
        for value in from..=to {
            self.step()?;
            self.memory.store(cell, &[value]);
            self.statement(inner)?;
        }
        if self.level.has(Level::COUNTERS) {
            self.memory.undefine(cell);
        }
        Ok(())
    }

    /// The control variable's cell, first and last value; these fit its type if there is a round (R8).
    fn rounds(&self, name: &str, from: &Expr, to: &Expr) -> Worked<(Cell, i64, i64)> {
        let from = self.expr(from)?;
        let to = self.expr(to)?;
        let control = self.place(&Target::Name(name.to_string()))?;
        let (low, high) = self.world.types.bounds(control.ty).ok_or(Failure::Misfit)?;
        let host = self.world.types.host(control.ty);
        let (from, to) = (from.of(host)?, to.of(host)?);
        if from <= to {
            within(from, low, high)?;
            within(to, low, high)?;
        }
        Ok((control.cell, from, to))
    }

    /// A case meets its labels in text order up to the match.
    fn choose<'s>(
        &self,
        selector: &Expr,
        arms: &'s [Arm],
        otherwise: Option<&'s Statement>,
    ) -> Worked<&'s Statement> {
        let selector = self.expr(selector)?;
        if !self.world.types.is_ordinal(selector.ty) {
            return Err(Failure::Misfit);
        }
        for arm in arms {
            for label in &arm.labels {
                let label = self.constant(label)?;
                if label.of(selector.ty)? == selector.cells[0] {
                    return Ok(&arm.statement);
                }
            }
        }
        otherwise.ok_or(Failure::Exception(CASE_ERROR))
    }

    /// 0 passes on the last exception with its number and statement kept.
    fn raise(&mut self, number: u32, value: &Expr) -> Result<(), Stop> {
        let worked = self.expr(value).and_then(|value| value.of(INTEGER));
        let exception = match self.at(number, worked)? {
            0 if self.last.0 != 0 => return Err(Stop::Exception),
            0 => SYSTEM_ERROR,
            exception => exception,
        };
        self.at(number, Err(Failure::Exception(exception)))
    }

    fn constant(&self, constant: &Constant) -> Worked<Value> {
        match constant {
            Constant::Number(value) => Ok(one(INTEGER, *value)),
            Constant::Negated(value) => Ok(one(INTEGER, -value)),
            Constant::Truth(value) => Ok(truth(*value)),
            Constant::Name(name) => self.enum_name(name).ok_or(Failure::Misfit),
        }
    }

    fn enum_name(&self, name: &str) -> Option<Value> {
        match self.scope().meaning(name) {
            Some(Meaning::EnumName(ty, value)) => Some(one(ty, value)),
            _ => None,
        }
    }

    fn type_of(&self, name: &str) -> Worked<TypeId> {
        match self.scope().meaning(name) {
            Some(Meaning::Type(ty)) => Ok(ty),
            _ => Err(Failure::Misfit),
        }
    }

    fn place(&self, target: &Target) -> Worked<Place> {
        let types = &self.world.types;
        match target {
            Target::Name(name) => match self.scope().meaning(name) {
                Some(Meaning::Variable(ty, cell)) => Ok(Place { ty, cell }),
                _ => Err(Failure::Misfit),
            },
            Target::At(inner, index) => {
                let inner = self.place(inner)?;
                let value = self.expr(index)?;
                let Type::Array { index, element } = types.get(inner.ty) else {
                    return Err(Failure::Misfit);
                };
                let (low, high) = types.bounds(*index).ok_or(Failure::Misfit)?;
                let index = within(value.of(types.host(*index))?, low, high)? - low;
                let cells = index as usize * types.cells(*element);
                Ok(Place { ty: *element, cell: inner.cell.on(cells) })
            }
            Target::Dot(inner, name) => {
                let inner = self.place(inner)?;
                let field = types.field(inner.ty, name).ok_or(Failure::Misfit)?;
                Ok(Place { ty: field.ty, cell: inner.cell.on(field.offset) })
            }
        }
    }

    /// Reading comes before the meeting of types, so that -104 wins over sticking (R4).
    fn read(&self, target: &Target) -> Worked<Value> {
        let place = self.place(target)?;
        let cells = self.memory.read(place.cell, self.world.types.cells(place.ty));
        let cells = cells.ok_or(UNDEFINED_ERROR)?;
        Ok(Value { ty: self.world.types.host(place.ty), cells })
    }

    fn expr(&self, expr: &Expr) -> Worked<Value> {
        match expr {
            Expr::Number(value) => Ok(one(INTEGER, *value)),
            Expr::Negated(value) => Ok(one(INTEGER, -value)),
            Expr::Truth(value) => Ok(truth(*value)),
            Expr::ErrorNumber => Ok(one(INTEGER, self.last.0)),
            Expr::Target(Target::Name(name)) if self.enum_name(name).is_some() => {
                self.enum_name(name).ok_or(Failure::Misfit)
            }
            Expr::Target(target) => self.read(target),
            Expr::Members(ty, parts) => self.members(ty, parts),
            Expr::Binary(operator, left, right) => self.binary(*operator, left, right),
            Expr::Unary(function, part) => {
                let value = self.expr(part)?;
                self.unary(*function, &value)
            }
            Expr::First(ty) => self.bound(ty, |(low, _)| low),
            Expr::Last(ty) => self.bound(ty, |(_, high)| high),
        }
    }

    fn bound(&self, name: &str, pick: fn((i64, i64)) -> i64) -> Worked<Value> {
        let ty = self.type_of(name)?;
        let bounds = self.world.types.bounds(ty).ok_or(Failure::Misfit)?;
        Ok(one(self.world.types.host(ty), pick(bounds)))
    }

    /// The type is met at once (R7); each member's kind, then its range, before the next (R30).
    fn members(&self, name: &str, parts: &[Expr]) -> Worked<Value> {
        let ty = self.type_of(name)?;
        let base = self.world.types.base(ty).ok_or(Failure::Misfit)?;
        let (low, high) = self.world.types.bounds(base).ok_or(Failure::Misfit)?;
        let mut set = 0;
        for part in parts {
            let member = self.expr(part)?.of(self.world.types.host(base))?;
            set |= 1 << within(member, low, high)?;
        }
        Ok(one(ty, set))
    }

    fn binary(&self, operator: Operator, left: &Expr, right: &Expr) -> Worked<Value> {
        let left = self.expr(left)?;
        match (operator, left.ty, left.cells[0]) {
            (Operator::AndThen | Operator::OrElse, ty, _) if ty != BOOLEAN => {
                return Err(Failure::Misfit);
            }
            (Operator::AndThen, _, 0) => return Ok(truth(false)),
            (Operator::OrElse, _, 1) => return Ok(truth(true)),
            _ => {}
        }
        let right = self.expr(right)?;
        self.operate(operator, &left, &right)
    }

    fn operate(&self, operator: Operator, left: &Value, right: &Value) -> Worked<Value> {
        use Operator::*;
        let types = &self.world.types;
        let (x, y) = (left.cells[0], right.cells[0]);
        let same = left.ty == right.ty;
        let set = same && types.base(left.ty).is_some();
        let ordinal = same && types.is_ordinal(left.ty);
        let result = match operator {
            Add | Subtract | Multiply if set => left.ty,
            Add | Subtract | Multiply | Power | Div | Mod if same && left.ty == INTEGER => INTEGER,
            Equal | Unequal | LessEqual | GreaterEqual if set || ordinal => BOOLEAN,
            Less | Greater if ordinal => BOOLEAN,
            And | Or | AndThen | OrElse if same && left.ty == BOOLEAN => BOOLEAN,
            In if types.base(right.ty).is_some_and(|b| types.host(b) == left.ty) => BOOLEAN,
            _ => return Err(Failure::Misfit),
        };
        match set {
            true => Ok(one(result, arith::sets(operator, x, y))),
            false => Ok(one(result, arith::ordinals(operator, x, y)?)),
        }
    }

    fn unary(&self, function: Function, value: &Value) -> Worked<Value> {
        let types = &self.world.types;
        let x = value.cells[0];
        let bounds = types.bounds(value.ty).ok_or(Failure::Misfit);
        let set = types.base(value.ty).map(|base| types.host(base)).ok_or(Failure::Misfit);
        match function {
            Function::Negate => Ok(one(INTEGER, integer(-value.of(INTEGER)?)?)),
            Function::Not => Ok(truth(value.of(BOOLEAN)? == 0)),
            Function::Abs => Ok(one(INTEGER, integer(value.of(INTEGER)?.abs())?)),
            Function::Sqr => Ok(one(INTEGER, integer(value.of(INTEGER)?.pow(2))?)),
            Function::Odd => Ok(truth(value.of(INTEGER)? % 2 != 0)),
            Function::Ord => bounds.map(|_| one(INTEGER, x)),
            Function::Pred => bounds.and_then(|(l, h)| Ok(one(value.ty, within(x - 1, l, h)?))),
            Function::Succ => bounds.and_then(|(l, h)| Ok(one(value.ty, within(x + 1, l, h)?))),
            Function::Card => set.map(|_| one(INTEGER, members(x).count() as i64)),
            Function::SetMin => Ok(one(set?, members(x).next().ok_or(RANGE_ERROR)?)),
            Function::SetMax => Ok(one(set?, members(x).next_back().ok_or(RANGE_ERROR)?)),
        }
    }
}
