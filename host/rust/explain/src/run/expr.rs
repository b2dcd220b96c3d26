//! Expressions and targets, as the machine works them out.

use super::arith::{self, integer, members};
use super::{Failure, Machine, Value, Why, Worked};
use crate::fault::Fault;
use crate::kinds::{function_of, mended, name_of, operation, remedy, sides, taken};
use crate::span::Span;
use crate::syntax::{Act, Expr, ExprKind, Name, Statement, Target};
use crate::types::{Kind, TypeId, BOOLEAN, INTEGER};
use crate::world::{Cell, Meaning};

/// A part of the store, or a parameter, with its type.
pub struct Place {
    pub ty: TypeId,
    pub cell: Cell,
}

fn one(ty: TypeId, value: i64) -> Value {
    Value { ty, cells: vec![value] }
}

fn misfit(span: Span, found: String, expected: impl Into<String>) -> Failure {
    Failure::Misfit(Box::new(Fault::new(8, span, found).expected(expected)))
}

/// Why an assignment wants a kind.
pub fn holds(to: &Target) -> String {
    format!("as `{}` holds it", name_of(to))
}

impl Machine<'_> {
    /// The number that a value of the wanted type stands for, else a misfit.
    pub(super) fn meets(&self, value: &Value, ty: TypeId, span: Span, why: impl Fn() -> String) -> Worked<i64> {
        if value.ty == ty {
            return Ok(value.cells[0]);
        }
        let types = &self.world.types;
        let fault = Fault::new(8, span, format!("This is {}.", types.told(value.ty)));
        let fault = fault.expected(format!("{}, {}", types.told(ty), why()));
        Err(Failure::Misfit(Box::new(fault.hint(remedy(self.world, value.ty, ty)))))
    }

    pub(super) fn wanted(&self, expr: &Expr, ty: TypeId, why: impl Fn() -> String) -> Worked<i64> {
        let value = self.expr(expr)?;
        self.meets(&value, ty, expr.span, why)
    }

    /// A value between the bounds of an ordinal type; any value of a set fits.
    pub(super) fn within(&self, (what, value): (&'static str, i64), ty: TypeId, span: Span) -> Worked<i64> {
        match self.world.types.bounds(ty) {
            Some((low, high)) if !(low..=high).contains(&value) => Err(Failure::Raise(span, Why::Outside(what, value, ty))),
            _ => Ok(value),
        }
    }

    pub(super) fn not_countable(&self, name: &Name, ty: TypeId) -> Failure {
        misfit(name.span, format!("`{}` is {}.", name.text, self.world.types.told(ty)), "a variable that can count")
    }

    pub(super) fn not_choosable(&self, span: Span, ty: TypeId) -> Failure {
        misfit(span, format!("This is {}.", self.world.types.told(ty)), "an integer, a boolean or a name of a list, to choose by")
    }

    fn type_of(&self, name: &Name) -> Worked<TypeId> {
        match self.meaning(&name.text) {
            Some(Meaning::Type(ty)) => Ok(ty),
            _ => Err(misfit(name.span, format!("`{}` is no type.", name.text), "a type")),
        }
    }

    pub(super) fn place(&self, target: &Target) -> Worked<Place> {
        let types = &self.world.types;
        match target {
            Target::Name(name) => match self.meaning(&name.text) {
                Some(Meaning::Variable(ty, cell)) => Ok(Place { ty, cell }),
                _ => Err(misfit(name.span, format!("`{}` is no variable.", name.text), "a variable")),
            },
            Target::At(inner, index, _) => {
                let place = self.place(inner)?;
                let value = self.expr(index)?;
                let (by, element) = match types.kind(place.ty) {
                    Kind::Array { index, element } => (*index, *element),
                    _ => return Err(self.no_part(inner, place.ty, "a table, for `at`")),
                };
                let value = self.meets(&value, types.host(by), index.span, || format!("the index of `{}`", name_of(inner)))?;
                let low = types.bounds(by).map_or(0, |(low, _)| low);
                let before = (self.within(("index", value), by, index.span)? - low) as usize;
                Ok(Place { ty: element, cell: place.cell.on(before * types.cells(element)) })
            }
            Target::Dot(inner, name, _) => {
                let place = self.place(inner)?;
                match types.field(place.ty, &name.text) {
                    Some(field) => Ok(Place { ty: field.ty, cell: place.cell.on(field.offset) }),
                    None => Err(self.no_part(inner, place.ty, &format!("a record with a part `{}`", name.text))),
                }
            }
        }
    }

    fn no_part(&self, inner: &Target, ty: TypeId, expected: &str) -> Failure {
        misfit(inner.span(), format!("`{}` is {}.", name_of(inner), self.world.types.told(ty)), expected)
    }

    /// Reading comes before the meeting of types, so that -104 wins over sticking.
    fn read(&self, target: &Target) -> Worked<Value> {
        let place = self.place(target)?;
        self.worked(self.world.types.cells(place.ty));
        let undefined = match self.world.types.kind(place.ty) {
            Kind::Array { .. } | Kind::Record { .. } => Why::UndefinedPart,
            _ => Why::Undefined,
        };
        let cells = (0..self.world.types.cells(place.ty)).map(|offset| {
            let cell = place.cell.on(offset);
            self.cell(cell).ok_or(Failure::Raise(target.span(), undefined(cell)))
        });
        Ok(Value { ty: self.world.types.host(place.ty), cells: cells.collect::<Worked<_>>()? })
    }

    pub(super) fn expr(&self, expr: &Expr) -> Worked<Value> {
        self.worked(1);
        match &expr.kind {
            ExprKind::Number(value) => Ok(one(INTEGER, *value)),
            ExprKind::Negated(value) => Ok(one(INTEGER, -value)),
            ExprKind::Truth(value) => Ok(one(BOOLEAN, i64::from(*value))),
            ExprKind::ErrorNumber => Ok(one(INTEGER, self.last.0)),
            ExprKind::Target(target) => match target {
                Target::Name(name) => match self.meaning(&name.text) {
                    Some(Meaning::EnumName(ty, value)) => Ok(one(ty, value)),
                    _ => self.read(target),
                },
                _ => self.read(target),
            },
            ExprKind::Members(ty, parts) => self.members(ty, parts),
            ExprKind::Binary(operator, left, right) => self.binary(expr.span, operator, left, right),
            ExprKind::Unary(function, part) => {
                let value = self.expr(part)?;
                self.unary(expr.span, function, &value, part.span)
            }
            ExprKind::First(ty) => self.bound(ty, |(low, _)| low),
            ExprKind::Last(ty) => self.bound(ty, |(_, high)| high),
        }
    }

    fn bound(&self, name: &Name, pick: fn((i64, i64)) -> i64) -> Worked<Value> {
        let ty = self.type_of(name)?;
        let told = || format!("`{}` is the kind of {}.", name.text, self.world.types.told(ty));
        let bounds = self.world.types.bounds(ty).ok_or_else(|| misfit(name.span, told(), "a kind that has a first and a last value"))?;
        Ok(one(self.world.types.host(ty), pick(bounds)))
    }

    /// The type is met at once; each member's kind, then its range, before the next.
    fn members(&self, name: &Name, parts: &[Expr]) -> Worked<Value> {
        let ty = self.type_of(name)?;
        let told = || format!("`{}` is the kind of {}.", name.text, self.world.types.told(ty));
        let base = self.world.types.base(ty).ok_or_else(|| misfit(name.span, told(), "a kind that a `setof` made"))?;
        let mut set = 0;
        for part in parts {
            let member = self.wanted(part, self.world.types.host(base), || format!("as `{}` has it", name.text))?;
            set |= 1i64 << self.within(("member", member), base, part.span)?;
        }
        Ok(one(ty, set))
    }

    fn binary(&self, span: Span, operator: &'static str, left: &Expr, right: &Expr) -> Worked<Value> {
        let x = self.expr(left)?;
        if matches!(operator, "and_then" | "or_else") {
            let first = self.meets(&x, BOOLEAN, left.span, || format!("on the left of `{operator}`"))?;
            if (operator == "or_else") == (first == 1) {
                return Ok(one(BOOLEAN, first));
            }
        }
        let y = self.expr(right)?;
        let types = &self.world.types;
        let ty = operation(self.world, operator, x.ty, y.ty).ok_or_else(|| {
            let found = format!("`{operator}` has {} on its left and {} on its right.", types.told(x.ty), types.told(y.ty));
            let fault = Fault::new(8, Span::new(left.span.start, right.span.end), found).expected(sides(operator));
            Failure::Misfit(Box::new(fault.hint(mended(self.world, operator, x.ty, y.ty))))
        })?;
        let value = match types.base(x.ty) {
            Some(_) => Ok(arith::sets(operator, x.cells[0], y.cells[0])),
            None => arith::ordinals(operator, x.cells[0], y.cells[0]),
        };
        Ok(one(ty, value.map_err(|why| Failure::Raise(span, why))?))
    }

    fn unary(&self, span: Span, function: &'static str, value: &Value, part: Span) -> Worked<Value> {
        let types = &self.world.types;
        let ty = function_of(self.world, function, value.ty)
            .ok_or_else(|| misfit(part, format!("`{function}` has {} after it.", types.told(value.ty)), taken(function)))?;
        let x = value.cells[0];
        let edge = |moved: i64| match types.bounds(value.ty) {
            Some((low, high)) if (low..=high).contains(&moved) => Ok(moved),
            _ => Err(Why::Edge(function, x, value.ty)),
        };
        let worked = match function {
            "-" => integer(-x),
            "not" => Ok(1 - x),
            "abs" => integer(x.abs()),
            "sqr" => integer(x * x),
            "odd" => Ok(x & 1),
            "pred" => edge(x - 1),
            "succ" => edge(x + 1),
            "card" => Ok(members(x).count() as i64),
            "setmin" => members(x).next().ok_or(Why::EmptySet(function)),
            "setmax" => members(x).next_back().ok_or(Why::EmptySet(function)),
            _ => Ok(x),
        };
        Ok(one(ty, worked.map_err(|why| Failure::Raise(span, why))?))
    }

    /// The variables that a statement itself uses, with their values now.
    pub(super) fn values_in(&self, statement: &Statement) -> Vec<(Span, TypeId, Option<i64>)> {
        let mut targets = Vec::new();
        match &statement.act {
            Act::Assign(to, value) => {
                uses(value, &mut targets);
                indices(to, &mut targets);
            }
            Act::If(test, _, _) | Act::While(test, _) => uses(test, &mut targets),
            Act::For(_, from, to, _) => [from, to].iter().for_each(|bound| uses(bound, &mut targets)),
            Act::Case(selector, _, _) => uses(selector, &mut targets),
            Act::Call(_, arguments) => arguments.iter().for_each(|argument| uses(argument, &mut targets)),
            Act::Raise(value) => uses(value, &mut targets),
            Act::Begin(_) => {}
        }
        let valued = |target: &&Target| {
            let place = self.place(target).ok().filter(|place| self.world.types.cells(place.ty) == 1)?;
            Some((target.span(), place.ty, self.cell(place.cell)))
        };
        targets.iter().filter_map(valued).collect()
    }
}

/// The targets that an expression reads, in text order.
fn uses<'e>(expr: &'e Expr, targets: &mut Vec<&'e Target>) {
    match &expr.kind {
        ExprKind::Target(target) => {
            targets.push(target);
            indices(target, targets);
        }
        ExprKind::Members(_, parts) => parts.iter().for_each(|part| uses(part, targets)),
        ExprKind::Binary(_, left, right) => [left, right].iter().for_each(|part| uses(part, targets)),
        ExprKind::Unary(_, part) => uses(part, targets),
        _ => {}
    }
}

/// The targets that the indices of a target read.
fn indices<'e>(target: &'e Target, targets: &mut Vec<&'e Target>) {
    match target {
        Target::Name(_) => {}
        Target::At(inner, index, _) => {
            indices(inner, targets);
            uses(index, targets);
        }
        Target::Dot(inner, _, _) => indices(inner, targets),
    }
}
