//! Judging of bodies (rows 7 and 8): which names they use, and which kinds meet. Judging goes on behind a fault, as a lower number may
//! apply further on.

use crate::fault::{count, Fault};
use crate::near::nearest;
use crate::span::Span;
use crate::syntax::{Act, Arm, Body, Expr, ExprKind, Name, Statement, Target};
use crate::types::{Kind, TypeId, BOOLEAN, INTEGER};
use crate::world::{past_integers, Cell, Meaning, Sort, Variable, World};

/// The type of a judged expression, never a range; none where a fault was found.
type Typed = Option<TypeId>;

pub struct Judge<'a> {
    pub world: &'a World,
    /// The parameters of the procedure whose body it is.
    pub parameters: &'a [Variable],
    pub faults: &'a mut Vec<Fault>,
    /// Control variables of the loops around, by their cells.
    pub controls: Vec<Cell>,
}

/// What a name means in a body: its parameters come first.
pub fn meaning(world: &World, parameters: &[Variable], name: &str) -> Option<Meaning> {
    match parameters.iter().find(|parameter| parameter.name == name) {
        Some(parameter) => Some(Meaning::Variable(parameter.ty, parameter.cell)),
        None => world.meaning(name),
    }
}

impl Judge<'_> {
    pub fn body(&mut self, body: &Body) {
        let handler = body.handler.as_deref().unwrap_or_default();
        body.statements.iter().chain(handler).for_each(|statement| self.statement(statement));
    }

    fn meaning(&self, name: &Name) -> Option<Meaning> {
        meaning(self.world, self.parameters, &name.text)
    }

    fn unknown<T>(&mut self, name: &Name, sort: Sort) -> Option<T> {
        self.faults.push(self.world.unknown(name, sort, self.parameters));
        None
    }

    /// Kinds that don't fit.
    fn misfit<T>(&mut self, span: Span, found: String, expected: impl Into<String>) -> Option<T> {
        self.faults.push(Fault::new(8, span, found).expected(expected).misfit());
        None
    }

    /// Notes a misfit unless the value has this type; `why` says what wants it.
    fn want(&mut self, typed: Typed, ty: TypeId, span: Span, why: &str) {
        let types = &self.world.types;
        match typed {
            Some(found) if found != ty => {
                let hint = remedy(self.world, found, ty);
                let found = format!("This is {}.", types.told(found));
                let expected = format!("{}, {why}", types.told(ty));
                self.faults.push(Fault::new(8, span, found).expected(expected).hint(hint).misfit());
            }
            _ => {}
        }
    }

    fn statement(&mut self, statement: &Statement) {
        match &statement.act {
            Act::Assign(to, value) => self.assign(to, value),
            Act::Begin(list) => list.iter().for_each(|inner| self.statement(inner)),
            Act::If(test, yes, no) => {
                self.condition(test, "if");
                self.statement(yes);
                no.iter().for_each(|no| self.statement(no));
            }
            Act::While(test, inner) => {
                self.condition(test, "while");
                self.statement(inner);
            }
            Act::For(control, from, to, inner) => self.count(control, from, to, inner),
            Act::Case(selector, arms, otherwise) => {
                self.case(selector, arms);
                otherwise.iter().for_each(|inner| self.statement(inner));
            }
            Act::Call(name, arguments) => self.call(name, arguments),
            Act::Raise(value) => {
                let typed = self.expr(value);
                self.want(typed, INTEGER, value.span, "the number of the exception");
            }
        }
    }

    fn condition(&mut self, test: &Expr, word: &str) {
        let typed = self.expr(test);
        self.want(typed, BOOLEAN, test.span, &format!("the test of `{word}`"));
    }

    fn assign(&mut self, to: &Target, value: &Expr) {
        if let Target::Name(name) = to {
            if let Some(Meaning::Variable(_, cell)) = self.meaning(name) {
                self.controlled(name, cell);
            }
        }
        let place = self.target(to);
        let typed = self.expr(value);
        if let Some(ty) = place {
            let why = format!("as `{}` holds it", name_of(to));
            self.want(typed, self.world.types.host(ty), value.span, &why);
        }
    }

    /// A loop's variable is changed by the loop alone.
    fn controlled(&mut self, name: &Name, cell: Cell) {
        if self.controls.contains(&cell) {
            let found = format!("`{}` is counted by the `for` around.", name.text);
            self.faults.push(Fault::new(8, name.span, found).expected("another variable").hint("Only the loop changes its variable."));
        }
    }

    fn count(&mut self, name: &Name, from: &Expr, to: &Expr, inner: &Statement) {
        let control = match self.meaning(name) {
            Some(Meaning::Variable(ty, cell)) => Some((ty, cell)),
            _ => self.unknown(name, Sort::Variable),
        };
        let bounds = [(self.expr(from), from.span), (self.expr(to), to.span)];
        let (ty, cell) = match control {
            Some(control) => control,
            None => return self.statement(inner),
        };
        self.controlled(name, cell);
        self.controls.push(cell);
        self.statement(inner);
        self.controls.pop();
        if !self.world.types.is_ordinal(ty) {
            let found = format!("`{}` is {}.", name.text, self.world.types.told(ty));
            self.misfit::<()>(name.span, found, "a variable that can count: of integers, booleans, a list of names, or a range");
            return;
        }
        for (typed, span) in bounds {
            self.want(typed, self.world.types.host(ty), span, &format!("as `{}` counts", name.text));
        }
    }

    fn call(&mut self, name: &Name, arguments: &[Expr]) {
        let procedure = match self.meaning(name) {
            Some(Meaning::Procedure(procedure)) => Some(procedure),
            _ => self.unknown(name, Sort::Procedure),
        };
        let values: Vec<(Typed, Span)> = arguments.iter().map(|argument| (self.expr(argument), argument.span)).collect();
        let parameters = match procedure {
            Some(procedure) => &self.world.procedures[procedure],
            None => return,
        };
        if values.len() != parameters.len() {
            let list: Vec<&str> = parameters.iter().map(|parameter| parameter.name.as_str()).collect();
            let found = format!("This call gives {}.", count(values.len(), "value"));
            let expected = match list.as_slice() {
                [] => format!("none: `{}` has no parameters", name.text),
                _ => format!("{}, for the parameters `{}`", list.len(), list.join("` `")),
            };
            self.faults.push(Fault::new(8, name.span, found).expected(expected));
        }
        for ((typed, span), parameter) in values.into_iter().zip(parameters) {
            self.want(typed, self.world.types.host(parameter.ty), span, &format!("for the parameter `{}`", parameter.name));
        }
    }

    fn case(&mut self, selector: &Expr, arms: &[Arm]) {
        let host = self.expr(selector);
        if let Some(ty) = host.filter(|ty| !self.world.types.is_ordinal(*ty)) {
            let found = format!("This is {}.", self.world.types.told(ty));
            self.misfit::<()>(selector.span, found, "an integer, a boolean or a name of a list, to choose by");
        }
        let mut seen = Vec::new();
        for arm in arms {
            self.labels(arm, host, &mut seen);
            self.statement(&arm.statement);
        }
    }

    /// Labels differ by value over all arms of the case.
    fn labels(&mut self, arm: &Arm, host: Typed, seen: &mut Vec<(TypeId, i64)>) {
        for label in &arm.labels {
            if let Some((ty, value)) = self.world.constant(label, self.faults) {
                if seen.contains(&(ty, value)) {
                    let found = format!("The label {} stands in this `case` already.", self.world.types.shown(ty, value));
                    self.faults.push(Fault::new(8, label.span, found).hint("Remove one of the two."));
                }
                seen.push((ty, value));
                if let Some(host) = host {
                    self.want(Some(ty), host, label.span, "as the `case` chooses by it");
                }
            }
        }
    }

    fn target(&mut self, target: &Target) -> Typed {
        match target {
            Target::Name(name) => match self.meaning(name) {
                Some(Meaning::Variable(ty, _)) => Some(ty),
                _ => self.unknown(name, Sort::Variable),
            },
            Target::At(inner, index, _) => {
                let ty = self.target(inner);
                let typed = self.expr(index);
                self.at(ty?, inner, typed, index.span)
            }
            Target::Dot(inner, field, _) => {
                let ty = self.target(inner)?;
                self.dot(ty, inner, field)
            }
        }
    }

    fn at(&mut self, ty: TypeId, inner: &Target, typed: Typed, span: Span) -> Typed {
        let types = &self.world.types;
        match types.kind(ty) {
            Kind::Array { index, element } => {
                self.want(typed, types.host(*index), span, &format!("the index of `{}`", name_of(inner)));
                Some(*element)
            }
            _ => {
                let found = format!("`{}` is {}.", name_of(inner), types.told(ty));
                self.misfit(inner.span(), found, "a table, for `at`")
            }
        }
    }

    fn dot(&mut self, ty: TypeId, inner: &Target, name: &Name) -> Typed {
        let types = &self.world.types;
        let fields = match types.kind(ty) {
            Kind::Record { fields } => fields,
            _ => {
                let found = format!("`{}` is {}.", name_of(inner), types.told(ty));
                return self.misfit(inner.span(), found, "a record, for `dot`");
            }
        };
        if let Some(field) = types.field(ty, &name.text) {
            return Some(field.ty);
        }
        let known: Vec<&str> = fields.iter().map(|field| field.name.as_str()).collect();
        let fault = Fault::new(7, name.span, format!("The record `{}` has no part `{}`.", types.name(ty), name.text));
        let fault = fault.expected(format!("one of its parts: `{}`", known.join("` `")));
        let near = nearest(&name.text, known.iter().copied());
        self.faults.push(fault.hint(near.map_or(String::new(), |near| format!("Did you mean `{near}`?"))));
        None
    }

    fn expr(&mut self, expr: &Expr) -> Typed {
        match &expr.kind {
            ExprKind::Number(_) | ExprKind::ErrorNumber => Some(INTEGER),
            ExprKind::Truth(_) => Some(BOOLEAN),
            ExprKind::Negated(value) if *value == i64::from(i32::MIN) => {
                self.faults.push(past_integers(expr.span));
                None
            }
            ExprKind::Negated(_) => Some(INTEGER),
            ExprKind::Target(target) => self.read(target),
            ExprKind::Members(ty, parts) => self.members(ty, parts),
            ExprKind::Binary(operator, left, right) => {
                let (x, y) = (self.expr(left), self.expr(right));
                self.binary(operator, (x?, left.span), (y?, right.span))
            }
            ExprKind::Unary(function, part) => {
                let typed = self.expr(part)?;
                self.unary(function, typed, part.span)
            }
            ExprKind::First(ty) | ExprKind::Last(ty) => {
                let id = self.world.type_of(ty, self.faults)?;
                match self.world.types.is_ordinal(id) {
                    true => Some(self.world.types.host(id)),
                    false => {
                        let found = format!("`{}` is the kind of {}.", ty.text, self.world.types.told(id));
                        self.misfit(ty.span, found, "a kind that has a first and a last value")
                    }
                }
            }
        }
    }

    /// A variable or a part of one, or an enum name.
    fn read(&mut self, target: &Target) -> Typed {
        if let Target::Name(name) = target {
            return match self.meaning(name) {
                Some(Meaning::EnumName(ty, _)) => Some(ty),
                Some(Meaning::Variable(ty, _)) => Some(self.world.types.host(ty)),
                _ => self.unknown(name, Sort::Value),
            };
        }
        self.target(target).map(|ty| self.world.types.host(ty))
    }

    fn members(&mut self, name: &Name, parts: &[Expr]) -> Typed {
        let ty = self.world.type_of(name, self.faults);
        let base = ty.and_then(|ty| self.world.types.base(ty));
        if let (Some(ty), None) = (ty, base) {
            let found = format!("`{}` is the kind of {}.", name.text, self.world.types.told(ty));
            self.misfit::<()>(name.span, found, "a kind that a `setof` made");
        }
        for part in parts {
            let typed = self.expr(part);
            if let Some(base) = base {
                self.want(typed, self.world.types.host(base), part.span, &format!("as `{}` has it", name.text));
            }
        }
        ty.filter(|_| base.is_some())
    }

    fn binary(&mut self, operator: &str, (x, left): (TypeId, Span), (y, right): (TypeId, Span)) -> Typed {
        let types = &self.world.types;
        let given = operation(self.world, operator, x, y);
        if given.is_none() {
            let found = format!("`{operator}` has {} on its left and {} on its right.", types.told(x), types.told(y));
            let fault = Fault::new(8, Span::new(left.start, right.end), found).expected(sides(operator));
            self.faults.push(fault.hint(mended(self.world, operator, x, y)).misfit());
        }
        given
    }

    fn unary(&mut self, function: &str, ty: TypeId, span: Span) -> Typed {
        match function_of(self.world, function, ty) {
            Some(ty) => Some(ty),
            None => {
                let found = format!("`{function}` has {} after it.", self.world.types.told(ty));
                self.misfit(span, found, taken(function))
            }
        }
    }
}

/// The name that a target starts with.
pub fn name_of(target: &Target) -> &str {
    match target {
        Target::Name(name) => &name.text,
        Target::At(inner, _, _) | Target::Dot(inner, _, _) => name_of(inner),
    }
}

/// The type that a two-sided operator gives, if it takes these.
pub fn operation(world: &World, operator: &str, x: TypeId, y: TypeId) -> Typed {
    let types = &world.types;
    if operator == "in" {
        let fits = types.base(y).map_or(false, |base| types.host(base) == x);
        return Some(BOOLEAN).filter(|_| fits);
    }
    let (set, ordinal) = (types.base(x).is_some(), types.is_ordinal(x));
    match operator {
        _ if x != y => None,
        "+" | "-" | "*" if x == INTEGER || set => Some(x),
        "**" | "div" | "mod" if x == INTEGER => Some(INTEGER),
        "=" | "<>" | "<=" | ">=" if ordinal || set => Some(BOOLEAN),
        "<" | ">" if ordinal => Some(BOOLEAN),
        "and" | "or" | "and_then" | "or_else" if x == BOOLEAN => Some(BOOLEAN),
        _ => None,
    }
}

/// The type that a function gives, if it takes this.
pub fn function_of(world: &World, function: &str, ty: TypeId) -> Typed {
    let types = &world.types;
    let base = types.base(ty).map(|base| types.host(base));
    match function {
        "-" | "abs" | "sqr" if ty == INTEGER => Some(INTEGER),
        "not" if ty == BOOLEAN => Some(BOOLEAN),
        "odd" if ty == INTEGER => Some(BOOLEAN),
        "ord" if types.is_ordinal(ty) => Some(INTEGER),
        "pred" | "succ" if types.is_ordinal(ty) => Some(ty),
        "card" => base.map(|_| INTEGER),
        "setmin" | "setmax" => base,
        _ => None,
    }
}

/// What an operator takes.
pub fn sides(operator: &str) -> &'static str {
    match operator {
        "+" | "-" | "*" => "two integers, or two sets of one kind",
        "**" | "div" | "mod" => "two integers",
        "=" | "<>" | "<=" | ">=" => "two values of one kind, which is no table or record",
        "<" | ">" => "two integers, booleans or names of one list",
        "in" => "a value on the left, and a set of such values on the right",
        _ => "two booleans",
    }
}

/// What a function takes.
pub fn taken(function: &str) -> &'static str {
    match function {
        "-" | "abs" | "sqr" | "odd" => "an integer",
        "not" => "a boolean",
        "ord" | "pred" | "succ" => "an integer, a boolean or a name of a list",
        _ => "a set",
    }
}

/// How the side that does not fit an operator becomes what it takes.
pub fn mended(world: &World, operator: &str, x: TypeId, y: TypeId) -> String {
    let odd = |wanted| if x == wanted { y } else { x };
    match operator {
        "and" | "or" | "and_then" | "or_else" => remedy(world, odd(BOOLEAN), BOOLEAN),
        "in" => String::new(),
        _ if x == INTEGER || y == INTEGER => remedy(world, odd(INTEGER), INTEGER),
        _ => String::new(),
    }
}

/// How one kind becomes the other.
pub fn remedy(world: &World, found: TypeId, wanted: TypeId) -> String {
    let named = |ty| ty != INTEGER && world.types.is_ordinal(ty);
    match (found, wanted) {
        (INTEGER, BOOLEAN) => "Compare it with something, as `(> VALUE 0)`.".to_string(),
        (BOOLEAN, INTEGER) => "`(ord VALUE)` is 1 for true and 0 for false.".to_string(),
        (found, INTEGER) if named(found) => "`(ord NAME)` gives its place in the list as a number.".to_string(),
        _ => String::new(),
    }
}
