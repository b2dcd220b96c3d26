//! What the lines so far declare, and the judging of `type`, `var` and `proc` heads (rows 7 to 9).

use std::cell::Cell as StdCell;
use std::collections::BTreeMap;

use crate::fault::Fault;
use crate::near::nearest;
use crate::span::Span;
use crate::syntax::{Constant, ConstantKind, Name, Pair, TypeForm};
use crate::types::{Field, Kind, TypeId, Types, BOOLEAN, INTEGER};

const TYPES: u64 = 64;
const VARIABLES: u64 = 128;
const PROCEDURES: u64 = 32;
const PARAMETERS: u64 = 8;
const CELLS: u64 = 2_048;
const ENUM_NAMES: u64 = 256;
const FIELDS: u64 = 16;
const INDEX_VALUES: u64 = 256;
const LAST_MEMBER: i64 = 31;

/// A cell of the store, or of the parameters, which are counted over all procedures.
#[derive(Clone, Copy, Debug, PartialEq, Eq)]
pub enum Cell {
    Store(usize),
    Parameter(usize),
}

impl Cell {
    /// The cell so many further on.
    pub fn on(self, cells: usize) -> Cell {
        match self {
            Cell::Store(first) => Cell::Store(first + cells),
            Cell::Parameter(first) => Cell::Parameter(first + cells),
        }
    }
}

/// What a name means.
#[derive(Clone, Copy, Debug, PartialEq, Eq)]
pub enum Meaning {
    Type(TypeId),
    /// Its type and its first cell.
    Variable(TypeId, Cell),
    Procedure(usize),
    EnumName(TypeId, i64),
}

/// A variable of a `var` line, or a parameter.
#[derive(Clone, Debug)]
pub struct Variable {
    pub name: String,
    pub ty: TypeId,
    pub cell: Cell,
}

/// The sorts of name that a place takes.
#[derive(Clone, Copy, Debug, PartialEq, Eq)]
pub enum Sort {
    Type,
    Variable,
    Procedure,
    EnumName,
    /// A variable or an enum name.
    Value,
}

#[derive(Clone, Debug)]
pub struct World {
    pub types: Types,
    /// Those of `var` lines; the store has their cells alone.
    pub variables: Vec<Variable>,
    pub cells: usize,
    /// The parameters of each procedure.
    pub procedures: Vec<Vec<Variable>>,
    pub parameter_cells: usize,
    /// What each name means, and its line; 0 for `integer` and `boolean`.
    names: BTreeMap<String, (Meaning, usize)>,
    type_lines: u64,
    /// The number of the line that is judged.
    pub line: usize,
    /// The lines that declare a name, those to come too.
    pub later: BTreeMap<String, usize>,
    /// How often the nearest name may still be looked for.
    searches: StdCell<u32>,
}

/// Names that are looked for on a line: the first is told, and a search goes through all that is known.
const SEARCHES: u32 = 32;

impl World {
    pub fn new() -> World {
        let built = [("integer", INTEGER), ("boolean", BOOLEAN)];
        World {
            types: Types::new(),
            variables: Vec::new(),
            cells: 0,
            procedures: Vec::new(),
            parameter_cells: 0,
            names: built.iter().map(|(name, id)| (name.to_string(), (Meaning::Type(*id), 0))).collect(),
            type_lines: 0,
            line: 0,
            later: BTreeMap::new(),
            searches: StdCell::new(SEARCHES),
        }
    }

    /// What a name means, if a line before declares it.
    pub fn meaning(&self, name: &str) -> Option<Meaning> {
        self.names.get(name).map(|(meaning, _)| *meaning)
    }

    /// The names of a sort.
    fn known(&self, sort: Sort) -> impl Iterator<Item = &str> {
        self.names.iter().filter(move |(_, (meaning, _))| sort.takes(*meaning)).map(|(name, _)| name.as_str())
    }

    /// Row 7: a name that no line above declares, or one of another sort.
    pub fn unknown(&self, name: &Name, sort: Sort, parameters: &[Variable]) -> Fault {
        let text = &name.text;
        if let Some((meaning, line)) = self.names.get(text) {
            let found = format!("`{text}` is {}{}.", meaning.told(), declared_on(*line));
            return Fault::new(7, name.span, found).expected(sort.told());
        }
        let fault = Fault::new(7, name.span, format!("No line above declares `{text}`.")).expected(sort.told());
        if self.searches.get() == 0 {
            return fault;
        }
        self.searches.set(self.searches.get() - 1);
        let variables = matches!(sort, Sort::Value | Sort::Variable);
        let parameters = parameters.iter().filter(|_| variables).map(|parameter| parameter.name.as_str());
        let known: Vec<&str> = parameters.chain(self.known(sort)).collect();
        match (self.later.get(text), nearest(text, known.iter().copied())) {
            (Some(line), _) if *line == self.line => fault.hint("A name is known from the line after its own."),
            (Some(line), _) => fault.hint(format!("Line {line} declares it: move that line up.")),
            (None, Some(near)) => fault.hint(format!("Did you mean `{near}`?")),
            (None, None) => fault.hint(format!("Declare it on a line above{}.", instead(&known))),
        }
    }

    /// The type that a name means.
    pub fn type_of(&self, name: &Name, faults: &mut Vec<Fault>) -> Option<TypeId> {
        match self.meaning(&name.text) {
            Some(Meaning::Type(id)) => Some(id),
            _ => {
                faults.push(self.unknown(name, Sort::Type, &[]));
                None
            }
        }
    }

    /// Host type and value of a constant. `(- number)` past the integers is a broken rule.
    pub fn constant(&self, constant: &Constant, faults: &mut Vec<Fault>) -> Option<(TypeId, i64)> {
        match &constant.kind {
            ConstantKind::Number(value) => Some((INTEGER, *value)),
            ConstantKind::Truth(value) => Some((BOOLEAN, i64::from(*value))),
            ConstantKind::Negated(value) if *value == i64::from(i32::MIN) => {
                faults.push(past_integers(constant.span));
                None
            }
            ConstantKind::Negated(value) => Some((INTEGER, -value)),
            ConstantKind::Name(name) => match self.meaning(&name.text) {
                Some(Meaning::EnumName(ty, value)) => Some((ty, value)),
                _ => {
                    faults.push(self.unknown(name, Sort::EnumName, &[]));
                    None
                }
            },
        }
    }

    /// A name that is declared must not be known.
    fn fresh(&self, name: &Name, faults: &mut Vec<Fault>) {
        if let Some((meaning, line)) = self.names.get(&name.text) {
            let found = format!("`{}` is {}{} already.", name.text, meaning.told(), declared_on(*line));
            faults.push(Fault::new(7, name.span, found).expected("a name that is not taken").hint("Choose another name."));
        }
    }

    fn declare(&mut self, name: &str, meaning: Meaning) {
        self.names.insert(name.to_string(), (meaning, self.line));
    }

    /// Judges a `type` line, and declares what it declares if it has no fault.
    pub fn type_line(&mut self, name: &Name, form: &TypeForm, faults: &mut Vec<Fault>) {
        self.fresh(name, faults);
        self.type_lines += 1;
        over(self.type_lines, TYPES, "`type` lines", name.span, faults);
        if let TypeForm::Alias(old) = form {
            if let (Some(id), true) = (self.type_of(old, faults), faults.is_empty()) {
                self.declare(&name.text, Meaning::Type(id));
            }
            return;
        }
        let kind = self.new_kind(name, form, faults);
        if let Some(kind) = kind {
            if faults.iter().all(|fault| fault.number != 9) {
                over(self.types.size(&kind), CELLS, "cells in one kind", name.span, faults);
            }
            if faults.is_empty() {
                self.add_type(&name.text, form, kind);
            }
        }
    }

    fn add_type(&mut self, name: &str, form: &TypeForm, kind: Kind) {
        let values: Vec<String> = match form {
            TypeForm::Enum(names) => names.iter().map(|name| name.text.clone()).collect(),
            _ => Vec::new(),
        };
        let id = self.types.add(name, kind, values.clone());
        self.declare(name, Meaning::Type(id));
        for (value, name) in values.iter().enumerate() {
            self.declare(name, Meaning::EnumName(id, value as i64));
        }
    }

    fn new_kind(&self, name: &Name, form: &TypeForm, faults: &mut Vec<Fault>) -> Option<Kind> {
        match form {
            TypeForm::Alias(_) => None,
            TypeForm::Enum(names) => Some(self.enumeration(name, names, faults)),
            TypeForm::Range(low, high) => self.range(low, high, faults),
            TypeForm::Array(index, element) => self.array(index, element, faults),
            TypeForm::Record(fields) => Some(self.record(name, fields, faults)),
            TypeForm::SetOf(base) => self.set(base, faults),
        }
    }

    fn enumeration(&self, name: &Name, names: &[Name], faults: &mut Vec<Fault>) -> Kind {
        let mut seen = vec![name.text.as_str()];
        for name in names {
            self.fresh(name, faults);
            twice(name, &mut seen, faults);
        }
        over(names.len() as u64, ENUM_NAMES, "names in a list", name.span, faults);
        Kind::Ordinal { host: self.types.next(), low: 0, high: names.len() as i64 - 1 }
    }

    fn range(&self, low: &Constant, high: &Constant, faults: &mut Vec<Fault>) -> Option<Kind> {
        let (below, above) = (self.constant(low, faults), self.constant(high, faults));
        let ((host, from), (other, to)) = (below?, above?);
        let shown = |ty, value| self.types.shown(ty, value);
        if host != other {
            let found = format!("The range starts with {} and ends with {}.", self.types.told(host), self.types.told(other));
            faults.push(Fault::new(8, high.span, found).expected("two values of one kind"));
            return None;
        }
        if from > to {
            let found = format!("The range is reversed: {} is above {}.", shown(host, from), shown(host, to));
            let hint = format!("Write the lower one first: {} to {}.", shown(host, to), shown(host, from));
            faults.push(Fault::new(8, low.span, found).hint(hint));
            return None;
        }
        Some(Kind::Ordinal { host, low: from, high: to })
    }

    fn array(&self, index: &Name, element: &Name, faults: &mut Vec<Fault>) -> Option<Kind> {
        let (by, of) = (self.type_of(index, faults), self.type_of(element, faults));
        let (by, of) = (by?, of?);
        if !self.types.is_ordinal(by) {
            faults.push(self.not_ordinal(index, by));
        }
        over(self.types.values(by), INDEX_VALUES, "values of an index", index.span, faults);
        Some(Kind::Array { index: by, element: of })
    }

    fn not_ordinal(&self, name: &Name, ty: TypeId) -> Fault {
        let found = format!("`{}` is the kind of {}.", name.text, self.types.told(ty));
        Fault::new(8, name.span, found).expected("integers, booleans, a list of names, or a range of these")
    }

    fn record(&self, name: &Name, written: &[Pair], faults: &mut Vec<Fault>) -> Kind {
        let (mut seen, mut fields, mut offset) = (Vec::new(), Vec::new(), 0);
        for pair in written {
            twice(&pair.name, &mut seen, faults);
            if let Some(ty) = self.type_of(&pair.ty, faults) {
                fields.push(Field { name: pair.name.text.clone(), ty, offset });
                offset += self.types.cells(ty);
            }
        }
        over(written.len() as u64, FIELDS, "parts of a record", name.span, faults);
        Kind::Record { fields }
    }

    fn set(&self, name: &Name, faults: &mut Vec<Fault>) -> Option<Kind> {
        let base = self.type_of(name, faults)?;
        match self.types.bounds(base) {
            Some((low, high)) if low < 0 || high > LAST_MEMBER => {
                let found = format!("`{}` has the values {low} to {high}.", name.text);
                faults.push(
                    Fault::new(9, name.span, found)
                        .expected(format!("values of a set, which are 0 to {LAST_MEMBER}"))
                        .hint("Use a smaller range."),
                );
            }
            Some(_) => {}
            None => faults.push(self.not_ordinal(name, base)),
        }
        Some(Kind::Set { base })
    }

    /// Judges a `var` line, and declares the variable if the line has no fault.
    pub fn var_line(&mut self, name: &Name, ty: &Name, faults: &mut Vec<Fault>) {
        self.fresh(name, faults);
        if let Some(ty) = self.type_of(ty, faults) {
            let cells = self.types.cells(ty);
            self.room(1, cells, name, faults);
            if faults.is_empty() {
                let cell = Cell::Store(self.cells);
                self.declare(&name.text, Meaning::Variable(ty, cell));
                self.variables.push(Variable { name: name.text.clone(), ty, cell });
                self.cells += cells;
            }
        }
    }

    /// Row 9 unless there is room for so many more variables and cells. All parameters count among both.
    fn room(&self, variables: usize, cells: usize, name: &Name, faults: &mut Vec<Fault>) {
        let variables = self.variables.len() + self.parameter_cells + variables;
        over(variables as u64, VARIABLES, "variables and parameters in all", name.span, faults);
        let cells = self.cells + self.parameter_cells + cells;
        over(cells as u64, CELLS, "cells of all variables and parameters", name.span, faults);
    }

    /// Judges the name and the parameters of a `proc` line, whose names its body knows.
    pub fn proc_head(&self, name: &Name, pairs: &[Pair], faults: &mut Vec<Fault>) -> Vec<Variable> {
        self.fresh(name, faults);
        over(self.procedures.len() as u64 + 1, PROCEDURES, "`proc` lines", name.span, faults);
        let (mut seen, mut list) = (vec![name.text.as_str()], Vec::new());
        for pair in pairs {
            self.fresh(&pair.name, faults);
            twice(&pair.name, &mut seen, faults);
            if let Some(ty) = self.type_of(&pair.ty, faults) {
                if !self.types.is_ordinal(ty) && self.types.base(ty).is_none() {
                    let found = format!("The parameter `{}` is {}.", pair.name.text, self.types.told(ty));
                    let hint = "Give the parts that the procedure needs, or let it use the variable itself.";
                    faults
                        .push(Fault::new(8, pair.ty.span, found).expected("a number, a boolean, a name from a list, or a set").hint(hint));
                }
                let cell = Cell::Parameter(self.parameter_cells + list.len());
                list.push(Variable { name: pair.name.text.clone(), ty, cell });
            }
        }
        over(pairs.len() as u64, PARAMETERS, "parameters of one procedure", name.span, faults);
        if !pairs.is_empty() {
            self.room(pairs.len(), pairs.len(), name, faults);
        }
        list
    }

    /// Makes a procedure known to the lines after its own.
    pub fn declare_proc(&mut self, name: &Name, parameters: Vec<Variable>) {
        self.declare(&name.text, Meaning::Procedure(self.procedures.len()));
        self.parameter_cells += parameters.len();
        self.procedures.push(parameters);
    }
}

impl Meaning {
    fn told(self) -> &'static str {
        match self {
            Meaning::Type(_) => "a type",
            Meaning::Variable(..) => "a variable",
            Meaning::Procedure(_) => "a procedure",
            Meaning::EnumName(..) => "a name of a list",
        }
    }
}

impl Sort {
    fn takes(self, meaning: Meaning) -> bool {
        match meaning {
            Meaning::Type(_) => self == Sort::Type,
            Meaning::Variable(..) => matches!(self, Sort::Variable | Sort::Value),
            Meaning::Procedure(_) => self == Sort::Procedure,
            Meaning::EnumName(..) => matches!(self, Sort::EnumName | Sort::Value),
        }
    }

    fn told(self) -> &'static str {
        match self {
            Sort::Type => "a type",
            Sort::Variable => "a variable",
            Sort::Procedure => "a procedure",
            Sort::EnumName => "a name of a list",
            Sort::Value => "a variable or a name of a list",
        }
    }
}

/// Row 8: the value of `(- number)` is no integer.
pub fn past_integers(span: Span) -> Fault {
    Fault::new(8, span, "The negative of this number is 2147483648.").expected("an integer, which is -2147483648 to 2147483647")
}

fn declared_on(line: usize) -> String {
    match line {
        0 => String::new(),
        line => format!(" (line {line})"),
    }
}

/// Row 7: a name twice in one line.
fn twice<'n>(name: &'n Name, seen: &mut Vec<&'n str>, faults: &mut Vec<Fault>) {
    if seen.contains(&name.text.as_str()) {
        faults.push(Fault::new(7, name.span, format!("`{}` stands twice on this line.", name.text)).expected("a name that is not taken"));
    }
    seen.push(&name.text);
}

/// Row 9: which ceiling is passed, and by how much.
pub fn over(count: u64, most: u64, what: &str, at: Span, faults: &mut Vec<Fault>) {
    if count > most {
        let found = format!("These are {count} {what}, {} too many.", count - most);
        faults.push(Fault::new(9, at, found).expected(format!("at most {most}")));
    }
}

/// The first few of the names that could stand there.
fn instead(names: &[&str]) -> String {
    const FEW: usize = 6;
    match names.len() {
        0 => String::new(),
        n if n > FEW => format!(", or use another, as `{}`", names[..FEW].join("` `")),
        _ => format!(", or use one of `{}`", names.join("` `")),
    }
}
