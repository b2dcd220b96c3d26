//! What the lines so far declare, and the judging of `type` and `var` lines (rows 7 to 9).

use std::collections::{HashMap, HashSet};

use crate::faults::Faults;
use crate::scope::{Cell, Variable};
use crate::syntax::{Constant, Pair, TypeForm};
use crate::types::{Field, Type, TypeId, Types, BOOLEAN, INTEGER};

const TYPES: usize = 64;
const VARIABLES: usize = 128;
const PROCEDURES: usize = 32;
const CELLS: usize = 2_048;
const ENUM_NAMES: usize = 256;
const FIELDS: usize = 16;
const INDEX_VALUES: usize = 256;
const LAST_MEMBER: i64 = 31;

/// What a name means.
#[derive(Clone, Copy, Debug, PartialEq, Eq)]
pub enum Meaning {
    Type(TypeId),
    /// Its type and its first cell.
    Variable(TypeId, Cell),
    Procedure(usize),
    EnumName(TypeId, i64),
}

#[derive(Clone, Debug)]
pub struct World {
    pub types: Types,
    /// Those of `var` lines; the store has their cells alone.
    pub variables: Vec<Variable>,
    pub cells: usize,
    /// The parameters of each procedure.
    pub procedures: Vec<Vec<Variable>>,
    /// One cell for each parameter of all procedures.
    pub parameter_cells: usize,
    names: HashMap<String, Meaning>,
    type_lines: usize,
}

impl World {
    pub fn new() -> World {
        let names = HashMap::from([
            ("integer".to_string(), Meaning::Type(INTEGER)),
            ("boolean".to_string(), Meaning::Type(BOOLEAN)),
        ]);
        World {
            types: Types::new(),
            variables: Vec::new(),
            cells: 0,
            procedures: Vec::new(),
            parameter_cells: 0,
            names,
            type_lines: 0,
        }
    }

    /// What a name means, if a line before declares it.
    pub fn meaning(&self, name: &str) -> Option<Meaning> {
        self.names.get(name).copied()
    }

    /// The type that a name means; a fault of row 7 if it means none.
    pub fn type_of(&self, name: &str, faults: &mut Faults) -> Option<TypeId> {
        match self.meaning(name) {
            Some(Meaning::Type(id)) => Some(id),
            _ => {
                faults.name = true;
                None
            }
        }
    }

    /// Host type and value of a constant. `(- number)` past the integers is a broken rule.
    pub fn constant(&self, constant: &Constant, faults: &mut Faults) -> Option<(TypeId, i64)> {
        match constant {
            Constant::Number(value) => Some((INTEGER, *value)),
            Constant::Truth(value) => Some((BOOLEAN, i64::from(*value))),
            Constant::Negated(value) => negated(*value, faults).map(|v| (INTEGER, v)),
            Constant::Name(name) => match self.meaning(name) {
                Some(Meaning::EnumName(ty, value)) => Some((ty, value)),
                _ => {
                    faults.name = true;
                    None
                }
            },
        }
    }

    /// The variable that owns each cell, by its place in `variables`.
    pub fn owners(&self) -> Vec<usize> {
        let mut owners = Vec::new();
        for (which, variable) in self.variables.iter().enumerate() {
            owners.resize(owners.len() + self.types.cells(variable.ty), which);
        }
        owners
    }

    /// The type of each cell of the store.
    pub fn cell_types(&self) -> Vec<TypeId> {
        let mut cells = Vec::new();
        for variable in &self.variables {
            self.types.lay(variable.ty, &mut cells);
        }
        cells
    }

    /// A name that is declared must not be known.
    pub fn fresh(&self, name: &str, faults: &mut Faults) {
        faults.name |= self.names.contains_key(name);
    }

    fn declare(&mut self, name: &str, meaning: Meaning) {
        self.names.insert(name.to_string(), meaning);
    }

    /// Judges a `type` line, and declares what it declares if it has no fault.
    pub fn type_line(&mut self, name: &str, form: &TypeForm) -> Faults {
        let mut faults = Faults::default();
        self.fresh(name, &mut faults);
        faults.limit |= self.type_lines == TYPES;
        if let TypeForm::Alias(old) = form {
            if let (Some(id), true) = (self.type_of(old, &mut faults), faults.none()) {
                self.declare(name, Meaning::Type(id));
            }
        } else {
            let new = self.new_type(name, form, &mut faults);
            if let Some(ty) = new.filter(|_| faults.none()) {
                self.add_type(name, form, ty);
            }
        }
        self.type_lines += 1;
        faults
    }

    fn add_type(&mut self, name: &str, form: &TypeForm, ty: Type) {
        let id = self.types.add(ty);
        self.declare(name, Meaning::Type(id));
        if let TypeForm::Enum(names) = form {
            for (value, name) in names.iter().enumerate() {
                self.declare(name, Meaning::EnumName(id, value as i64));
            }
        }
    }

    fn new_type(&self, name: &str, form: &TypeForm, faults: &mut Faults) -> Option<Type> {
        let ty = match form {
            TypeForm::Alias(_) => None,
            TypeForm::Enum(names) => self.enumeration(name, names, faults),
            TypeForm::Range(low, high) => self.range(low, high, faults),
            TypeForm::Array(index, element) => self.array(index, element, faults),
            TypeForm::Record(fields) => self.record(fields, faults),
            TypeForm::SetOf(base) => self.set(base, faults),
        }?;
        faults.limit |= self.types.size(&ty) > CELLS;
        Some(ty)
    }

    fn enumeration(&self, name: &str, names: &[String], faults: &mut Faults) -> Option<Type> {
        let mut seen = HashSet::from([name]);
        for name in names {
            self.fresh(name, faults);
            faults.name |= !seen.insert(name);
        }
        faults.limit |= names.len() > ENUM_NAMES;
        Some(Type::Ordinal { host: self.types.next(), low: 0, high: names.len() as i64 - 1 })
    }

    fn range(&self, low: &Constant, high: &Constant, faults: &mut Faults) -> Option<Type> {
        let low = self.constant(low, faults);
        let high = self.constant(high, faults);
        let ((host, low), (other, high)) = (low?, high?);
        if host != other || low > high {
            faults.rule = true;
            return None;
        }
        Some(Type::Ordinal { host, low, high })
    }

    fn array(&self, index: &str, element: &str, faults: &mut Faults) -> Option<Type> {
        let index = self.type_of(index, faults);
        let element = self.type_of(element, faults);
        let (index, element) = (index?, element?);
        faults.rule |= !self.types.is_ordinal(index);
        faults.limit |= self.types.values(index) > INDEX_VALUES;
        Some(Type::Array { index, element })
    }

    fn record(&self, written: &[Pair], faults: &mut Faults) -> Option<Type> {
        let mut seen = HashSet::new();
        let mut fields = Vec::new();
        let mut offset = 0;
        for (name, ty) in written {
            faults.name |= !seen.insert(name);
            if let Some(ty) = self.type_of(ty, faults) {
                fields.push(Field { name: name.clone(), ty, offset });
                offset += self.types.cells(ty);
            }
        }
        faults.limit |= written.len() > FIELDS;
        Some(Type::Record { fields })
    }

    fn set(&self, base: &str, faults: &mut Faults) -> Option<Type> {
        let base = self.type_of(base, faults)?;
        match self.types.bounds(base) {
            Some((low, high)) => faults.limit |= low < 0 || high > LAST_MEMBER,
            None => faults.rule = true,
        }
        Some(Type::Set { base })
    }

    /// Judges a `var` line, and declares the variable if the line has no fault.
    pub fn var_line(&mut self, name: &str, ty: &str) -> Faults {
        let mut faults = Faults::default();
        self.fresh(name, &mut faults);
        if let Some(ty) = self.type_of(ty, &mut faults) {
            let cells = self.types.cells(ty);
            faults.limit |= !self.has_room(1, cells);
            if faults.none() {
                let cell = Cell::Store(self.cells);
                self.declare(name, Meaning::Variable(ty, cell));
                self.variables.push(Variable { name: name.to_string(), ty, cell });
                self.cells += cells;
            }
        }
        faults
    }

    /// Is there room for so many more variables and cells? All parameters count among both.
    pub fn has_room(&self, variables: usize, cells: usize) -> bool {
        self.variables.len() + self.parameter_cells + variables <= VARIABLES
            && self.cells + self.parameter_cells + cells <= CELLS
    }

    /// Judges the name and number of a `proc` line. Its body is judged before the name is known.
    pub fn proc_name(&self, name: &str, faults: &mut Faults) {
        self.fresh(name, faults);
        faults.limit |= self.procedures.len() == PROCEDURES;
    }

    /// Makes a procedure known to the lines after its own.
    pub fn declare_proc(&mut self, name: &str, parameters: Vec<Variable>) {
        self.declare(name, Meaning::Procedure(self.procedures.len()));
        self.parameter_cells += parameters.len();
        self.procedures.push(parameters);
    }
}

impl Default for World {
    fn default() -> World {
        World::new()
    }
}

/// The value of `(- number)`.
pub fn negated(value: i64, faults: &mut Faults) -> Option<i64> {
    if value == i64::from(i32::MIN) {
        faults.rule = true;
        return None;
    }
    Some(-value)
}
