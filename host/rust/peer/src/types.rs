//! Types: identity, host, bounds and cells.

/// A type by number: types are the same when declared by the same line.
pub type TypeId = usize;

pub const INTEGER: TypeId = 0;
pub const BOOLEAN: TypeId = 1;

#[derive(Clone, Debug)]
pub enum Type {
    /// A range has another host; `integer`, `boolean` and enumerations are their own.
    Ordinal {
        host: TypeId,
        low: i64,
        high: i64,
    },
    Set {
        base: TypeId,
    },
    Array {
        index: TypeId,
        element: TypeId,
    },
    Record {
        fields: Vec<Field>,
    },
}

#[derive(Clone, Debug)]
pub struct Field {
    pub name: String,
    pub ty: TypeId,
    /// Cells of the record before this field.
    pub offset: usize,
}

#[derive(Clone, Debug)]
pub struct Types {
    list: Vec<(Type, usize)>,
}

impl Types {
    pub fn new() -> Types {
        let integer =
            Type::Ordinal { host: INTEGER, low: i64::from(i32::MIN), high: i64::from(i32::MAX) };
        let boolean = Type::Ordinal { host: BOOLEAN, low: 0, high: 1 };
        Types { list: vec![(integer, 1), (boolean, 1)] }
    }

    /// The number that the next new type gets.
    pub fn next(&self) -> TypeId {
        self.list.len()
    }

    /// Adds a new type.
    pub fn add(&mut self, ty: Type) -> TypeId {
        let cells = self.size(&ty);
        self.list.push((ty, cells));
        self.list.len() - 1
    }

    /// The type with this number.
    pub fn get(&self, id: TypeId) -> &Type {
        &self.list[id].0
    }

    /// The cells of a type: an ordinal or set is one, arrays and records lay theirs in order.
    pub fn cells(&self, id: TypeId) -> usize {
        self.list[id].1
    }

    /// The cells of a type that is not in the list yet.
    pub fn size(&self, ty: &Type) -> usize {
        match ty {
            Type::Ordinal { .. } | Type::Set { .. } => 1,
            Type::Array { index, element } => self.values(*index) * self.cells(*element),
            Type::Record { fields } => fields.iter().map(|f| self.cells(f.ty)).sum(),
        }
    }

    /// Least and greatest value of an ordinal type.
    pub fn bounds(&self, id: TypeId) -> Option<(i64, i64)> {
        match self.get(id) {
            Type::Ordinal { low, high, .. } => Some((*low, *high)),
            _ => None,
        }
    }

    /// Is it an integer, boolean or enumeration type, or a range of one?
    pub fn is_ordinal(&self, id: TypeId) -> bool {
        self.bounds(id).is_some()
    }

    /// How many values an ordinal type has; other types have none.
    pub fn values(&self, id: TypeId) -> usize {
        self.bounds(id).map_or(0, |(low, high)| (high - low + 1) as usize)
    }

    /// The type that a value read from a cell of this type has: a range gives its host.
    pub fn host(&self, id: TypeId) -> TypeId {
        match self.get(id) {
            Type::Ordinal { host, .. } => *host,
            _ => id,
        }
    }

    /// The base type of a set type.
    pub fn base(&self, id: TypeId) -> Option<TypeId> {
        match self.get(id) {
            Type::Set { base } => Some(*base),
            _ => None,
        }
    }

    /// A field of a record type.
    pub fn field(&self, id: TypeId, name: &str) -> Option<&Field> {
        match self.get(id) {
            Type::Record { fields } => fields.iter().find(|f| f.name == name),
            _ => None,
        }
    }

    /// Is this a value of a cell of the given type? (Cells are ordinals or sets.)
    pub fn holds(&self, id: TypeId, value: i64) -> bool {
        match self.get(id) {
            Type::Ordinal { low, high, .. } => (*low..=*high).contains(&value),
            Type::Set { base } => {
                let (low, high) = self.bounds(*base).unwrap_or((0, -1));
                let all: i64 = (low..=high).map(|member| 1i64 << member).sum();
                value & !all == 0
            }
            Type::Array { .. } | Type::Record { .. } => false,
        }
    }

    /// Appends the types of this type's cells, in order.
    pub fn lay(&self, id: TypeId, cells: &mut Vec<TypeId>) {
        match self.get(id) {
            Type::Ordinal { .. } | Type::Set { .. } => cells.push(id),
            Type::Array { index, element } => {
                for _ in 0..self.values(*index) {
                    self.lay(*element, cells);
                }
            }
            Type::Record { fields } => fields.iter().for_each(|f| self.lay(f.ty, cells)),
        }
    }
}

impl Default for Types {
    fn default() -> Types {
        Types::new()
    }
}
