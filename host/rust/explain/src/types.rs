//! Types: identity, host, bounds, cells, and how their values read.

/// A type by number: types are the same when declared by the same line.
pub type TypeId = usize;

pub const INTEGER: TypeId = 0;
pub const BOOLEAN: TypeId = 1;

#[derive(Clone, Debug)]
pub enum Kind {
    /// A range has another host; `integer`, `boolean` and lists of names are their own.
    Ordinal {
        host: TypeId,
        low: i64,
        high: i64,
    },
    Set {
        base: TypeId,
    },
    Array {
        index: TypeId,
        element: TypeId,
    },
    Record {
        fields: Vec<Field>,
    },
}

#[derive(Clone, Debug)]
pub struct Field {
    pub name: String,
    pub ty: TypeId,
    /// Cells of the record before this field.
    pub offset: usize,
}

#[derive(Clone, Debug)]
pub struct Type {
    pub name: String,
    pub kind: Kind,
    /// The names of an enumeration, by their ordinal.
    pub values: Vec<String>,
    cells: usize,
}

#[derive(Clone, Debug)]
pub struct Types {
    list: Vec<Type>,
}

impl Types {
    pub fn new() -> Types {
        let ordinal = |host, low: i32, high: i32| Kind::Ordinal { host, low: i64::from(low), high: i64::from(high) };
        let built = |name: &str, kind, values: &[&str]| Type {
            name: name.to_string(),
            kind,
            values: values.iter().map(|value| value.to_string()).collect(),
            cells: 1,
        };
        let integer = built("integer", ordinal(INTEGER, i32::MIN, i32::MAX), &[]);
        let boolean = built("boolean", ordinal(BOOLEAN, 0, 1), &["false", "true"]);
        Types { list: vec![integer, boolean] }
    }

    /// The number that the next new type gets.
    pub fn next(&self) -> TypeId {
        self.list.len()
    }

    pub fn add(&mut self, name: &str, kind: Kind, values: Vec<String>) -> TypeId {
        let cells = self.size(&kind) as usize;
        self.list.push(Type { name: name.to_string(), kind, values, cells });
        self.list.len() - 1
    }

    pub fn kind(&self, id: TypeId) -> &Kind {
        &self.list[id].kind
    }

    pub fn name(&self, id: TypeId) -> &str {
        &self.list[id].name
    }

    pub fn cells(&self, id: TypeId) -> usize {
        self.list[id].cells
    }

    /// The cells of a type that may not be among them yet.
    pub fn size(&self, kind: &Kind) -> u64 {
        match kind {
            Kind::Ordinal { .. } | Kind::Set { .. } => 1,
            Kind::Array { index, element } => self.values(*index) * self.cells(*element) as u64,
            Kind::Record { fields } => fields.iter().map(|field| self.cells(field.ty) as u64).sum(),
        }
    }

    /// Least and greatest value of an ordinal type.
    pub fn bounds(&self, id: TypeId) -> Option<(i64, i64)> {
        match self.kind(id) {
            Kind::Ordinal { low, high, .. } => Some((*low, *high)),
            _ => None,
        }
    }

    pub fn is_ordinal(&self, id: TypeId) -> bool {
        self.bounds(id).is_some()
    }

    /// How many values an ordinal type has; other types have none.
    pub fn values(&self, id: TypeId) -> u64 {
        self.bounds(id).map_or(0, |(low, high)| (high - low + 1) as u64)
    }

    /// The type that a value read from a cell of this type has: a range gives its host.
    pub fn host(&self, id: TypeId) -> TypeId {
        match self.kind(id) {
            Kind::Ordinal { host, .. } => *host,
            _ => id,
        }
    }

    /// Do the values have names, in place of numbers?
    pub fn is_named(&self, id: TypeId) -> bool {
        self.is_ordinal(id) && !self.list[self.host(id)].values.is_empty()
    }

    pub fn base(&self, id: TypeId) -> Option<TypeId> {
        match self.kind(id) {
            Kind::Set { base } => Some(*base),
            _ => None,
        }
    }

    pub fn field(&self, id: TypeId, name: &str) -> Option<&Field> {
        match self.kind(id) {
            Kind::Record { fields } => fields.iter().find(|field| field.name == name),
            _ => None,
        }
    }

    /// Is this a value of a cell of the given type?
    pub fn holds(&self, id: TypeId, value: i64) -> bool {
        match self.kind(id) {
            Kind::Ordinal { low, high, .. } => (*low..=*high).contains(&value),
            Kind::Set { base } => {
                let (low, high) = self.bounds(*base).unwrap_or((0, -1));
                let all: i64 = (low..=high).map(|member| 1i64 << member).sum();
                value & !all == 0
            }
            Kind::Array { .. } | Kind::Record { .. } => false,
        }
    }

    /// A kind of value in a few words.
    pub fn told(&self, id: TypeId) -> String {
        let name = self.name(id);
        match self.kind(id) {
            Kind::Ordinal { .. } if self.host(id) != id => format!("a value of `{name}`"),
            Kind::Ordinal { .. } if id == INTEGER => "an integer".to_string(),
            Kind::Ordinal { .. } if id == BOOLEAN => "a boolean".to_string(),
            Kind::Ordinal { .. } => format!("a name of `{name}`"),
            Kind::Set { .. } => format!("a set `{name}`"),
            Kind::Array { .. } => format!("a table `{name}`"),
            Kind::Record { .. } => format!("a record `{name}`"),
        }
    }

    /// The values that an ordinal or set type has, in a few words.
    pub fn extent(&self, id: TypeId) -> String {
        match (self.bounds(id), self.base(id)) {
            (Some((low, high)), _) => format!("`{}`, which is {} to {}", self.name(id), self.shown(id, low), self.shown(id, high)),
            (None, Some(base)) => format!("`{}`, a set of {}", self.name(id), self.extent(base)),
            _ => self.told(id),
        }
    }

    /// A value of a cell as a person reads it.
    pub fn shown(&self, id: TypeId, value: i64) -> String {
        if let Some(base) = self.base(id) {
            let members = (0..32).filter(|member| value >> member & 1 == 1).map(|member| self.shown(base, member));
            return format!("{{{}}}", members.collect::<Vec<_>>().join(" "));
        }
        let names = &self.list[self.host(id)].values;
        let named = usize::try_from(value).ok().and_then(|place| names.get(place));
        named.cloned().unwrap_or_else(|| value.to_string())
    }

    /// The value that a word gives for a cell of a type: a number, a name, or `{MEMBER ..}`.
    pub fn valued(&self, id: TypeId, word: &str) -> Option<i64> {
        if let Some(base) = self.base(id) {
            let inner = word.strip_prefix('{')?.strip_suffix('}')?;
            let members = inner.split_ascii_whitespace().map(|member| self.valued(base, member));
            return members
                .map(|member| member.filter(|m| (0..32).contains(m)).map(|m| 1i64 << m))
                .try_fold(0, |set, bit| Some(set | bit?));
        }
        match self.list[self.host(id)].values.as_slice() {
            [] => word.parse().ok(),
            names => names.iter().position(|name| *name == word.to_ascii_lowercase()).map(|place| place as i64),
        }
    }
}
