//! What a generated script has declared so far.

use std::collections::HashSet;

use super::node::{form, word, Node};
use super::rng::Rng;
use crate::level::Level;

pub const INTEGER: usize = 0;
pub const BOOLEAN: usize = 1;

const LOW: i64 = i32::MIN as i64;
const HIGH: i64 = i32::MAX as i64;

#[derive(Clone, Debug)]
pub enum Shape {
    Integer,
    Boolean,
    Enum(Vec<String>),
    Range { host: usize, low: i64, high: i64 },
    Set { base: usize },
    Array { index: usize, element: usize },
    Record(Vec<(String, usize)>),
}

/// A declared type; an alias has the root of the type that it names.
#[derive(Clone, Debug)]
pub struct Known {
    pub name: String,
    pub root: usize,
    pub shape: Shape,
    pub cells: usize,
}

/// A procedure, with the types of its parameters.
#[derive(Clone, Debug)]
pub struct Procedure {
    pub name: String,
    pub parameters: Vec<usize>,
}

#[derive(Clone, Debug)]
pub struct Scene {
    pub level: Level,
    pub rng: Rng,
    pub lines: Vec<Node>,
    pub types: Vec<Known>,
    /// While a procedure's body is written, its parameters stand last.
    pub variables: Vec<(String, usize)>,
    /// How many of the variables are parameters.
    pub own: usize,
    pub procedures: Vec<Procedure>,
    /// Is it a script of many calls?
    pub calls: bool,
    pub cells: usize,
    /// The parameters of all procedures so far.
    pub parameters: usize,
    pub used: HashSet<String>,
}

/// Names that look like reserved words, and plain ones.
const STEMS: [&str; 28] = [
    "speed", "stick", "mode", "a", "b", "x", "do", "end", "set", "to", "ints", "types", "inn",
    "main1", "left_turn", "sip", "puff", "limit", "horn", "tilt", "ramp_up", "n0", "of", "nil",
    "errornumber", "or_elses", "i", "the_second_longest_name_of_all",
];

impl Scene {
    pub fn new(level: Level, rng: Rng) -> Scene {
        let plain =
            |name: &str, root, shape| Known { name: name.to_string(), root, shape, cells: 1 };
        let types = vec![
            plain("integer", INTEGER, Shape::Integer),
            plain("boolean", BOOLEAN, Shape::Boolean),
        ];
        Scene {
            level,
            rng,
            lines: Vec::new(),
            types,
            variables: Vec::new(),
            own: 0,
            procedures: Vec::new(),
            calls: false,
            cells: 0,
            parameters: 0,
            used: HashSet::new(),
        }
    }

    /// A name that no line has used.
    pub fn fresh(&mut self) -> String {
        let stem = *self.rng.pick(&STEMS);
        let mut name = stem.to_string();
        while !self.used.insert(name.clone()) {
            let end = format!("{}", self.rng.below(10_000));
            name = format!("{}{end}", &stem[..stem.len().min(26)]);
        }
        name
    }

    /// The type of a value that is read from this type.
    pub fn host(&self, ty: usize) -> usize {
        match self.types[ty].shape {
            Shape::Range { host, .. } => host,
            _ => self.types[ty].root,
        }
    }

    /// Least and greatest value of an ordinal type.
    pub fn bounds(&self, ty: usize) -> Option<(i64, i64)> {
        match &self.types[ty].shape {
            Shape::Integer => Some((LOW, HIGH)),
            Shape::Boolean => Some((0, 1)),
            Shape::Enum(names) => Some((0, names.len() as i64 - 1)),
            Shape::Range { low, high, .. } => Some((*low, *high)),
            _ => None,
        }
    }

    /// How many values an ordinal type has; none for other types.
    pub fn values(&self, ty: usize) -> Option<i64> {
        self.bounds(ty).map(|(low, high)| high - low + 1)
    }

    /// The types that pass a test.
    pub fn types_where(&self, test: impl Fn(&Scene, usize) -> bool) -> Vec<usize> {
        (0..self.types.len()).filter(|ty| test(self, *ty)).collect()
    }

    /// Any type declared so far.
    pub fn any_type(&mut self) -> usize {
        self.rng.below(self.types.len())
    }

    /// The name of a type, as it is written.
    pub fn type_word(&self, ty: usize) -> Node {
        word(&self.types[ty].name)
    }

    pub fn add(&mut self, shape: Shape, written: Node, cells: usize) {
        let name = self.fresh();
        self.lines.push(form("type", vec![word(&name), written]));
        let root = self.types.len();
        self.types.push(Known { name, root, shape, cells });
    }

    /// Adds a `type` line of a random form.
    pub fn type_line(&mut self) {
        match self.rng.weighted(&[1, 4, 5, 4, 3, 3]) {
            0 => self.alias(),
            1 => self.enumeration(),
            2 => self.range(),
            3 => self.array(),
            4 => self.record(),
            _ => self.set(),
        }
    }

    fn alias(&mut self) {
        let old = self.any_type();
        let written = self.type_word(old);
        let name = self.fresh();
        self.lines.push(form("type", vec![word(&name), written]));
        self.types.push(Known { name, ..self.types[old].clone() });
    }

    fn enumeration(&mut self) {
        let count = match self.rng.below(20) {
            0 => 1,
            1 => 30 + self.rng.below(6),
            _ => 2 + self.rng.below(6),
        };
        let names: Vec<String> = (0..count).map(|_| self.fresh()).collect();
        let written = form("enum", names.iter().map(word).collect());
        self.add(Shape::Enum(names), written, 1);
    }

    fn range(&mut self) {
        let hosts = self.types_where(|s, ty| s.bounds(ty).is_some() && s.host(ty) == ty);
        let host = if self.rng.percent(60) { INTEGER } else { *self.rng.pick(&hosts) };
        let (low, high) = match host {
            INTEGER => self.stretch(),
            _ => {
                let last = self.bounds(host).map_or(0, |(_, high)| high);
                let low = self.rng.between(0, last);
                (low, self.rng.between(low, last))
            }
        };
        let written = form("range", vec![self.constant(host, low), self.constant(host, high)]);
        self.add(Shape::Range { host, low, high }, written, 1);
    }

    /// Bounds of an integer range, small ones most often.
    fn stretch(&mut self) -> (i64, i64) {
        let length = *self.rng.pick(&[0, 1, 3, 4, 9, 10, 31, 100, 255]);
        let low = match self.rng.below(10) {
            0 => LOW,
            1 => HIGH - length,
            2 => -length,
            3 => -1,
            4 => self.rng.between(-1000, 1000),
            5 => (31 - length).max(0),
            6 | 7 => 1,
            _ => 0,
        };
        (low, low + length)
    }

    fn array(&mut self) {
        let indices = self.types_where(|s, ty| s.values(ty).is_some_and(|n| n <= 12));
        let index = *self.rng.pick(&indices);
        let values = self.values(index).unwrap_or(1) as usize;
        let elements = self.types_where(|s, ty| s.types[ty].cells * values <= 200);
        let element = *self.rng.pick(&elements);
        let written = form("array", vec![self.type_word(index), self.type_word(element)]);
        let cells = values * self.types[element].cells;
        self.add(Shape::Array { index, element }, written, cells);
    }

    pub fn record(&mut self) {
        let elements = self.types_where(|s, ty| s.types[ty].cells <= 40);
        let mut fields: Vec<(String, usize)> = Vec::new();
        for place in 0..1 + self.rng.below(4) {
            let stem = STEMS[(place * 5 + self.rng.below(5)) % STEMS.len()];
            fields.push((stem.to_string(), *self.rng.pick(&elements)));
        }
        let cells = fields.iter().map(|(_, ty)| self.types[*ty].cells).sum();
        let field =
            |(name, ty): &(String, usize)| Node::List(vec![word(name), self.type_word(*ty)]);
        let written = form("record", fields.iter().map(field).collect());
        self.add(Shape::Record(fields), written, cells);
    }

    fn set(&mut self) {
        let bases = self.types_where(|s, ty| s.bounds(ty).is_some_and(|(l, h)| l >= 0 && h <= 31));
        let base = *self.rng.pick(&bases);
        let written = form("setof", vec![self.type_word(base)]);
        self.add(Shape::Set { base }, written, 1);
    }

    /// Adds a `var` line of this type, if its cells fit.
    pub fn var_line(&mut self, ty: usize) {
        if self.cells + self.parameters + self.types[ty].cells > 2_048 {
            return;
        }
        let name = self.fresh();
        self.var_named(name, ty);
    }

    /// Adds a `var` line with this name.
    pub fn var_named(&mut self, name: String, ty: usize) {
        self.cells += self.types[ty].cells;
        self.lines.push(form("var", vec![word(&name), self.type_word(ty)]));
        self.variables.push((name, ty));
    }

    /// A constant of a host type.
    pub fn constant(&mut self, host: usize, value: i64) -> Node {
        match &self.types[host].shape {
            Shape::Boolean => word(value == 1),
            Shape::Enum(names) => word(&names[value as usize % names.len()]),
            _ if value == LOW => word("#80000000"),
            _ if self.rng.percent(5) => word(format!("#{:X}", value as i32)),
            _ if value < 0 => form("-", vec![word(-value)]),
            _ => word(value),
        }
    }
}
