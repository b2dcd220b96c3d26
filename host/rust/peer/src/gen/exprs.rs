//! Random expressions and targets, of a wanted type.

use super::node::{form, word, Node};
use super::scene::{Scene, Shape, BOOLEAN, INTEGER};

/// Writes bodies for a scene.
pub struct Writer<'a> {
    pub scene: &'a mut Scene,
    /// In 1,000: how often an expression of another type is written than the one wanted.
    pub wild: usize,
    /// In 100: how often an ordinal expression is one that raises.
    pub rough: usize,
    /// Control variables of the loops around.
    pub controls: Vec<usize>,
    /// Control variables of the loops of this body so far.
    pub counted: Vec<usize>,
    /// Statements that may still be written.
    pub room: usize,
}

const EDGES: [i64; 14] = [
    0, 1, 2, 3, 7, 31, 32, 46_340, 46_341, 65_536, 2_147_483_646, 2_147_483_647, -2_147_483_648,
    -2_147_483_647,
];

/// The two-sided operators.
pub const TWO_SIDED: [&str; 17] = [
    "+", "-", "*", "**", "div", "mod", "=", "<>", "<", "<=", ">", ">=", "in", "and", "or",
    "and_then", "or_else",
];

/// The one-sided operators and the functions.
pub const FUNCTIONS: [&str; 11] =
    ["-", "not", "abs", "sqr", "odd", "ord", "pred", "succ", "card", "setmin", "setmax"];

/// Integer expressions that raise -101 or -103, each written like one word.
pub const RAISING: [&str; 6] = [
    "(div 1 0)", "(mod 5 0)", "(** 0 0)", "(div #80000000 (- 1))", "(succ 2147483647)",
    "(pred (first integer))",
];

/// How rough a body is: most of them, those with misfits, a statement of which several parts raise.
pub const SMOOTH: usize = 1;
pub const UNEVEN: usize = 6;
pub const CLASHING: usize = 35;

impl Writer<'_> {
    /// Is a misfit to be written here?
    pub fn is_wild(&mut self) -> bool {
        self.wild > 0 && self.scene.rng.below(1_000) < self.wild
    }

    /// An expression of a host, set, array or record type.
    pub fn expr(&mut self, wanted: usize, depth: usize) -> Node {
        let mut ty = wanted;
        if self.is_wild() {
            let any = self.scene.any_type();
            ty = self.scene.host(any);
        }
        match self.scene.types[ty].shape {
            Shape::Integer => self.integer(depth),
            Shape::Boolean => self.boolean(depth),
            Shape::Set { base } => self.set(ty, base, depth),
            Shape::Array { .. } | Shape::Record(_) => self.whole(ty, depth),
            _ => self.ordinal(ty, depth),
        }
    }

    /// An expression that is most often a value of this type, not only of its host.
    pub fn fitting(&mut self, ty: usize, depth: usize) -> Node {
        let host = self.scene.host(ty);
        let kept = self.scene.rng.percent(85) && self.rough < CLASHING;
        let (Some((low, high)), true) = (self.scene.bounds(ty), kept) else {
            return self.expr(host, depth);
        };
        match self.scene.rng.below(10) {
            0..=4 => self.constant(ty),
            5 | 6 if host == INTEGER && depth > 2 && ty != INTEGER => {
                let inner = self.expr(INTEGER, depth - 2);
                let low = self.scene.constant(INTEGER, low);
                let last = self.scene.constant(INTEGER, high.min(1_000_000) + 1);
                form("+", vec![low, form("mod", vec![inner, last])])
            }
            7 | 8 => {
                let root = self.scene.types[ty].root;
                let found = self.target(depth, &|s: &Scene, t| s.types[t].root == root);
                found.map_or_else(|| self.constant(ty), |(node, _)| node)
            }
            _ => self.expr(host, depth),
        }
    }

    /// A constant of an ordinal type, the ends and the middle alike.
    pub fn constant(&mut self, ty: usize) -> Node {
        let (low, high) = self.scene.bounds(ty).unwrap_or((0, 0));
        let value = match self.scene.rng.below(4) {
            0 => low,
            1 => high,
            _ => self.scene.rng.between(low.max(-20).min(high), high.min(20).max(low)),
        };
        self.scene.constant(self.scene.host(ty), value)
    }

    pub fn number(&mut self) -> Node {
        let value = match self.scene.rng.below(4) {
            0 => *self.scene.rng.pick(&EDGES),
            1 => self.scene.rng.between(-100, 100),
            _ => self.scene.rng.between(0, 9),
        };
        self.scene.constant(INTEGER, value)
    }

    fn pick_type(&mut self, test: impl Fn(&Scene, usize) -> bool) -> Option<usize> {
        let list = self.scene.types_where(test);
        (!list.is_empty()).then(|| *self.scene.rng.pick(&list))
    }

    fn one(&mut self, heads: &[&str], ty: usize, depth: usize) -> Node {
        let part = self.expr(ty, depth - 1);
        let least = part == word("#80000000");
        let heads = if self.is_wild() { &FUNCTIONS[..] } else { heads };
        match *self.scene.rng.pick(heads) {
            // `(- #80000000)` would be a constant past the integers.
            "-" if least => form("-", vec![form("abs", vec![part])]),
            head => form(head, vec![part]),
        }
    }

    fn two(&mut self, heads: &[&str], ty: usize, depth: usize) -> Node {
        let heads = if self.is_wild() { &TWO_SIDED[..] } else { heads };
        let head = *self.scene.rng.pick(heads);
        let left = self.expr(ty, depth - 1);
        form(head, vec![left, self.expr(ty, depth - 1)])
    }

    fn integer(&mut self, depth: usize) -> Node {
        if self.scene.rng.percent(self.rough) {
            return word(self.scene.rng.pick(&RAISING));
        }
        if depth < 2 || self.scene.rng.percent(25) {
            return self.number();
        }
        match self.scene.rng.below(16) {
            0..=4 => self.read(INTEGER, depth),
            5..=7 => self.two(&["+", "-", "*"], INTEGER, depth),
            8 => self.two(&["div", "mod"], INTEGER, depth),
            9 => {
                let base = self.expr(INTEGER, depth - 1);
                form("**", vec![base, word(self.scene.rng.below(34))])
            }
            10 => self.two(&["**", "div", "mod", "*"], INTEGER, depth),
            11 => self.one(&["-", "abs", "sqr", "pred", "succ"], INTEGER, depth),
            12 => word("error_number"),
            13 => self.bound(INTEGER),
            14 => match self.pick_type(|s, ty| s.bounds(ty).is_some()) {
                Some(ty) => self.one(&["ord"], self.scene.host(ty), depth),
                None => self.number(),
            },
            _ => match self.pick_type(|s, ty| matches!(s.types[ty].shape, Shape::Set { .. })) {
                Some(ty) => self.one(&["card"], self.scene.host(ty), depth),
                None => self.number(),
            },
        }
    }

    fn boolean(&mut self, depth: usize) -> Node {
        if depth > 2 && self.is_wild() {
            let head = *self.scene.rng.pick(&["and_then", "or_else", "and", "or"]);
            let left = word(self.scene.rng.below(2));
            return form(head, vec![left, self.expr(BOOLEAN, depth - 1)]);
        }
        if depth < 2 || self.scene.rng.percent(10) {
            return word(self.scene.rng.percent(50));
        }
        match self.scene.rng.below(14) {
            0 | 1 => self.read(BOOLEAN, depth),
            2..=4 => match self.pick_type(|s, ty| s.bounds(ty).is_some()) {
                Some(ty) => {
                    self.two(&["=", "<>", "<", "<=", ">", ">="], self.scene.host(ty), depth)
                }
                None => word("true"),
            },
            5..=7 => match self.pick_type(|s, ty| matches!(s.types[ty].shape, Shape::Set { .. })) {
                Some(ty) => self.two(&["=", "<>", "<=", ">="], self.scene.host(ty), depth),
                None => word("false"),
            },
            8 => self.membership(depth),
            9 | 10 => self.two(&["and", "or", "and_then", "or_else"], BOOLEAN, depth),
            11 => self.one(&["not"], BOOLEAN, depth),
            12 => self.one(&["odd"], INTEGER, depth),
            _ => self.ordinal(BOOLEAN, depth),
        }
    }

    fn membership(&mut self, depth: usize) -> Node {
        let Some(set) = self.pick_type(|s, ty| matches!(s.types[ty].shape, Shape::Set { .. }))
        else {
            return word("true");
        };
        let Shape::Set { base } = self.scene.types[set].shape else { return word("true") };
        let member = self.fitting(base, depth - 1);
        form("in", vec![member, self.expr(self.scene.host(set), depth - 1)])
    }

    /// Forms that every ordinal type has.
    fn ordinal(&mut self, host: usize, depth: usize) -> Node {
        if depth > 1 && self.scene.rng.percent(self.rough) {
            return form("succ", vec![form("last", vec![self.scene.type_word(host)])]);
        }
        if depth < 2 {
            return self.constant(host);
        }
        match self.scene.rng.below(8) {
            0 | 1 => self.constant(host),
            2..=4 => self.read(host, depth),
            5 => self.one(&["pred", "succ"], host, depth),
            6 => self.bound(host),
            _ => self.smallest(host, depth),
        }
    }

    fn bound(&mut self, host: usize) -> Node {
        let ty = self.pick_type(|s, ty| s.bounds(ty).is_some() && s.host(ty) == host);
        let head = *self.scene.rng.pick(&["first", "last"]);
        let ty = if self.is_wild() { self.scene.any_type() } else { ty.unwrap_or(host) };
        form(head, vec![self.scene.type_word(ty)])
    }

    fn smallest(&mut self, host: usize, depth: usize) -> Node {
        let fits = |s: &Scene, ty: usize| match s.types[ty].shape {
            Shape::Set { base } => s.host(base) == host,
            _ => false,
        };
        match self.pick_type(fits) {
            Some(ty) => self.one(&["setmin", "setmax"], self.scene.host(ty), depth),
            None => self.constant(host),
        }
    }

    fn set(&mut self, ty: usize, base: usize, depth: usize) -> Node {
        if depth > 1 && self.scene.rng.percent(55) {
            return match self.scene.rng.percent(60) {
                true => self.read(ty, depth),
                false => self.two(&["+", "-", "*"], ty, depth),
            };
        }
        if depth > 0 && self.is_wild() {
            let any = self.scene.any_type();
            let raising = word(self.scene.rng.pick(&RAISING));
            return form("members", vec![self.scene.type_word(any), raising]);
        }
        let mut parts = vec![self.scene.type_word(ty)];
        if depth > 0 {
            for _ in 0..self.scene.rng.below(4) {
                parts.push(self.fitting(base, depth - 1));
            }
        }
        form("members", parts)
    }

    /// A whole array or record, or a constant if no variable holds one.
    fn whole(&mut self, ty: usize, depth: usize) -> Node {
        let found = self.target(depth, &|s: &Scene, t| s.types[t].root == ty);
        found.map_or_else(|| self.number(), |(node, _)| node)
    }

    /// Reads a part of a variable that has this host or set type.
    fn read(&mut self, host: usize, depth: usize) -> Node {
        let found = self.target(depth, &|s: &Scene, t| s.host(t) == host);
        match (found, &self.scene.types[host].shape) {
            (Some((node, _)), _) => node,
            (None, Shape::Set { .. }) => form("members", vec![self.scene.type_word(host)]),
            (None, _) => self.constant(host),
        }
    }

    /// Now and then an index or a field of something that may have none.
    fn wild_part(&mut self, of: &Node) -> Option<Node> {
        if self.is_wild() {
            let index = match self.scene.rng.percent(40) {
                true => word(self.scene.rng.pick(&RAISING)),
                false => self.number(),
            };
            return Some(form("at", vec![of.clone(), index]));
        }
        self.is_wild().then(|| form("dot", vec![of.clone(), word("speed")]))
    }

    /// A target whose type passes the test, with its type.
    pub fn target(
        &mut self,
        depth: usize,
        test: &dyn Fn(&Scene, usize) -> bool,
    ) -> Option<(Node, usize)> {
        let fits = |place: &usize| holds(self.scene, self.scene.variables[*place].1, test, depth);
        let list: Vec<usize> = (0..self.scene.variables.len()).filter(fits).collect();
        if list.is_empty() {
            return None;
        }
        let list = self.own_first(list);
        let (name, mut ty) = self.scene.variables[*self.scene.rng.pick(&list)].clone();
        let mut node = word(name);
        let mut left = depth;
        if let Some(misfit) = self.wild_part(&node) {
            return Some((misfit, ty));
        }
        while !test(self.scene, ty) {
            left -= 1;
            (node, ty) = match self.scene.types[ty].shape.clone() {
                Shape::Array { index, element } => {
                    let index = self.index(index, left.min(2));
                    (form("at", vec![node, index]), element)
                }
                Shape::Record(fields) => {
                    let inside = |f: &&(String, usize)| holds(self.scene, f.1, test, left);
                    let fields: Vec<_> = fields.iter().filter(inside).collect();
                    let (name, ty) = *self.scene.rng.pick(&fields);
                    (form("dot", vec![node, word(name)]), *ty)
                }
                _ => return None,
            };
        }
        Some((node, ty))
    }
}

/// Does a type pass the test, or a part of it within so many levels?
pub fn holds(scene: &Scene, ty: usize, test: &dyn Fn(&Scene, usize) -> bool, depth: usize) -> bool {
    if test(scene, ty) {
        return true;
    }
    if depth == 0 {
        return false;
    }
    match &scene.types[ty].shape {
        Shape::Array { element, .. } => holds(scene, *element, test, depth - 1),
        Shape::Record(fields) => fields.iter().any(|(_, ty)| holds(scene, *ty, test, depth - 1)),
        _ => false,
    }
}
