//! Whole copies (Point 3 of document 02). They change no answer, so what could change one is tried:
//! a copy to itself, parts of the same variable, components without a value, indices that raise.

use super::exprs::{holds, Writer, CLASHING, RAISING};
use super::node::{form, word, Node};
use super::scene::{Known, Scene, Shape, BOOLEAN, INTEGER};
use crate::level::Level;

/// In 100: how often a script has types and variables made for copies, a statement is a copy, and
/// so is one of which several parts raise.
const KIN: usize = 70;
const COPIED: usize = 16;
const COPIED_CLASHING: usize = 30;

/// In 100: how often a copy goes to itself, is made of values just stored, is followed by a change
/// of one of its two sides, or is just a copy.
const ITSELF: usize = 18;
const FILLED: usize = 22;
const CHANGED: usize = 25;
const PLAIN: usize = 35;

/// In 100: how often a component is filled, a small variable is at the top of `main`, an index is a
/// parameter where one fits, and a procedure has a parameter that can be an index.
const EACH: usize = 97;
const AT_START: usize = 70;
const BY_PARAMETER: usize = 40;
const FOR_INDEX: usize = 50;

/// In 100: how often indices of both sides of a copy raise, of which the source's counts, and each
/// index where they do.
const CLASHED: usize = 15;
const RAISED: usize = 50;

/// Indices deep at most that a copied part stands, and cells that are filled one by one.
const DEEP: usize = 4;
const FEW: usize = 12;

/// Is it an array or a record?
fn is_whole(scene: &Scene, ty: usize) -> bool {
    matches!(scene.types[ty].shape, Shape::Array { .. } | Shape::Record(_))
}

impl Scene {
    /// Often, a type that can be copied, an array of it and a record with it, and variables of all.
    pub fn kin(&mut self) {
        if !self.level.has(Level::COPIES) || !self.rng.percent(KIN) {
            return;
        }
        let small = |s: &Scene, ty: usize| is_whole(s, ty) && s.types[ty].cells <= 40;
        let mut wholes = self.types_where(small);
        if wholes.is_empty() {
            self.record();
            wholes.push(self.types.len() - 1);
        }
        let profile = *self.rng.pick(&wholes);
        let mut kinds = vec![profile, profile];
        kinds.extend(self.row_of(profile));
        if self.rng.percent(60) {
            kinds.push(self.around(&kinds.clone()));
        }
        for ty in kinds {
            self.var_line(ty);
        }
    }

    /// An array of a type, with an index of few values if there is one.
    fn row_of(&mut self, element: usize) -> Option<usize> {
        let few = |s: &Scene, ty: usize| s.values(ty).is_some_and(|n| (2..=5).contains(&n));
        let indices = self.types_where(few);
        let index = *self.rng.pick(&indices);
        let cells = self.values(index)? as usize * self.types[element].cells;
        let written = form("array", vec![self.type_word(index), self.type_word(element)]);
        self.add(Shape::Array { index, element }, written, cells);
        Some(self.types.len() - 1)
    }

    /// A record that has a part of each type, and an integer between them.
    fn around(&mut self, kinds: &[usize]) -> usize {
        let mut fields: Vec<(String, usize)> = Vec::new();
        for (place, ty) in kinds.iter().enumerate() {
            fields.push((format!("part{place}"), *ty));
            fields.push((format!("n{place}"), INTEGER));
        }
        let cells = fields.iter().map(|(_, ty)| self.types[*ty].cells).sum();
        let written =
            fields.iter().map(|(name, ty)| Node::List(vec![word(name), self.type_word(*ty)]));
        let written = form("record", written.collect());
        self.add(Shape::Record(fields), written, cells);
        self.types.len() - 1
    }

    /// The index of an array, where a procedure's parameter is to have its type.
    pub fn index_type(&mut self) -> Option<usize> {
        let indices: Vec<usize> = self.types.iter().filter_map(index_of).collect();
        let wanted =
            self.level.has(Level::COPIES) && !indices.is_empty() && self.rng.percent(FOR_INDEX);
        wanted.then(|| *self.rng.pick(&indices))
    }
}

fn index_of(known: &Known) -> Option<usize> {
    match known.shape {
        Shape::Array { index, .. } => Some(index),
        _ => None,
    }
}

impl Writer<'_> {
    /// Now and then a copy in place of another statement, where a variable can be copied.
    pub fn copy_instead(&mut self) -> Option<Node> {
        let chance = if self.rough == CLASHING { COPIED_CLASHING } else { COPIED };
        let copies = self.scene.level.has(Level::COPIES) && self.scene.rng.percent(chance);
        copies.then(|| self.copying()).flatten()
    }

    /// A whole array or record from one part of the store to another.
    fn copying(&mut self) -> Option<Node> {
        let root = self.copied_root()?;
        let before = self.rough;
        if self.scene.rng.percent(CLASHED) {
            self.rough = CLASHING;
        }
        let same = |s: &Scene, ty: usize| s.types[ty].root == root;
        let sides = (self.target(DEEP, &same), self.target(DEEP, &same));
        self.rough = before;
        let (Some((to, _)), Some((from, _))) = sides else { return None };
        let copy = form(":=", vec![to.clone(), from.clone()]);
        let few = self.scene.types[root].cells <= FEW;
        let statements = match self.scene.rng.weighted(&[ITSELF, FILLED, CHANGED, PLAIN]) {
            0 => return Some(form(":=", vec![to.clone(), to])),
            1 if few => {
                let mut filled = self.filled(from, root);
                filled.push(copy);
                filled
            }
            2 => {
                let side = if self.scene.rng.percent(50) { to } else { from };
                let mut parts = self.filled(side, root);
                parts.truncate(1 + self.scene.rng.below(FEW));
                std::iter::once(copy).chain(parts.pop()).collect()
            }
            _ => return Some(copy),
        };
        Some(form("begin", statements))
    }

    /// A type whose values are arrays or records, of which some variable holds one.
    fn copied_root(&mut self) -> Option<usize> {
        let held = |s: &Scene, ty: usize| {
            let same = |s: &Scene, other: usize| s.types[other].root == ty;
            s.variables.iter().any(|(_, kind)| holds(s, *kind, &same, DEEP))
        };
        let roots = |s: &Scene, ty: usize| is_whole(s, ty) && s.types[ty].root == ty && held(s, ty);
        let roots = self.scene.types_where(roots);
        (!roots.is_empty()).then(|| *self.scene.rng.pick(&roots))
    }

    /// Statements that give nearly every component of a part a value.
    fn filled(&mut self, part: Node, ty: usize) -> Vec<Node> {
        match self.scene.types[ty].shape.clone() {
            Shape::Array { index, element } => {
                let (low, high) = self.scene.bounds(index).unwrap_or((0, -1));
                let host = self.scene.host(index);
                let at = (low..=high).flat_map(|value| {
                    let value = self.scene.constant(host, value);
                    self.filled(form("at", vec![part.clone(), value]), element)
                });
                at.collect()
            }
            Shape::Record(fields) => {
                let dot = |(name, ty)| self.filled(form("dot", vec![part.clone(), word(name)]), ty);
                fields.into_iter().flat_map(dot).collect()
            }
            _ if self.scene.rng.percent(EACH) => vec![form(":=", vec![part, self.plain(ty)])],
            _ => Vec::new(),
        }
    }

    /// The same of a small variable, most often.
    pub fn filled_at_start(&mut self, name: &str, ty: usize) -> Vec<Node> {
        let few = self.scene.types[ty].cells <= FEW && is_whole(self.scene, ty);
        match few && self.scene.level.has(Level::COPIES) && self.scene.rng.percent(AT_START) {
            true => self.filled(word(name), ty),
            false => Vec::new(),
        }
    }

    /// An index, often a parameter of the procedure; in a clash often one that raises.
    pub fn index(&mut self, ty: usize, depth: usize) -> Node {
        let clash = self.rough == CLASHING && self.scene.level.has(Level::COPIES);
        if clash && self.scene.rng.percent(RAISED) {
            return self.raising_index(ty);
        }
        let first = self.scene.variables.len() - self.scene.own;
        let host = self.scene.host(ty);
        let mut own = self.scene.variables[first..].iter();
        let fits = own.find(|(_, own)| self.scene.host(*own) == host).map(|(name, _)| word(name));
        match fits.filter(|_| self.scene.level.has(Level::COPIES)) {
            Some(parameter) if self.scene.rng.percent(BY_PARAMETER) => parameter,
            _ => self.fitting(ty, depth),
        }
    }

    /// One that raises, if it can be by another number than that of its range test.
    fn raising_index(&mut self, ty: usize) -> Node {
        let raising = word(self.scene.rng.pick(&RAISING));
        match self.scene.host(ty) {
            INTEGER => raising,
            BOOLEAN => form("odd", vec![raising]),
            host => form("succ", vec![form("last", vec![self.scene.type_word(host)])]),
        }
    }
}
