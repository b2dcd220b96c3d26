//! Procedures with parameters, and calls with arguments (Point 1 of document 02).

use super::exprs::{Writer, RAISING};
use super::node::{form, word, Node};
use super::scene::{Procedure, Scene, Shape, INTEGER};
use crate::level::Level;

/// In 100: how often a procedure has a list, and a body starts with a call of the procedure before
/// it; first in most scripts, then in those of many calls.
const LISTED: [usize; 2] = [65, 95];
const DEEPER: [usize; 2] = [55, 92];

/// In 100: how often a variable is taken from the parameters, an argument is a parameter of the
/// caller, and an argument lies outside its parameter's type.
const OWN: usize = 45;
const HANDED_ON: usize = 30;
const OUTSIDE: usize = 4;

/// In 100: how often two arguments of a call have faults, of which the first counts.
const TWO_FAULTS: usize = 8;

impl Scene {
    /// Starts a procedure: writes its list, if it gets one, and makes the names known to its body.
    pub fn enter(&mut self) -> Option<Node> {
        let chance = LISTED[usize::from(self.calls)];
        if !self.level.has(Level::PARAMETERS) || !self.rng.percent(chance) {
            return None;
        }
        let variables = 128 - self.variables.len() - self.parameters;
        let room = variables.min(2_048 - self.cells - self.parameters);
        self.own = room.min(*self.rng.pick(&[1, 1, 2, 2, 3, 4, 8]));
        let plain = |s: &Scene, ty: usize| {
            s.bounds(ty).is_some() || matches!(s.types[ty].shape, Shape::Set { .. })
        };
        let types = self.types_where(plain);
        let mut pairs = Vec::new();
        let mut index = self.index_type();
        for _ in 0..self.own {
            let ty = match index.take() {
                Some(index) => index,
                None if self.rng.percent(20) => INTEGER,
                None => *self.rng.pick(&types),
            };
            let name = self.fresh();
            pairs.push(Node::List(vec![word(&name), self.type_word(ty)]));
            self.variables.push((name, ty));
        }
        (!pairs.is_empty()).then_some(Node::List(pairs))
    }

    /// Ends a procedure: its parameters' names are free again, and a later line may take one.
    pub fn leave(&mut self, name: String) {
        let own = self.variables.split_off(self.variables.len() - self.own);
        self.own = 0;
        self.parameters += own.len();
        self.used.retain(|name| own.iter().all(|(gone, _)| gone != name));
        let parameters = own.iter().map(|(_, ty)| *ty).collect();
        self.procedures.push(Procedure { name, parameters });
        if !own.is_empty() && self.rng.percent(15) {
            let (name, _) = self.rng.pick(&own).clone();
            self.namesake(name);
        }
    }

    /// Declares a name that was a parameter's: as a variable, or as an enum name.
    fn namesake(&mut self, name: String) {
        let ty = self.any_type();
        let cells = self.cells + self.parameters + self.types[ty].cells;
        let variables = self.variables.len() + self.parameters;
        self.used.insert(name.clone());
        if self.rng.percent(70) && cells <= 2_048 && variables < 128 {
            self.var_named(name, ty);
        } else if self.types.len() < 60 {
            let names = vec![self.fresh(), name];
            let written = form("enum", names.iter().map(word).collect());
            self.add(Shape::Enum(names), written, 1);
        }
    }
}

impl Writer<'_> {
    /// The places of parameters alone, often, where there are any among these places of variables.
    pub fn own_first(&mut self, places: Vec<usize>) -> Vec<usize> {
        let first = self.scene.variables.len() - self.scene.own;
        match places.last() {
            Some(last) if *last >= first && self.scene.rng.percent(OWN) => {
                places.into_iter().filter(|place| *place >= first).collect()
            }
            _ => places,
        }
    }

    /// A call of the latest procedure, often, so that calls are nested deeply.
    pub fn deeper(&mut self) -> Option<Node> {
        let latest = self.scene.procedures.last()?.clone();
        let chance = DEEPER[usize::from(self.scene.calls)];
        let deeper = self.scene.level.has(Level::PARAMETERS) && self.scene.rng.percent(chance);
        deeper.then(|| self.call_of(&latest))
    }

    /// A call, with as many arguments as there are parameters but for some misfits.
    pub fn call_of(&mut self, procedure: &Procedure) -> Node {
        let mut parts = vec![word(&procedure.name)];
        for ty in &procedure.parameters {
            parts.push(self.argument(*ty));
        }
        if procedure.parameters.len() > 1 && self.scene.rng.percent(TWO_FAULTS) {
            self.two_faults(&procedure.parameters, &mut parts[1..]);
        }
        // A wrong count is refused by both judges, so that few scripts are to have one.
        if !procedure.parameters.is_empty() && self.is_wild() && self.scene.rng.percent(10) {
            match self.scene.rng.percent(50) {
                true => drop(parts.pop()),
                false => parts.push(self.number()),
            }
        }
        form("call", parts)
    }

    fn argument(&mut self, ty: usize) -> Node {
        if self.is_wild() {
            let any = self.scene.any_type();
            return self.fitting(any, 3);
        }
        let special = match self.scene.rng.below(100) {
            chance if chance < OUTSIDE => self.outside(ty),
            chance if chance < OUTSIDE + HANDED_ON => self.handed_on(ty),
            // Few arguments may raise where a call of calls is to come to its bottom.
            chance if self.scene.calls && chance < 88 => Some(self.plain(ty)),
            _ => None,
        };
        special.unwrap_or_else(|| self.fitting(ty, 3))
    }

    /// One argument outside its range, and beside it one that cannot be worked out.
    fn two_faults(&mut self, types: &[usize], arguments: &mut [Node]) {
        for (place, ty) in types.iter().enumerate() {
            let fault = match self.scene.rng.below(3) {
                0 if self.scene.host(*ty) == INTEGER => Some(word(self.scene.rng.pick(&RAISING))),
                0 => None,
                _ => self.outside(*ty),
            };
            if let Some(fault) = fault {
                arguments[place] = fault;
            }
        }
    }

    /// So often in a hundred, puts what a parameter holds where the store shows it.
    pub fn tell(&mut self, chance: usize) -> Option<Node> {
        let first = self.scene.variables.len() - self.scene.own;
        if self.scene.own == 0 || !self.scene.rng.percent(chance) {
            return None;
        }
        let stored = self.scene.variables[..first].iter().enumerate();
        let fits = |(place, (_, ty)): &(usize, &(String, usize))| {
            *ty == INTEGER && !self.controls.contains(place)
        };
        let (_, (to, _)) = stored.rev().find(fits)?;
        let (to, own) = (word(to), first + self.scene.rng.below(self.scene.own));
        let (name, ty) = self.scene.variables[own].clone();
        let head = if self.scene.bounds(ty).is_some() { "ord" } else { "card" };
        self.room = self.room.saturating_sub(1);
        Some(form(":=", vec![to, form(head, vec![word(name)])]))
    }

    /// What a body of a script of many calls ends with: a parameter told, an exception where the
    /// handler takes it.
    pub fn at_the_end(&mut self, handled: bool) -> Vec<Node> {
        if !self.scene.calls {
            return Vec::new();
        }
        let mut parts: Vec<Node> = self.tell(40).into_iter().collect();
        if handled && self.scene.rng.percent(40) {
            parts.push(form("raise", vec![word(5)]));
        }
        parts
    }

    /// A constant, or a set of one.
    pub fn plain(&mut self, ty: usize) -> Node {
        match self.scene.types[ty].shape {
            Shape::Set { base } => {
                form("members", vec![self.scene.type_word(ty), self.constant(base)])
            }
            _ => self.constant(ty),
        }
    }

    /// A parameter of the caller that has the same host or set type, or one more than it.
    fn handed_on(&mut self, ty: usize) -> Option<Node> {
        let first = self.scene.variables.len() - self.scene.own;
        let host = self.scene.host(ty);
        let own = self.scene.variables[first..].iter();
        let fits: Vec<_> = own.filter(|(_, own)| self.scene.host(*own) == host).cloned().collect();
        let (name, _) = (!fits.is_empty()).then(|| self.scene.rng.pick(&fits).clone())?;
        match host == INTEGER && self.scene.rng.percent(30) {
            true => Some(form("+", vec![word(name), word(1)])),
            false => Some(word(name)),
        }
    }

    /// A constant of the host just outside a range, if the host has one there.
    fn outside(&mut self, ty: usize) -> Option<Node> {
        let host = self.scene.host(ty);
        let (low, high) = self.scene.bounds(ty)?;
        let (least, most) = self.scene.bounds(host)?;
        let value = if self.scene.rng.percent(50) { low - 1 } else { high + 1 };
        (least..=most).contains(&value).then(|| self.scene.constant(host, value))
    }
}
