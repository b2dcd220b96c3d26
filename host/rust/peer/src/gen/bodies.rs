//! Random statements and bodies, and whole scripts made of them.

use super::exprs::{Writer, CLASHING, SMOOTH, UNEVEN};
use super::node::{form, word, Node};
use super::rng::Rng;
use super::scene::{Scene, BOOLEAN, INTEGER};
use crate::level::Level;

/// How large a script is, and how often its kinds don't fit (in 1,000 expressions).
#[derive(Clone, Copy, Debug)]
pub struct Size {
    pub types: usize,
    pub variables: usize,
    pub procedures: usize,
    pub statements: usize,
    pub wild: usize,
    /// Most bodies call the procedure before them, with arguments.
    pub calls: bool,
}

const DEPTH: usize = 16;

/// In 100: how often what follows a loop reads its counter, sets it, or does neither.
const READ_AFTER: usize = 12;
const SET_AFTER: usize = 48;
const NOTHING_AFTER: usize = 40;

/// In 100: how often a statement of a handler reads a counter of its body.
const IN_HANDLER: usize = 30;

/// A script that breaks no rule, if `wild` is 0.
pub fn script(level: Level, rng: Rng, size: Size) -> Scene {
    let mut scene = Scene::new(level, rng);
    scene.calls = size.calls;
    for _ in 0..size.types {
        scene.type_line();
    }
    for _ in 0..size.variables {
        let ty = match scene.rng.below(6) {
            0 => INTEGER,
            1 => BOOLEAN,
            _ => scene.any_type(),
        };
        scene.var_line(ty);
    }
    scene.kin();
    if size.calls {
        scene.var_line(INTEGER);
    }
    for _ in 0..size.procedures {
        let room = 1 + scene.rng.below(2 * size.statements / (size.procedures + 1) + 1);
        let name = scene.fresh();
        let mut parts = vec![word(&name)];
        parts.extend(scene.enter());
        parts.extend(body(&mut scene, room, size.wild));
        scene.lines.push(form("proc", parts));
        scene.leave(name);
    }
    let mut parts = if scene.rng.percent(80) { starts(&mut scene, size.wild) } else { Vec::new() };
    parts.extend(body(&mut scene, size.statements, size.wild));
    scene.lines.push(form("main", parts));
    scene
}

fn body(scene: &mut Scene, room: usize, wild: usize) -> Vec<Node> {
    let handled = scene.rng.percent(35);
    let rough = if wild > 0 { UNEVEN } else { SMOOTH };
    let (controls, counted) = (Vec::new(), Vec::new());
    let mut writer = Writer { scene, wild, rough, controls, counted, room };
    let mut parts: Vec<Node> = writer.deeper().into_iter().collect();
    while writer.room > 0 {
        parts.push(writer.statement(DEPTH));
    }
    parts.extend(writer.at_the_end(handled));
    if handled {
        writer.room = writer.scene.rng.below(4);
        let mut handler = Vec::new();
        while writer.room > 0 {
            handler.push(writer.in_handler());
        }
        parts.push(form("exception", handler));
    }
    parts
}

/// Assignments that give many variables a value.
fn starts(scene: &mut Scene, wild: usize) -> Vec<Node> {
    let mut parts = Vec::new();
    for place in 0..scene.variables.len().min(20) {
        let (name, ty) = scene.variables[place].clone();
        let ordinal = scene.bounds(ty).is_some();
        let set = ordinal && scene.rng.percent(85);
        let (controls, counted) = (Vec::new(), Vec::new());
        let mut writer = Writer { scene, wild, rough: SMOOTH, controls, counted, room: 1 };
        if set {
            let value = writer.constant(ty);
            parts.push(form(":=", vec![word(name), value]));
        } else if !ordinal {
            parts.extend(writer.filled_at_start(&name, ty));
        }
    }
    parts
}

impl Writer<'_> {
    pub fn statement(&mut self, depth: usize) -> Node {
        self.room = self.room.saturating_sub(1);
        if depth < 5 || self.room == 0 {
            return self.assign(depth.min(3));
        }
        if let Some(copy) = self.copy_instead() {
            return copy;
        }
        match self.scene.rng.weighted(&[40, 6, 14, 5, 9, 9, 8, 2, 2, 1]) {
            0 => self.assign(5),
            1 => {
                let parts = (0..self.scene.rng.below(4)).map(|_| self.statement(depth - 1));
                form("begin", parts.collect())
            }
            2 => self.choice(depth),
            3 => self.repeat(depth),
            4 => self.count(depth),
            5 => self.case(depth),
            6 => self.call(),
            7 => form("raise", vec![self.expr(INTEGER, 3)]),
            8 => self.clash(depth),
            _ => form("begin", vec![]),
        }
    }

    /// A statement as handlers have them: raising again, keeping the number.
    pub fn in_handler(&mut self) -> Node {
        if let Some(told) = self.tell(40) {
            return told;
        }
        if let Some(read) = self.counter_in_handler() {
            return read;
        }
        match self.scene.rng.below(6) {
            0 => {
                self.room = self.room.saturating_sub(1);
                let number = *self.scene.rng.pick(&["0", "error_number", "7"]);
                form("raise", vec![word(number)])
            }
            1 | 2 => self.note(),
            _ => self.statement(6),
        }
    }

    /// Keeps the error number in an integer variable.
    fn note(&mut self) -> Node {
        match self.target(3, &|_, ty| ty == INTEGER) {
            Some((target, _)) => {
                self.room = self.room.saturating_sub(1);
                form(":=", vec![target, word("error_number")])
            }
            None => self.statement(6),
        }
    }

    fn assign(&mut self, depth: usize) -> Node {
        let whole = self.scene.rng.percent(10);
        let found = self.target(depth.max(2), &|scene, ty| whole || scene.types[ty].cells == 1);
        let Some((target, ty)) = found.filter(|(node, _)| !self.is_control(node)) else {
            return form("begin", vec![]);
        };
        let value = self.fitting(ty, depth);
        form(":=", vec![target, value])
    }

    /// A statement of which several parts raise: the first one counts.
    fn clash(&mut self, depth: usize) -> Node {
        let before = std::mem::replace(&mut self.rough, CLASHING);
        if let Some(copy) = self.copy_instead() {
            self.rough = before;
            return copy;
        }
        let calls = self.scene.level.has(Level::PARAMETERS) && self.scene.rng.percent(25);
        let statement = match self.scene.rng.below(6) {
            _ if calls => self.call(),
            0 => self.count(depth),
            1 => self.case(depth),
            2 => self.choice(depth),
            _ => self.assign(5),
        };
        self.rough = before;
        statement
    }

    fn is_control(&self, node: &Node) -> bool {
        self.controls.iter().any(|place| *node == word(&self.scene.variables[*place].0))
    }

    fn choice(&mut self, depth: usize) -> Node {
        let mut parts = vec![self.expr(BOOLEAN, 4), self.statement(depth - 1)];
        if self.scene.rng.percent(50) {
            parts.push(self.statement(depth - 1));
        }
        form("if", parts)
    }

    /// Most often a loop that ends: it counts a variable up.
    fn repeat(&mut self, depth: usize) -> Node {
        let counter = self.target(1, &|_, ty| ty == INTEGER);
        let counter = counter.filter(|(node, _)| !self.is_control(node));
        let inner = self.statement(depth - 2);
        match counter {
            Some((node, _)) if self.scene.rng.percent(90) => {
                let end = self.scene.rng.between(0, 12);
                let test = form("<", vec![node.clone(), word(end)]);
                let more = form(":=", vec![node.clone(), form("+", vec![node, word(1)])]);
                form("while", vec![test, form("begin", vec![inner, more])])
            }
            _ => form("while", vec![self.expr(BOOLEAN, 3), inner]),
        }
    }

    fn count(&mut self, depth: usize) -> Node {
        let wild = self.is_wild();
        let fits = |place: &usize| {
            (wild || self.scene.bounds(self.scene.variables[*place].1).is_some())
                && !self.controls.contains(place)
        };
        let list: Vec<usize> = (0..self.scene.variables.len()).filter(fits).collect();
        if list.is_empty() {
            return form("begin", vec![]);
        }
        let list = self.own_first(list);
        let place = *self.scene.rng.pick(&list);
        let (name, ty) = self.scene.variables[place].clone();
        let (from, to) = self.rounds(ty);
        self.controls.push(place);
        let inner = self.statement(depth - 1);
        self.controls.pop();
        let counting = form("for", vec![word(name), from, to, inner]);
        match self.after_loop(place) {
            Some(after) => form("begin", vec![counting, after]),
            None => counting,
        }
    }

    /// Point 2: what follows a loop reads its counter, which has no value then, or gives it one.
    fn after_loop(&mut self, counter: usize) -> Option<Node> {
        if !self.scene.level.has(Level::COUNTERS) {
            return None;
        }
        self.counted.push(counter);
        let (name, ty) = self.scene.variables[counter].clone();
        match self.scene.rng.weighted(&[READ_AFTER, SET_AFTER, NOTHING_AFTER]) {
            0 => self.counter_read(counter),
            1 => Some(form(":=", vec![word(name), self.constant(ty)])),
            _ => None,
        }
    }

    /// A counter kept in an integer variable.
    fn counter_read(&mut self, counter: usize) -> Option<Node> {
        let (name, ty) = self.scene.variables[counter].clone();
        self.scene.bounds(ty)?;
        let (target, _) = self.target(2, &|_, ty| ty == INTEGER)?;
        if self.is_control(&target) {
            return None;
        }
        Some(form(":=", vec![target, form("ord", vec![word(name)])]))
    }

    /// A counter of the body that the handler belongs to: it has kept its value where an exception left its loop.
    fn counter_in_handler(&mut self) -> Option<Node> {
        if self.counted.is_empty() || !self.scene.rng.percent(IN_HANDLER) {
            return None;
        }
        let counter = *self.scene.rng.pick(&self.counted);
        self.room = self.room.saturating_sub(1);
        self.counter_read(counter)
    }

    /// Bounds of a loop, with few rounds most often.
    fn rounds(&mut self, ty: usize) -> (Node, Node) {
        let host = self.scene.host(ty);
        let (low, high) = self.scene.bounds(ty).unwrap_or((0, 0));
        if self.is_wild() {
            let wrong = if host == INTEGER { word("true") } else { word(1) };
            return (wrong, self.fitting(ty, 3));
        }
        if self.rough == CLASHING || self.scene.rng.percent(10) {
            return (self.fitting(ty, 3), self.fitting(ty, 3));
        }
        let start = match self.scene.rng.below(5) {
            0 => low,
            1 => (high - 2).max(low),
            _ => self.scene.rng.between(low.max(-5).min(high), high.min(5).max(low)),
        };
        let end = (start + self.scene.rng.between(-1, 5)).clamp(low, high);
        (self.scene.constant(host, start), self.scene.constant(host, end))
    }

    fn case(&mut self, depth: usize) -> Node {
        let ordinals = self.scene.types_where(|s, ty| s.bounds(ty).is_some());
        let ty = *self.scene.rng.pick(&ordinals);
        let host = self.scene.host(ty);
        let selector = if self.is_wild() { self.scene.any_type() } else { ty };
        let mut parts = vec![self.fitting(selector, 4)];
        let (low, high) = self.scene.bounds(host).unwrap_or((0, 0));
        let mut label = self.scene.rng.between(-3, 1).clamp(low, high);
        for _ in 0..1 + self.scene.rng.below(4) {
            let mut arm = Vec::new();
            while label <= high && arm.len() < 3 && (arm.is_empty() || self.scene.rng.percent(40)) {
                let kind = if self.is_wild() { BOOLEAN } else { host };
                arm.push(self.scene.constant(kind, label));
                label += 1 + i64::from(self.scene.rng.percent(20));
            }
            if !arm.is_empty() {
                arm.push(self.statement(depth - 2));
                parts.push(form("arm", arm));
            }
        }
        if self.scene.rng.percent(60) {
            parts.push(form("else", vec![self.statement(depth - 2)]));
        }
        form("case", parts)
    }

    fn call(&mut self) -> Node {
        match self.scene.procedures.is_empty() {
            true => self.assign(4),
            false => {
                let procedure = self.scene.rng.pick(&self.scene.procedures).clone();
                self.call_of(&procedure)
            }
        }
    }
}
