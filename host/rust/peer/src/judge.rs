//! The verdict on a text: the first faulty line with the lowest of 4 to 9 that applies to it.

use crate::answer::Refusal;
use crate::body::Judge;
use crate::bytes;
use crate::code;
use crate::faults::{Faults, Fits};
use crate::level::Level;
use crate::scope::{Scope, Variable};
use crate::shape;
use crate::syntax::{Body, Line};
use crate::tree;
use crate::world::World;

const NODES: usize = 4_096;

/// Everything known of a script after its lines are judged.
#[derive(Clone, Debug)]
pub struct Script {
    /// The rules that it was judged by, and that it runs by.
    pub level: Level,
    pub world: World,
    /// The bodies as written; the marking machine runs these.
    pub procedures: Vec<Body>,
    pub main: Body,
    /// The same bodies as code; empty for a script whose kinds don't fit.
    pub procedure_code: Vec<code::Body>,
    pub main_code: code::Body,
    reader: shape::Reader,
    nodes: usize,
    ended: bool,
}

/// Rows 1 to 9.
pub fn judge(level: Level, text: &[u8], work_len: usize, fits: Fits) -> Result<Script, Refusal> {
    bytes::plain(text, work_len)?;
    let mut script = Script::new(level);
    let mut line = 1;
    for bytes in bytes::lines(text) {
        if let Some(number) = script.line(&bytes, fits) {
            return Err(Refusal { number, line });
        }
        line += 1;
    }
    match script.ended {
        true => Ok(script),
        false => Err(Refusal { number: 6, line }),
    }
}

impl Script {
    /// Before the first line.
    fn new(level: Level) -> Script {
        Script {
            level,
            world: World::new(),
            procedures: Vec::new(),
            main: Body::default(),
            procedure_code: Vec::new(),
            main_code: code::Body::default(),
            reader: shape::Reader::new(level),
            nodes: 0,
            ended: false,
        }
    }

    /// The lowest of 4 to 9 that applies to the next line.
    fn line(&mut self, bytes: &bytes::Line, fits: Fits) -> Option<u32> {
        let Some(form) = tree::form(bytes) else {
            return Some(4);
        };
        if form.bad_word {
            return Some(5);
        }
        if self.ended {
            return Some(6);
        }
        let Some(line) = shape::line(&form.tree, &mut self.reader) else {
            return Some(6);
        };
        self.nodes += form.nodes;
        let mut faults = self.meaning(line);
        faults.limit |= self.nodes > NODES;
        faults.lowest(fits)
    }

    /// Rows 7 to 9 of one line; what it declares joins the world.
    fn meaning(&mut self, line: Line) -> Faults {
        match line {
            Line::Type(name, form) => self.world.type_line(&name, &form),
            Line::Var(name, ty) => self.world.var_line(&name, &ty),
            Line::Proc(name, pairs, body) => {
                let mut faults = Faults::default();
                self.world.proc_name(&name, &mut faults);
                let parameters = self.world.parameters(&name, &pairs, &mut faults);
                let code = self.body(&body, &parameters, &mut faults);
                self.world.declare_proc(&name, parameters);
                self.procedures.push(body);
                self.procedure_code.push(code);
                faults
            }
            Line::Main(body) => {
                let mut faults = Faults::default();
                self.main_code = self.body(&body, &[], &mut faults);
                self.main = body;
                self.ended = true;
                faults
            }
        }
    }

    fn body(&self, body: &Body, parameters: &[Variable], faults: &mut Faults) -> code::Body {
        let scope = Scope { world: &self.world, parameters };
        Judge::new(scope, faults).body(body).unwrap_or_default()
    }
}
