//! The explainer's own verdict: the first faulty line, and on it the fault with the lowest number.

use std::collections::BTreeMap;

use crate::bytes::{self, lines};
use crate::fault::Fault;
use crate::kinds::Judge;
use crate::shape::Reader;
use crate::span::Span;
use crate::syntax::{Body, Line};
use crate::tree::{self, tokens};
use crate::word;
use crate::world::{over, Variable, World};

const NODES: u64 = 4_096;

/// Is the fitting of kinds inside bodies judged? The marking machine leaves it out.
#[derive(Clone, Copy, Debug, PartialEq, Eq)]
pub enum Fits {
    Judged,
    LeftOut,
}

/// Everything known of a script after its lines are judged.
pub struct Script {
    pub world: World,
    pub procedures: Vec<Body>,
    pub main: Body,
    nodes: u64,
    statements: u32,
    /// The line of `main`.
    ended: Option<usize>,
}

/// A fault with its line; 0 where the refusal has none.
pub struct Refused {
    pub line: usize,
    pub fault: Fault,
}

/// Rows 2 to 9.
pub fn judge(text: &[u8], fits: Fits) -> Result<Script, Refused> {
    if let Some(fault) = bytes::too_long(text) {
        return Err(Refused { line: 0, fault });
    }
    if let Some(fault) = bytes::refused_byte(text) {
        return Err(Refused { line: crate::span::line_of(text, fault.span.start), fault });
    }
    let mut script = Script::new(text);
    let lines = lines(text);
    for line in &lines {
        let faults = script.line(text, line).into_iter().filter(|fault| !(fault.misfit && fits == Fits::LeftOut));
        if let Some(fault) = faults.min_by_key(|fault| (fault.number, fault.span.start)) {
            return Err(Refused { line: line.number, fault });
        }
    }
    match script.ended {
        Some(_) => Ok(script),
        None => Err(Refused { line: lines.len() + 1, fault: no_main(text) }),
    }
}

fn no_main(text: &[u8]) -> Fault {
    let fault = Fault::new(6, Span::new(text.len(), text.len()), "The script ends here without `main`.");
    fault.expected("a last line `(main STATEMENT ..)`")
}

/// The line on which each name is declared first, in lines as they are written.
fn declared(text: &[u8]) -> BTreeMap<String, usize> {
    let mut names = BTreeMap::new();
    for line in lines(text) {
        let words: Vec<String> = tokens(text, line.span).iter().map(|token| token.shown(text).to_ascii_lowercase()).collect();
        let words: Vec<&str> = words.iter().map(String::as_str).collect();
        let listed = match words.as_slice() {
            ["(", "type", _, "(", "enum", values @ ..] => values,
            _ => &[],
        };
        if let ["(", "type" | "var" | "proc", name, ..] = words.as_slice() {
            for name in listed.iter().filter(|word| **word != ")").chain([name]) {
                names.entry(name.to_string()).or_insert(line.number);
            }
        }
    }
    names
}

impl Script {
    fn new(text: &[u8]) -> Script {
        let mut world = World::new();
        world.later = declared(text);
        Script { world, procedures: Vec::new(), main: Body::default(), nodes: 0, statements: 0, ended: None }
    }

    /// Has a store as many values and marks as the script has cells?
    pub fn fits(&self, store: (&[i64], &[u8])) -> bool {
        store.0.len() == self.world.cells && store.1.len() == self.world.cells
    }

    /// The faults of the next line.
    fn line(&mut self, text: &[u8], line: &bytes::Line) -> Vec<Fault> {
        let form = match tree::form(text, line) {
            Ok(form) => form,
            Err(fault) => return vec![fault],
        };
        if let Some(span) = form.bad {
            return vec![word::fault(text, span)];
        }
        if let Some(main) = self.ended {
            return vec![after_main(form.tree.span(), main)];
        }
        self.world.line = line.number;
        let mut reader = Reader { text, world: &self.world, statements: self.statements };
        let shaped = reader.line(&form.tree);
        self.statements = reader.statements;
        let read = match shaped {
            Ok(read) => read,
            Err(fault) => return vec![fault],
        };
        self.nodes += form.nodes as u64;
        let mut faults = Vec::new();
        over(self.nodes, NODES, "brackets and words up to the end of this line", form.tree.span(), &mut faults);
        self.meaning(read, line.number, &mut faults);
        faults
    }

    /// Rows 7 to 9 of one line; what it declares joins the world.
    fn meaning(&mut self, line: Line, number: usize, faults: &mut Vec<Fault>) {
        match line {
            Line::Type(name, form) => self.world.type_line(&name, &form, faults),
            Line::Var(name, ty) => self.world.var_line(&name, &ty, faults),
            Line::Proc(name, pairs, body) => {
                let parameters = self.world.proc_head(&name, &pairs, faults);
                self.body(&body, &parameters, faults);
                self.world.declare_proc(&name, parameters);
                self.procedures.push(body);
            }
            Line::Main(body) => {
                self.body(&body, &[], faults);
                self.main = body;
                self.ended = Some(number);
            }
        }
    }

    fn body(&self, body: &Body, parameters: &[Variable], faults: &mut Vec<Fault>) {
        Judge { world: &self.world, parameters, faults, controls: Vec::new() }.body(body);
    }
}

fn after_main(span: Span, main: usize) -> Fault {
    let fault = Fault::new(6, span, format!("This line stands after `main` (line {main})."));
    fault.expected("`main` as the last line").hint("Move this line up, before `main`, or remove it.")
}
