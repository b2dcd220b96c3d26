//! The cells of a script by name, and a store file by names: a line `NAME VALUE` for each defined cell.

use crate::fault::count;
use crate::judge::{judge, Fits, Script};
use crate::near::nearest;
use crate::span::printable;
use crate::types::{Kind, TypeId, Types};

/// Values and marks of a store.
pub type Lists = (Vec<i64>, Vec<u8>);

/// The cells of a script: how each is written, and what it holds.
pub struct Layout {
    types: Types,
    cells: Vec<Named>,
}

struct Named {
    /// As `all[work].forward`.
    path: String,
    /// The name of its variable.
    owner: String,
    ty: TypeId,
}

/// A store file of which a line is not a cell and its value.
#[derive(Clone, Debug, PartialEq, Eq)]
pub struct StoreFault {
    pub line: usize,
    pub found: String,
    pub hint: String,
}

impl Layout {
    /// The cells of a text that the explainer takes too.
    pub fn of(text: &[u8], fits: Fits) -> Option<Layout> {
        judge(text, fits).ok().map(|script| Layout::of_script(&script))
    }

    pub(crate) fn of_script(script: &Script) -> Layout {
        let types = script.world.types.clone();
        let mut layout = Layout { types, cells: Vec::new() };
        for variable in &script.world.variables {
            layout.lay(&variable.name, variable.name.clone(), variable.ty);
        }
        layout
    }

    /// Appends the cells of a part of a variable, in order.
    fn lay(&mut self, owner: &str, path: String, ty: TypeId) {
        match self.types.kind(ty).clone() {
            Kind::Ordinal { .. } | Kind::Set { .. } => self.cells.push(Named { path, owner: owner.to_string(), ty }),
            Kind::Array { index, element } => {
                let (low, high) = self.types.bounds(index).unwrap_or((0, -1));
                for value in low..=high {
                    let at = self.types.shown(index, value);
                    self.lay(owner, format!("{path}[{at}]"), element);
                }
            }
            Kind::Record { fields } => fields.iter().for_each(|field| self.lay(owner, format!("{path}.{}", field.name), field.ty)),
        }
    }

    /// The name of each cell's variable: what the library calls its owner.
    pub fn owners(&self) -> Vec<&str> {
        self.cells.iter().map(|cell| cell.owner.as_str()).collect()
    }

    /// How a cell is written, counted from 0.
    pub fn path(&self, cell: usize) -> Option<&str> {
        self.cells.get(cell).map(|named| named.path.as_str())
    }

    /// A cell's value as a person reads it.
    pub fn shown(&self, cell: usize, value: i64) -> String {
        self.cells.get(cell).map_or_else(|| value.to_string(), |named| self.types.shown(named.ty, value))
    }

    /// Least and greatest value of a cell; nothing for a set.
    pub fn bounds(&self, cell: usize) -> Option<(i64, i64)> {
        self.cells.get(cell).and_then(|named| self.types.bounds(named.ty))
    }

    /// Are a cell's values names, as of an enumeration, and not numbers?
    pub fn is_named(&self, cell: usize) -> bool {
        self.cells.get(cell).map_or(false, |named| self.types.is_named(named.ty))
    }

    /// A line `NAME VALUE` for each cell; an undefined one has `-`.
    pub fn rows(&self, values: &[i64], marks: &[u8]) -> String {
        let mut rows = String::new();
        for (cell, named) in self.cells.iter().enumerate() {
            let value = match marks.get(cell) {
                Some(1) => self.shown(cell, values[cell]),
                _ => "-".to_string(),
            };
            rows += &format!("{} {value}\n", named.path);
        }
        rows
    }

    /// Reads such lines back. A cell that is not named is undefined; whether a number fits is left to the run.
    pub fn read(&self, file: &str) -> Result<Lists, StoreFault> {
        let (mut values, mut marks) = (vec![0; self.cells.len()], vec![0; self.cells.len()]);
        let mut seen = vec![false; self.cells.len()];
        for (i, line) in file.lines().enumerate().filter(|(_, line)| !line.trim().is_empty()) {
            let (cell, value) = self.read_line(line.trim()).map_err(|(found, hint)| StoreFault { line: i + 1, found, hint })?;
            if std::mem::replace(&mut seen[cell], true) {
                let found = format!("`{}` has a value on a line above already.", self.cells[cell].path);
                return Err(StoreFault { line: i + 1, found, hint: String::new() });
            }
            if let Some(value) = value {
                values[cell] = value;
                marks[cell] = 1;
            }
        }
        Ok((values, marks))
    }

    fn read_line(&self, line: &str) -> Result<(usize, Option<i64>), (String, String)> {
        let (path, word) = line.split_once(' ').map_or((line, ""), |(path, word)| (path, word.trim()));
        let path = path.to_ascii_lowercase();
        let cell = self.cells.iter().position(|named| named.path == path).ok_or_else(|| self.no_cell(&path))?;
        match self.types.valued(self.cells[cell].ty, word) {
            _ if word == "-" => Ok((cell, None)),
            Some(value) => Ok((cell, Some(value))),
            None => Err(self.no_value(cell, word)),
        }
    }

    fn no_cell(&self, path: &str) -> (String, String) {
        let shown = printable(path.as_bytes());
        let under = self.cells.iter().filter(|named| named.owner == path).map(|named| named.path.as_str()).collect::<Vec<_>>();
        let hint = match (under.as_slice(), nearest(path, self.cells.iter().map(|named| named.path.as_str()))) {
            ([first, .., last], _) => format!("Give a line for each of its cells, `{first}` to `{last}`."),
            (_, Some(near)) => format!("Did you mean `{near}`?"),
            _ => format!("The script has {}.", count(self.cells.len(), "cell")),
        };
        (format!("The script has no cell `{shown}`."), hint)
    }

    fn no_value(&self, cell: usize, word: &str) -> (String, String) {
        let Named { path, ty, .. } = &self.cells[cell];
        let found = match word {
            "" => format!("`{path}` has no value after it."),
            _ => format!("`{}` is no value for `{path}`.", printable(word.as_bytes())),
        };
        let what = match self.types.base(*ty) {
            Some(_) => "`{MEMBER ..}`, ",
            None => "",
        };
        (found, format!("Write {what}a value of {}, or `-` for none.", self.types.extent(*ty)))
    }

    /// The first cell that refusal 11 is about, and what is wrong with it.
    pub fn faulty(&self, values: &[i64], marks: &[u8]) -> Option<String> {
        let cells = self.cells.iter().zip(values.iter().zip(marks)).enumerate();
        cells.filter_map(|(cell, (named, (value, mark)))| self.wrong(cell, named, *value, *mark)).next()
    }

    fn wrong(&self, cell: usize, named: &Named, value: i64, mark: u8) -> Option<String> {
        let what = match mark {
            0 if value == 0 => return None,
            0 => format!("has the value {value} and the mark 0; a cell without a value has 0 for it"),
            1 if self.types.holds(named.ty, value) => return None,
            1 if self.types.base(named.ty).is_some() => format!("is {value}, which is no set `{}`", self.types.name(named.ty)),
            1 => format!("is {}, outside {}", self.types.shown(named.ty, value), self.types.extent(named.ty)),
            _ => format!("has the mark {mark}; a mark is 0 or 1"),
        };
        Some(format!("Cell {}, `{}`, {what}.", cell + 1, named.path))
    }
}

/// Is a store file written by names? The other form has a line `VALUE MARK` for each cell.
pub fn by_names(file: &str) -> bool {
    file.trim_start().starts_with(|c: char| c.is_ascii_alphabetic())
}

#[cfg(test)]
mod tests {
    use super::*;

    const CHAIR: &str = "(type gear (enum slow medium fast))\n(type percent (range 0 100))\n(type upper (range medium fast))\n(type speeds (array gear percent))\n(type seat (record (tilt percent) (locked boolean)))\n(type seats (array upper seat))\n(type gears (setof gear))\n(var now gear)\n(var top speeds)\n(var all seats)\n(var allowed gears)\n(var n integer)\n(main)\n";

    fn layout() -> Layout {
        Layout::of(CHAIR.as_bytes(), Fits::Judged).unwrap()
    }

    #[test]
    fn cells_by_name() {
        let layout = layout();
        let paths: Vec<&str> = (0..10).map_while(|cell| layout.path(cell)).collect();
        assert_eq!(
            paths,
            [
                "now",
                "top[slow]",
                "top[medium]",
                "top[fast]",
                "all[medium].tilt",
                "all[medium].locked",
                "all[fast].tilt",
                "all[fast].locked",
                "allowed",
                "n"
            ]
        );
        assert_eq!(layout.owners()[4], "all");
        assert_eq!(
            (layout.shown(0, 2), layout.shown(7, 1), layout.shown(8, 5), layout.shown(9, -7)),
            ("fast".into(), "true".into(), "{slow fast}".into(), "-7".into())
        );
        assert_eq!(layout.shown(8, 0), "{}");
        assert_eq!((layout.bounds(1), layout.bounds(4), layout.bounds(8), layout.bounds(99)), (Some((0, 100)), Some((0, 100)), None, None));
        assert_eq!([0, 1, 5, 8, 99].map(|cell| layout.is_named(cell)), [true, false, true, false, false]);
    }

    #[test]
    fn a_store_is_written_and_read_back() {
        let layout = layout();
        let store = (vec![2, 20, 0, 90, 0, 1, 0, 0, 5, -7], vec![1, 1, 0, 1, 0, 1, 0, 0, 1, 1]);
        let rows = layout.rows(&store.0, &store.1);
        assert!(
            rows.starts_with("now fast\ntop[slow] 20\ntop[medium] -\n")
                && rows.ends_with("all[fast].locked -\nallowed {slow fast}\nn -7\n"),
            "{rows}"
        );
        assert_eq!(layout.read(&rows), Ok(store));
        assert_eq!(layout.read("").unwrap().1, vec![0; 10]);
        let some = layout.read("\nALLOWED {}\n\n  n 5\n").unwrap();
        assert_eq!((some.0[9], some.1[8], some.1[9], some.1[0]), (5, 1, 1, 0));
    }

    #[test]
    fn store_files_that_do_not_fit() {
        let cases = [
            ("now fast\nstik 5\n", 2, "no cell `stik`", "cells"),
            ("nw fast\n", 1, "no cell `nw`", "`now`"),
            ("top 5\n", 1, "no cell `top`", "`top[slow]` to `top[fast]`"),
            ("now\n", 1, "no value after it", "slow to fast"),
            ("now fats\n", 1, "`fats` is no value for `now`", "slow to fast"),
            ("n 5\nn 6\n", 2, "already", ""),
            ("n five\n", 1, "`five`", "integer"),
            ("allowed slow\n", 1, "`slow`", "{MEMBER ..}"),
            ("n \x1b[2J\n", 1, "`?[2J`", ""),
        ];
        for (file, line, found, hint) in cases {
            let fault = layout().read(file).unwrap_err();
            assert_eq!(fault.line, line);
            assert!(fault.found.contains(found) && fault.hint.contains(hint), "{fault:?}");
        }
        assert!(by_names("\n stick 12\n") && !by_names("12 1\n") && !by_names("") && !by_names("-1 1\n"));
    }

    #[test]
    fn a_cell_that_does_not_fit_is_named() {
        let layout = layout();
        let told = |cell: usize, value, mark| {
            let (mut values, mut marks) = (vec![0; 10], vec![0; 10]);
            values[cell] = value;
            marks[cell] = mark;
            layout.faulty(&values, &marks)
        };
        assert_eq!(told(2, 130, 1).unwrap(), "Cell 3, `top[medium]`, is 130, outside `percent`, which is 0 to 100.");
        assert_eq!(told(0, 3, 1).unwrap(), "Cell 1, `now`, is 3, outside `gear`, which is slow to fast.");
        assert!(told(8, 8, 1).unwrap().contains("is 8, which is no set `gears`"));
        assert!(told(9, 4, 0).unwrap().contains("the mark 0"));
        assert!(told(9, 4, 2).unwrap().contains("the mark 2"));
        assert_eq!(told(1, 100, 1), None);
    }
}
