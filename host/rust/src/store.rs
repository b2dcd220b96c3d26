//! The store of a script, and its file form: a line `VALUE MARK` for each cell.
use std::fmt;

/// A script's cells: 64-bit values, and marks (0 undefined, 1 defined).
#[derive(Clone, Debug, Default, PartialEq, Eq)]
pub struct Store {
    pub values: Vec<i64>,
    pub marks: Vec<u8>,
}

/// A line of a store file that is not `VALUE MARK`.
#[derive(Clone, Copy, Debug, PartialEq, Eq)]
pub struct StoreError {
    pub line: usize,
}

impl fmt::Display for StoreError {
    fn fmt(&self, f: &mut fmt::Formatter<'_>) -> fmt::Result {
        write!(
            f,
            "line {}: a cell is a line `VALUE MARK`, two numbers with a space between, the mark 0 (undefined) or 1 (defined); a store by names has lines `NAME VALUE`",
            self.line
        )
    }
}

impl std::error::Error for StoreError {}

impl Store {
    /// So many undefined cells.
    pub fn undefined(cells: usize) -> Store {
        Store { values: vec![0; cells], marks: vec![0; cells] }
    }

    /// The value of a cell, counted from 0, if it is defined.
    pub fn get(&self, cell: usize) -> Option<i64> {
        let mark = *self.marks.get(cell)?;
        let value = *self.values.get(cell)?;
        (mark == 1).then_some(value)
    }

    /// Defines a cell, counted from 0. Whether the value fits its type is tested by the run.
    pub fn define(&mut self, cell: usize, value: i64) {
        self.values[cell] = value;
        self.marks[cell] = 1;
    }

    /// Reads the file form. Marks other than 0 and 1 are left for the run to refuse.
    pub fn parse(text: &str) -> Result<Store, StoreError> {
        let mut store = Store::default();
        for (i, line) in text.lines().enumerate() {
            let (value, mark) = Store::cell(line).ok_or(StoreError { line: i + 1 })?;
            store.values.push(value);
            store.marks.push(mark);
        }
        Ok(store)
    }

    fn cell(line: &str) -> Option<(i64, u8)> {
        let mut words = line.split_ascii_whitespace();
        let cell = (words.next()?.parse().ok()?, words.next()?.parse().ok()?);
        words.next().is_none().then_some(cell)
    }
}

impl fmt::Display for Store {
    fn fmt(&self, f: &mut fmt::Formatter<'_>) -> fmt::Result {
        self.values.iter().zip(&self.marks).try_for_each(|(value, mark)| writeln!(f, "{value} {mark}"))
    }
}

#[cfg(test)]
mod tests {
    use super::*;

    #[test]
    fn file_form() {
        let store = Store::parse("5 1\n0 0\n-7 1\n").unwrap();
        assert_eq!(store, Store { values: vec![5, 0, -7], marks: vec![1, 0, 1] });
        assert_eq!((store.get(0), store.get(1), store.get(2), store.get(3)), (Some(5), None, Some(-7), None));
        assert_eq!(store.to_string(), "5 1\n0 0\n-7 1\n");
        assert_eq!(Store::parse("").unwrap(), Store::default());
    }

    #[test]
    fn faulty_lines() {
        for (text, line) in
            [("5", 1), ("5 1\n\n", 2), ("5 1\n6 x\n", 2), ("5 1 1\n", 1), ("99999999999999999999 1\n", 1), ("0 0\n0 0\n0 256\n", 3)]
        {
            assert_eq!(Store::parse(text), Err(StoreError { line }), "{text:?}");
        }
    }
}
