//! What `runscript` prints: the outcome's row, and a row for each cell.
use crate::{Answer, Store};

/// The rows of a run that was not refused; a refusal prints as it is.
pub fn of_run(answer: &Answer, owners: &[String], store: &Store) -> String {
    let mut rows = format!("{answer}\n");
    for (i, name) in owners.iter().enumerate() {
        match store.get(i) {
            Some(value) => rows += &format!("{} {name} {value}\n", i + 1),
            None => rows += &format!("{} {name} -\n", i + 1),
        }
    }
    rows
}

#[cfg(test)]
mod tests {
    use super::*;
    use crate::Outcome;

    #[test]
    fn rows() {
        let mut store = Store::undefined(2);
        store.define(0, -3);
        let names = ["a".to_string(), "b".to_string()];
        let answer = Answer { outcome: Outcome::Normal, steps: 2 };
        assert_eq!(of_run(&answer, &names, &store), "normal 2\n1 a -3\n2 b -\n");
    }
}
