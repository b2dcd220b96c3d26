//! Compares the peer with every answer in the shared vectors, at each level that it knows.

#[path = "common/json.rs"]
mod json;

use std::collections::{HashMap, HashSet};

use json::Json;
use peer::bytes::WORK;
use peer::print::{cells, markscript, outcome, refused, runscript, BUDGET};
use peer::{Answer, Level, Refusal};

const VECTORS: &str = concat!(env!("CARGO_MANIFEST_DIR"), "/../../../../shared/vectors");

type Vector = HashMap<String, Json>;

/// The vectors of a file; none if it is not there.
fn vectors(file: &str) -> Vec<Vector> {
    let path = format!("{VECTORS}/{file}");
    match std::fs::read_to_string(&path) {
        Ok(text) => text.lines().map(json::object).collect(),
        Err(_) => {
            eprintln!("skipped: there is no file {path}");
            Vec::new()
        }
    }
}

fn script(vector: &Vector) -> Vec<u8> {
    match (vector.get("text"), vector.get("hex")) {
        (Some(Json::Text(text)), _) => text.as_bytes().to_vec(),
        (_, Some(Json::Text(hex))) => (0..hex.len() / 2)
            .map(|i| u8::from_str_radix(&hex[2 * i..2 * i + 2], 16).expect("two digits"))
            .collect(),
        _ => panic!("a vector without a script"),
    }
}

fn number(json: &Json) -> i64 {
    match json {
        Json::Number(value) => *value,
        other => panic!("{other:?} is no number"),
    }
}

fn list(json: &Json) -> &[Json] {
    match json {
        Json::List(list) => list,
        other => panic!("{other:?} is no list"),
    }
}

/// A run on a lent store: what is printed, and the store that it leaves.
struct Lent {
    printed: String,
    store: Json,
}

type Machine = fn(Level, &[u8], usize, &mut [i64], &mut [u8], u32) -> Result<Answer, Refusal>;

fn lent(level: Level, vector: &Vector, machine: Machine) -> Lent {
    let text = script(vector);
    let pair = |cell: &Json| (number(&list(cell)[0]), number(&list(cell)[1]) as u8);
    let cells_lent = list(&vector["store"]).iter().map(pair);
    let (mut values, mut marks): (Vec<i64>, Vec<u8>) = cells_lent.unzip();
    let budget = number(&vector["budget"]) as u32;
    let printed = match machine(level, &text, WORK, &mut values, &mut marks, budget) {
        Err(refusal) => refused(&refusal),
        Ok(answer) => outcome(&answer) + &left(level, &text, &values, &marks),
    };
    let cell = |(value, mark): (&i64, &u8)| {
        Json::List(vec![Json::Number(*value), Json::Number(i64::from(*mark))])
    };
    Lent { printed, store: Json::List(values.iter().zip(&marks).map(cell).collect()) }
}

/// The printed cells of a text that either machine takes.
fn left(level: Level, text: &[u8], values: &[i64], marks: &[u8]) -> String {
    let owners = peer::mark_owners(level, text, WORK).expect("a script that was run");
    cells(&owners, values, marks)
}

/// The peer's answer for a key of a vector; none for keys that hold no answer.
fn answer(level: Level, key: &str, vector: &Vector) -> Option<Json> {
    let text = &script(vector);
    match key {
        "verdict" => {
            let (number, line) = match peer::verdict(level, text, WORK) {
                Ok(_) => (0, 0),
                Err(refusal) => (refusal.number, refusal.line),
            };
            Some(Json::List(vec![Json::Number(number.into()), Json::Number(line.into())]))
        }
        "run" => Some(Json::Text(runscript(level, text, BUDGET))),
        "mark" => Some(Json::Text(markscript(level, text, BUDGET))),
        "run_store" => Some(Json::Text(lent(level, vector, peer::run).printed)),
        "mark_store" => Some(Json::Text(lent(level, vector, peer::mark).printed)),
        "store_after" => Some(lent(level, vector, peer::run).store),
        _ => {
            let budget = key.strip_prefix("run_")?;
            Some(Json::Text(runscript(level, text, budget.parse().expect("a budget"))))
        }
    }
}

/// Compares all answers of a vector; how many there are, and how many differ.
fn compare(level: Level, vector: &Vector) -> (usize, usize) {
    let (mut compared, mut faults) = (0, 0);
    for (key, wanted) in vector {
        let Some(got) = answer(level, key, vector) else { continue };
        compared += 1;
        if got != *wanted {
            faults += 1;
            eprintln!("{level:?} {:?} {key}: wanted {wanted:?}, got {got:?}", vector["n"]);
        }
    }
    let marked = !markscript(level, &script(vector), BUDGET).starts_with("refused");
    if marked && !vector.contains_key("mark") {
        faults += 1;
        eprintln!("{level:?} {:?}: the marking machine should not run it", vector["n"]);
    }
    (compared, faults)
}

/// Compares a list of vectors, and says how many answers it holds.
fn all(level: Level, what: &str, vectors: &[Vector]) {
    let (mut compared, mut faults) = (0, 0);
    for vector in vectors {
        let (answers, wrong) = compare(level, vector);
        compared += answers;
        faults += wrong;
    }
    eprintln!("{what} at {level:?}: {} rows, {compared} answers compared", vectors.len());
    assert_eq!(faults, 0, "{what} at {level:?}");
}

#[test]
fn document_01() {
    all(Level::BASE, "vectors.jsonl", &vectors("vectors.jsonl"));
    all(Level::BASE, "deep.jsonl", &vectors("deep.jsonl"));
}

/// A level's own rows; then those of document 01 that no level up to it answers anew.
#[test]
fn each_level() {
    let mut anew: HashSet<i64> = HashSet::new();
    for (number_of, level) in Level::ALL.into_iter().enumerate().skip(1) {
        let file = format!("level-{number_of:02}.jsonl");
        let own = vectors(&file);
        all(level, &file, &own);
        anew.extend(own.iter().filter_map(|vector| vector.get("base")).map(number));
        let mut kept = vectors("vectors.jsonl");
        kept.retain(|vector| !anew.contains(&number(&vector["n"])));
        all(level, "vectors.jsonl", &kept);
        all(level, "deep.jsonl", &vectors("deep.jsonl"));
    }
}
