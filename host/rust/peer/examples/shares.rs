//! Prints what share of the generated cases gets which answer: `shares [COUNT] [FIRST SEED]`.

use std::collections::BTreeMap;

use peer::gen::{case, sorted_text};
use peer::{Answer, Outcome, Refusal, LANDED};

type Table = BTreeMap<String, usize>;

fn add(table: &mut Table, key: String) {
    *table.entry(key).or_default() += 1;
}

fn word(answer: &Result<Answer, Refusal>) -> String {
    match answer {
        Err(refusal) => format!("refused {:2}", refusal.number),
        Ok(answer) => match answer.outcome {
            Outcome::Normal => "normal".to_string(),
            Outcome::Exception { number: number @ -105..=-101, .. } => {
                format!("exception {number}")
            }
            Outcome::Exception { .. } => "exception, own number".to_string(),
            Outcome::Spent => "spent".to_string(),
            Outcome::Stuck => "stuck".to_string(),
        },
    }
}

fn print(title: &str, table: &Table, all: usize) {
    println!("{title}");
    for (key, count) in table {
        println!("  {key:28} {count:8} {:6.2} %", *count as f64 * 100.0 / all as f64);
    }
}

fn main() {
    let numbers: Vec<u64> = std::env::args().skip(1).filter_map(|arg| arg.parse().ok()).collect();
    let (count, first) = (*numbers.first().unwrap_or(&10_000), *numbers.get(1).unwrap_or(&0));
    let (mut verdicts, mut runs, mut marks) = (Table::new(), Table::new(), Table::new());
    let (mut bytes, mut longest) = (0, 0);
    for seed in first..first + count {
        let (sort, text) = sorted_text(LANDED, seed);
        let verdict = match peer::verdict(LANDED, &text, peer::bytes::WORK) {
            Ok(_) => "accepted".to_string(),
            Err(refusal) => format!("refused {}", refusal.number),
        };
        add(&mut verdicts, format!("{sort:?}: {verdict}"));
        add(&mut verdicts, format!("all: {verdict}"));
        bytes += text.len();
        longest = longest.max(text.len());
        let case = case(LANDED, seed);
        add(&mut runs, word(&case.run().0));
        add(&mut marks, word(&case.mark().0));
    }
    println!("{count} cases, {bytes} bytes, the longest {longest}");
    print("verdicts", &verdicts, count as usize);
    print("runs", &runs, count as usize);
    print("markings", &marks, count as usize);
}
