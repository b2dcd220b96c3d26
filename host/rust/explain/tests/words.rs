//! The explainer's table of words is the one of the proved reader.
use explain::word::table;

/// The rows of the proved table, each a list of bytes that is filled up with zeros.
fn proved() -> Vec<String> {
    let source = include_str!("../../../../crates/leaf_reserved/src/table.rt");
    let rows = source.lines().filter_map(|line| line.trim().strip_prefix('[')?.split_once(']'));
    let bytes = rows.map(|(row, _)| row.split(',').map(|byte| byte.trim().parse().unwrap()).filter(|byte| *byte != 0).collect());
    bytes.map(|bytes: Vec<u8>| String::from_utf8(bytes).unwrap()).collect()
}

#[test]
fn the_words_are_those_of_the_proved_table() {
    let mut own: Vec<String> = table().map(|(_, word)| word.to_string()).collect();
    let mut proved = proved();
    own.sort_unstable();
    proved.sort_unstable();
    assert!(own.len() > 50);
    assert_eq!(own, proved);
}
