//! Texts that are hardly scripts: words in balanced brackets, and random bytes.

use super::node::{write, Node, Style};
use super::rng::Rng;
use crate::word::{OPERATORS, RESERVED};

/// Lines of random words in balanced brackets.
pub fn words(rng: &mut Rng) -> Vec<u8> {
    let mut lines = Vec::new();
    for _ in 0..1 + rng.below(5) {
        let room = 1 + rng.below(30);
        lines.push(list(rng, room, 0));
    }
    if rng.percent(50) {
        lines.push(Node::List(vec![Node::Word("main".into())]));
    }
    write(&lines, Style::Plain, rng)
}

fn list(rng: &mut Rng, room: usize, depth: usize) -> Node {
    let heads: [&str; 4] = ["type", "var", "proc", "main"];
    let head = if depth == 0 { *rng.pick(&heads) } else { *rng.pick(&RESERVED) };
    let mut parts = Vec::new();
    if rng.percent(95) {
        parts.push(Node::Word(head.to_string()));
    }
    let mut left = room;
    while left > 0 {
        let share = 1 + rng.below(left);
        match rng.percent(40) && depth < 30 {
            true => parts.push(list(rng, share - 1, depth + 1)),
            false => parts.push(Node::Word(token(rng))),
        }
        left -= share;
    }
    Node::List(parts)
}

fn token(rng: &mut Rng) -> String {
    match rng.below(8) {
        0 => rng.pick(&RESERVED).to_string(),
        1 => rng.pick(&OPERATORS).to_string(),
        2 => rng.below(10).to_string(),
        3 => rng.pick(&["integer", "boolean", "true", "false"]).to_string(),
        _ => rng.pick(&["a", "b", "c", "d", "e"]).to_string(),
    }
}

/// Signs that random bytes are drawn from.
const MIXTURES: [&[u8]; 6] =
    [b"() \n", b"()(main)\n a1_", b"abc019 ()\n#:=+-*<>", b"\n", b" \n", b"()\n"];

/// Bytes of several mixtures.
pub fn bytes(rng: &mut Rng) -> Vec<u8> {
    let signs = *rng.pick(&MIXTURES);
    let length = rng.below(60);
    let any = rng.percent(20);
    (0..length).map(|_| if any { rng.draw() as u8 } else { *rng.pick(signs) }).collect()
}
