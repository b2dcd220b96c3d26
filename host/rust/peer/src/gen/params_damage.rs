//! One damage to a parameter list or to the arguments of a call.

use super::damage::{self, choose, collect, extra, Spot};
use super::node::{form, word, Node};
use super::rng::Rng;

/// Arguments that fit some parameters and not others, by kind or by range.
const ARGUMENTS: [&str; 8] =
    ["true", "0", "32", "2147483647", "#80000000", "(- 1)", "(div 1 0)", "error_number"];

/// Changes a list or a call of a script; another form if it has neither.
pub fn forms(lines: &mut [Node], rng: &mut Rng) {
    let calls = collect(lines, &|node| node.is_form("call"));
    let listed: Vec<usize> = (0..lines.len()).filter(|line| pairs(&lines[*line]) > 0).collect();
    match (choose(&calls, rng), listed.is_empty()) {
        (Some(spot), _) if listed.is_empty() || rng.percent(40) => call(lines, &spot, rng),
        (_, false) => {
            let line = *rng.pick(&listed);
            list(lines, line, rng);
        }
        _ => damage::forms(lines, rng),
    }
}

/// The pairs of a line's list.
fn pairs(line: &Node) -> usize {
    match (line.is_form("proc"), line) {
        (true, Node::List(parts)) => match parts.get(2) {
            Some(Node::List(pairs)) if matches!(pairs.first(), Some(Node::List(_))) => pairs.len(),
            _ => 0,
        },
        _ => 0,
    }
}

/// Another count of arguments, another order, another argument.
fn call(lines: &mut [Node], (line, place, node): &Spot, rng: &mut Rng) {
    let Node::List(mut parts) = node.clone() else { return };
    let at = 1 + rng.below(parts.len() - 1);
    let argument = word(*rng.pick(&ARGUMENTS));
    match rng.below(6) {
        0 if parts.len() > 2 => drop(parts.pop()),
        1 => parts.push(argument),
        2 => parts.insert(at, parts[at].clone()),
        3 => parts[1..].reverse(),
        4 => parts.push(extra(rng)),
        _ if at > 1 => parts[at] = argument,
        _ => parts.truncate(2),
    }
    lines[*line].change(*place, &mut |node| *node = Node::List(parts.clone()));
}

/// Changes the list of a line. A name of any line is taken: of an earlier one it is known, of a
/// later one it is free.
fn list(lines: &mut [Node], line: usize, rng: &mut Rng) {
    let declared: Vec<Node> = lines.iter().filter_map(|line| part(line, 1)).collect();
    let words: Vec<Node> = collect(lines, &is_word).into_iter().map(|spot| spot.2).collect();
    let count = pairs(&lines[line]);
    let (one, other) = (rng.below(count), rng.below(count));
    let own = part(&lines[line], 1);
    let act = rng.below(10);
    let new = match act {
        0 => own,
        1 | 2 => Some(rng.pick(&declared).clone()),
        _ => Some(rng.pick(&words).clone()),
    };
    let Some(Node::List(mut pairs)) = part(&lines[line], 2) else { return };
    match (act, new) {
        (0..=2, Some(name)) => set(&mut pairs[one], 0, name),
        (3, _) => {
            let name = part(&pairs[other], 0).unwrap_or(word("zz"));
            set(&mut pairs[one], 0, name);
        }
        (4 | 5, Some(ty)) => set(&mut pairs[one], 1, ty),
        (6, _) => more(&mut pairs, rng),
        (7, _) => broken(&mut pairs[one], rng),
        (8, _) => pairs.clear(),
        _ => return moved(lines, line, rng),
    }
    put(&mut lines[line], pairs);
}

fn is_word(node: &Node) -> bool {
    matches!(node, Node::Word(_))
}

fn part(node: &Node, place: usize) -> Option<Node> {
    match node {
        Node::List(parts) => parts.get(place).cloned(),
        Node::Word(_) => None,
    }
}

fn set(node: &mut Node, place: usize, new: Node) {
    if let Node::List(parts) = node {
        parts[place] = new;
    }
}

fn put(line: &mut Node, pairs: Vec<Node>) {
    set(line, 2, Node::List(pairs));
}

/// Fills a list up to the ceiling or past it; the last pair may have a fault of its own.
fn more(pairs: &mut Vec<Node>, rng: &mut Rng) {
    let most = 7 + rng.below(5);
    for which in pairs.len()..most {
        pairs.push(Node::List(vec![word(format!("more{which}")), word("integer")]));
    }
    match rng.below(6) {
        0 => pairs.push(Node::List(vec![word("more7"), word("integer")])),
        1 => pairs.push(Node::List(vec![word("last_one"), word("no_type")])),
        2 => pairs.push(Node::List(vec![word("last_one")])),
        _ => {}
    }
}

/// A pair with a part too few, a part too many, or a form for its type.
fn broken(pair: &mut Node, rng: &mut Rng) {
    let Node::List(parts) = pair else { return };
    match rng.below(5) {
        0 => drop(parts.pop()),
        1 => parts.push(word("integer")),
        2 => parts[1] = form("range", vec![word(1), word(4)]),
        3 => parts.reverse(),
        _ => parts.clear(),
    }
}

/// A list in a place that has none: behind a statement, twice, without its brackets, in `main`.
fn moved(lines: &mut [Node], line: usize, rng: &mut Rng) {
    let Some(Node::List(pairs)) = part(&lines[line], 2) else { return };
    let act = rng.below(4);
    let last = lines.len() - 1;
    if let (3, Node::List(parts)) = (act, &mut lines[last]) {
        return parts.insert(1, Node::List(pairs));
    }
    let Node::List(parts) = &mut lines[line] else { return };
    match act {
        0 => {
            let list = parts.remove(2);
            parts.insert(parts.len().min(3), list);
        }
        1 => parts.insert(2, Node::List(pairs)),
        _ => parts[2] = pairs[0].clone(),
    }
}
