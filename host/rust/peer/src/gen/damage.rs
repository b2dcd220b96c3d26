//! One damage to a script: to its bytes, its lines, its words or its forms.

use super::exprs::{FUNCTIONS, TWO_SIDED};
use super::node::{form, word, Node};
use super::rng::Rng;
use crate::word::{OPERATORS, RESERVED};

/// Numbers at the limits, and words that look like numbers or names.
const ODD_WORDS: [&str; 40] = [
    "0", "1", "00000000000000000001", "2147483647", "2147483648", "02147483647", "4294967296",
    "99999999999999999999999999", "#0", "#", "#7FFFFFFF", "#80000000", "#FFFFFFFF", "#FFFFFFF",
    "#100000000", "#000000000", "#00000001", "#abcdef", "#G", "##1", "-5", "+5", "1e3", "5a", "_a",
    "a_", "a__b", "a_b", "a-b", "x.y", "'c'", ":", "==", "!=", "<>=", "***",
    "a23456789012345678901234567890x", "a234567890123456789012345678901x", "zz", "/",
];

/// Lines that may not stand after `main`.
const AFTER: [&[u8]; 4] = [b"(main)\n", b"(begin)\n", b"(var q integer)\n", b"x\n"];

/// Changes bytes of a written text.
pub fn bytes(text: &mut Vec<u8>, rng: &mut Rng) {
    let at = rng.below(text.len().max(1));
    let other = match rng.below(5) {
        0 => rng.draw() as u8,
        1 => *rng.pick(b"()\n #_-"),
        2 => *rng.pick(b"\t\r\0\x7f\x80\xff\x1f"),
        _ => rng.between(33, 126) as u8,
    };
    match rng.below(6) {
        0 | 1 if !text.is_empty() => text[at] = other,
        2 if !text.is_empty() => {
            text.remove(at);
        }
        3 => text.insert(at, other),
        4 => drop_bracket(text, rng),
        _ => ends(text, rng),
    }
}

fn drop_bracket(text: &mut Vec<u8>, rng: &mut Rng) {
    let sign = *rng.pick(b"()");
    let places: Vec<usize> = (0..text.len()).filter(|i| text[*i] == sign).collect();
    if let Some(place) = (!places.is_empty()).then(|| *rng.pick(&places)) {
        match rng.percent(60) {
            true => drop(text.remove(place)),
            false => text.insert(place, sign),
        }
    }
}

/// Changes at the end of the text or of a line.
fn ends(text: &mut Vec<u8>, rng: &mut Rng) {
    let feeds: Vec<usize> = (0..text.len()).filter(|i| text[*i] == b'\n').collect();
    let feed = if feeds.is_empty() { text.len() } else { *rng.pick(&feeds) };
    match rng.below(6) {
        0 => drop(text.pop()),
        1 => text.extend_from_slice(b"\n"),
        2 => text.extend_from_slice(b"  "),
        3 => text.insert(feed, b'\n'),
        4 if feed < text.len() => text[feed] = b' ',
        _ => text.extend(*rng.pick(&AFTER)),
    }
}

/// Changes the lines of a script.
pub fn lines(lines: &mut Vec<Node>, rng: &mut Rng) {
    let (one, other) = (rng.below(lines.len()), rng.below(lines.len()));
    match rng.below(4) {
        0 => lines.insert(other, lines[one].clone()),
        1 => drop(lines.remove(one)),
        2 => lines.swap(one, other),
        _ => {
            let line = lines.remove(one);
            lines.insert(other.min(lines.len()), line);
        }
    }
}

/// Changes one word of a script.
pub fn words(lines: &mut [Node], rng: &mut Rng) {
    let all = collect(lines, &|node| matches!(node, Node::Word(_)));
    let Some((line, place, old)) = choose(&all, rng) else { return };
    let Node::Word(old) = old else { return };
    let pool: Vec<&Node> = all.iter().map(|(_, _, node)| node).collect();
    let new = match rng.below(9) {
        0 => rng.pick(&ODD_WORDS).to_string(),
        1 => rng.pick(&RESERVED).to_string(),
        2 => rng.pick(&OPERATORS).to_string(),
        3 => misspelt(&old, rng),
        4 => old.to_ascii_uppercase(),
        5 => return rename(lines, &old, rng),
        _ => match *rng.pick(&pool) {
            Node::Word(word) => word.clone(),
            Node::List(_) => old,
        },
    };
    lines[line].change(place, &mut |node| *node = Node::Word(new.clone()));
}

fn misspelt(word: &str, rng: &mut Rng) -> String {
    let mut bytes = word.as_bytes().to_vec();
    let at = rng.below(bytes.len().max(1));
    match rng.below(3) {
        0 if !bytes.is_empty() => drop(bytes.remove(at)),
        1 => bytes.insert(at, b'_'),
        _ => bytes.insert(at, rng.between(97, 122) as u8),
    }
    String::from_utf8_lossy(&bytes).into_owned()
}

/// Gives a name 31 or 32 bytes, everywhere.
fn rename(lines: &mut [Node], old: &str, rng: &mut Rng) {
    let new = format!("{}{}", "n".repeat(26 + rng.below(2)), 10_000 + rng.below(90_000));
    for (line, place, _) in collect(lines, &|node| *node == word(old)) {
        lines[line].change(place, &mut |node| *node = word(&new));
    }
}

pub type Spot = (usize, usize, Node);

/// The nodes that pass a test, with line and place.
pub fn collect(lines: &[Node], test: &dyn Fn(&Node) -> bool) -> Vec<Spot> {
    let mut spots = Vec::new();
    for (which, line) in lines.iter().enumerate() {
        let mut nodes = Vec::new();
        line.all(&mut nodes);
        for (place, node) in nodes.into_iter().enumerate() {
            if test(node) {
                spots.push((which, place, node.clone()));
            }
        }
    }
    spots
}

/// One of the spots, if there is any.
pub fn choose(spots: &[Spot], rng: &mut Rng) -> Option<Spot> {
    (!spots.is_empty()).then(|| rng.pick(spots).clone())
}

/// Changes one form of a script.
pub fn forms(lines: &mut [Node], rng: &mut Rng) {
    match rng.below(14) {
        0 => label(lines, rng),
        1 | 2 => control(lines, rng),
        3 => reverse(lines, rng),
        4 => minus(lines, rng),
        5 => field(lines, rng),
        6 | 7 => parts(lines, rng),
        8 => own_name(lines, rng),
        9 | 10 => operator(lines, rng),
        11 => behind(lines, rng),
        _ => exchange(lines, rng),
    }
}

/// Repeats a label of a case, in the same arm or as another.
fn label(lines: &mut [Node], rng: &mut Rng) {
    let Some((line, place, Node::List(arm))) = choose(&collect(lines, &|n| n.is_form("arm")), rng)
    else {
        return parts(lines, rng);
    };
    let label = arm[1].clone();
    let end = rng.below(arm.len() - 1) + 1;
    lines[line].change(place, &mut |node| {
        if let Node::List(parts) = node {
            parts.insert(end, label.clone());
        }
    });
}

/// Assigns the variable of a loop inside it, or uses it in an inner loop.
fn control(lines: &mut [Node], rng: &mut Rng) {
    let Some((line, place, Node::List(parts))) =
        choose(&collect(lines, &|n| n.is_form("for")), rng)
    else {
        return self::parts(lines, rng);
    };
    let (name, from, to) = (parts[1].clone(), parts[2].clone(), parts[3].clone());
    let (Some(old), inside) = (parts.last().cloned(), rng.below(3)) else { return };
    let new = match inside {
        0 => form(":=", vec![name, from]),
        1 => form("begin", vec![old, form("if", vec![word("true"), form(":=", vec![name, to])])]),
        _ => form("for", vec![name, from, to, old]),
    };
    lines[line].change(place, &mut |node| {
        if let Node::List(parts) = node {
            parts.pop();
            parts.push(new.clone());
        }
    });
}

/// Uses the name that a line declares inside that line.
fn own_name(lines: &mut [Node], rng: &mut Rng) {
    let line = rng.below(lines.len());
    let Node::List(parts) = &lines[line] else { return };
    let Some(name) = parts.get(1).cloned() else { return };
    let spots = collect(&lines[line..line + 1], &|node| matches!(node, Node::Word(_)));
    if let Some((_, place, _)) = choose(&spots[2.min(spots.len())..], rng) {
        lines[line].change(place, &mut |node| *node = name.clone());
    }
}

/// Puts another operator or function in the place of one.
fn operator(lines: &mut [Node], rng: &mut Rng) {
    let heads = if rng.percent(60) { &TWO_SIDED[..] } else { &FUNCTIONS[..] };
    let length = if heads.len() == TWO_SIDED.len() { 3 } else { 2 };
    let fits = |node: &Node| {
        matches!(node, Node::List(parts) if parts.len() == length)
            && heads.iter().any(|head| node.is_form(head))
    };
    let Some((line, place, _)) = choose(&collect(lines, &fits), rng) else {
        return parts(lines, rng);
    };
    let head = word(*rng.pick(heads));
    lines[line].change(place + 1, &mut |node| *node = head.clone());
}

fn reverse(lines: &mut [Node], rng: &mut Rng) {
    let Some((line, place, _)) = choose(&collect(lines, &|n| n.is_form("range")), rng) else {
        return parts(lines, rng);
    };
    let same = rng.percent(20);
    lines[line].change(place, &mut |node| {
        if let Node::List(parts) = node {
            match same {
                true => parts[2] = parts[1].clone(),
                false => parts[1..].reverse(),
            }
        }
    });
}

/// Negates a number at its limits.
fn minus(lines: &mut [Node], rng: &mut Rng) {
    let number = |n: &Node| matches!(n, Node::Word(w) if w.as_bytes()[0].is_ascii_digit());
    if let Some((line, place, _)) = choose(&collect(lines, &number), rng) {
        let new = *rng.pick(&["#80000000", "#80000001", "#FFFFFFFF", "2147483647", "0"]);
        let new = form("-", vec![word(new)]);
        lines[line].change(place, &mut |node| *node = new.clone());
    }
}

/// Another field in a `dot`, or a `dot` or `at` around any target.
fn field(lines: &mut [Node], rng: &mut Rng) {
    let kind = *rng.pick(&["dot", "at", ":="]);
    let Some((line, place, _)) = choose(&collect(lines, &|n| n.is_form(kind)), rng) else {
        return parts(lines, rng);
    };
    let name = *rng.pick(&["speed", "mode", "stick", "a", "nofield", "x", "integer"]);
    let deeper = rng.percent(50);
    lines[line].change(place, &mut |node| {
        if let Node::List(parts) = node {
            match deeper || kind == ":=" {
                true => parts[1] = form("dot", vec![parts[1].clone(), word(name)]),
                false => parts[2] = word(name),
            }
        }
    });
}

/// Another field behind an index that may be of a wrong kind.
fn behind(lines: &mut [Node], rng: &mut Rng) {
    let fits = |node: &Node| match node {
        Node::List(parts) => node.is_form("dot") && parts.len() == 3 && parts[1].is_form("at"),
        Node::Word(_) => false,
    };
    let Some((line, place, _)) = choose(&collect(lines, &fits), rng) else {
        return field(lines, rng);
    };
    let (name, index) = (*rng.pick(&["speed", "nofield"]), *rng.pick(&["true", "0", "3"]));
    lines[line].change(place, &mut |node| {
        let Node::List(parts) = node else { return };
        parts[2] = word(name);
        if let Node::List(inner) = &mut parts[1] {
            inner.truncate(2);
            inner.push(word(index));
        }
    });
}

/// Drops, doubles, moves or adds a part of a form.
fn parts(lines: &mut [Node], rng: &mut Rng) {
    let Some((line, place, Node::List(old))) =
        choose(&collect(lines, &|n| matches!(n, Node::List(_))), rng)
    else {
        return;
    };
    let (at, to, act) = (rng.below(old.len()), rng.below(old.len()), rng.below(5));
    let extra = extra(rng);
    lines[line].change(place, &mut |node| {
        if let Node::List(parts) = node {
            match act {
                _ if parts.is_empty() => parts.push(extra.clone()),
                0 => drop(parts.remove(at)),
                1 => parts.insert(to, parts[at].clone()),
                2 => parts.swap(at, to),
                3 => parts.push(extra.clone()),
                _ => parts[at] = extra.clone(),
            }
        }
    });
}

/// A part that fits some places and not others.
pub fn extra(rng: &mut Rng) -> Node {
    match rng.below(9) {
        0 => Node::List(vec![]),
        1 => form("begin", vec![]),
        2 => form("exception", vec![]),
        3 => form("else", vec![form("begin", vec![])]),
        4 => form("arm", vec![word(1), form("begin", vec![])]),
        5 => form("raise", vec![word(0)]),
        6 => form("-", vec![word(1)]),
        7 => word("true"),
        _ => word(1),
    }
}

/// Puts a copy of one form in the place of another.
fn exchange(lines: &mut [Node], rng: &mut Rng) {
    let spots = collect(lines, &|node| matches!(node, Node::List(_)));
    if let (Some((line, place, _)), Some((_, _, new))) = (choose(&spots, rng), choose(&spots, rng))
    {
        lines[line].change(place, &mut |node| *node = new.clone());
    }
}
