//! Forms to be written out as text.

use super::rng::Rng;

#[derive(Clone, Debug, PartialEq, Eq)]
pub enum Node {
    Word(String),
    List(Vec<Node>),
}

/// A word, written as it is shown.
pub fn word(text: impl ToString) -> Node {
    Node::Word(text.to_string())
}

/// A bracket pair: a head word and parts.
pub fn form(head: &str, parts: Vec<Node>) -> Node {
    let mut list = vec![word(head)];
    list.extend(parts);
    Node::List(list)
}

impl Node {
    /// Words and bracket pairs.
    pub fn count(&self) -> usize {
        match self {
            Node::Word(_) => 1,
            Node::List(parts) => 1 + parts.iter().map(Node::count).sum::<usize>(),
        }
    }

    /// Calls `change` on the node at a place in text order.
    pub fn change(&mut self, place: usize, change: &mut dyn FnMut(&mut Node)) {
        if place == 0 {
            return change(self);
        }
        let mut left = place - 1;
        let Node::List(parts) = self else { return };
        for part in parts {
            let count = part.count();
            if left < count {
                return part.change(left, change);
            }
            left -= count;
        }
    }

    /// All nodes in text order.
    pub fn all<'a>(&'a self, nodes: &mut Vec<&'a Node>) {
        nodes.push(self);
        if let Node::List(parts) = self {
            parts.iter().for_each(|part| part.all(nodes));
        }
    }

    /// Is it a bracket pair with this head word?
    pub fn is_form(&self, head: &str) -> bool {
        match self {
            Node::List(parts) => parts.first() == Some(&word(head)),
            Node::Word(_) => false,
        }
    }
}

/// How a text is laid out.
#[derive(Clone, Copy, Debug)]
pub enum Style {
    Plain,
    Tight,
    Loose,
}

/// Most texts are plain.
pub fn style(rng: &mut Rng) -> Style {
    [Style::Plain, Style::Tight, Style::Loose][rng.weighted(&[8, 1, 1])]
}

/// Writes lines, with the case of some words changed.
pub fn write(lines: &[Node], style: Style, rng: &mut Rng) -> Vec<u8> {
    let mut text = String::new();
    for line in lines {
        gap(&mut text, style, rng, false);
        node(line, &mut text, style, rng);
        gap(&mut text, style, rng, false);
        text.push('\n');
    }
    text.into_bytes()
}

fn gap(text: &mut String, style: Style, rng: &mut Rng, needed: bool) {
    let spaces = match style {
        Style::Loose => rng.below(3) + usize::from(needed),
        _ => usize::from(needed),
    };
    text.extend(std::iter::repeat_n(' ', spaces));
}

fn node(node: &Node, text: &mut String, style: Style, rng: &mut Rng) {
    match node {
        Node::Word(word) => text.push_str(&cased(word, rng)),
        Node::List(parts) => {
            text.push('(');
            for (place, part) in parts.iter().enumerate() {
                let brackets = text.ends_with(')') || matches!(part, Node::List(_));
                let needed = place > 0 && !(brackets && matches!(style, Style::Tight));
                gap(text, style, rng, needed);
                self::node(part, text, style, rng);
            }
            gap(text, style, rng, false);
            text.push(')');
        }
    }
}

fn cased(word: &str, rng: &mut Rng) -> String {
    match rng.below(60) {
        0 => word.to_ascii_uppercase(),
        1 => word.bytes().enumerate().map(|(i, b)| mixed(i, b)).collect(),
        _ => word.to_string(),
    }
}

fn mixed(place: usize, byte: u8) -> char {
    match place % 2 {
        0 => byte.to_ascii_uppercase().into(),
        _ => byte.to_ascii_lowercase().into(),
    }
}
