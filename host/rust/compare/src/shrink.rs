//! A smaller text on which the two still differ.
use peer::gen::Case;

/// Drops lines, then forms, then words, as long as `bad` still holds.
pub fn shrunk(case: &Case, bad: impl Fn(&Case) -> bool) -> Case {
    let mut best = case.clone();
    for parts in [lines, forms, words] {
        let mut at = 0;
        while let Some(&(start, end)) = parts(&best.text).get(at) {
            let mut next = best.clone();
            next.text.drain(start..end);
            if bad(&next) {
                best = next;
            } else {
                at += 1;
            }
        }
    }
    best
}

/// The lines with their line feeds.
fn lines(text: &[u8]) -> Vec<(usize, usize)> {
    let mut start = 0;
    let ends = (0..text.len()).filter(|&i| text[i] == b'\n');
    ends.map(|i| (std::mem::replace(&mut start, i + 1), i + 1)).collect()
}

/// The bracket pairs, outermost first.
fn forms(text: &[u8]) -> Vec<(usize, usize)> {
    let mut open = Vec::new();
    let mut found = Vec::new();
    for (i, &b) in text.iter().enumerate() {
        match b {
            b'(' => open.push(i),
            b')' => found.extend(open.pop().map(|start| (start, i + 1))),
            b'\n' => open.clear(),
            _ => {}
        }
    }
    found.sort_by_key(|&(start, _)| start);
    found
}

/// The words.
fn words(text: &[u8]) -> Vec<(usize, usize)> {
    let inside = |i: usize| text.get(i).is_some_and(|b| !matches!(b, b' ' | b'\n' | b'(' | b')'));
    let starts = (0..text.len()).filter(|&i| inside(i) && (i == 0 || !inside(i - 1)));
    starts.map(|start| (start, (start..).find(|&i| !inside(i)).unwrap_or(text.len()))).collect()
}

#[cfg(test)]
mod tests {
    use super::*;

    #[test]
    fn keeps_what_matters() {
        let mut case = peer::gen::case(peer::LANDED, 0);
        case.text = b"(var a integer)\n(main (begin (raise 1) (begin)) (begin))\n(a b)\n".to_vec();
        let small = shrunk(&case, |c| c.text.windows(9).any(|w| w == b"(raise 1)"));
        let kept = String::from_utf8(small.text).unwrap();
        assert_eq!(kept.split_whitespace().collect::<Vec<_>>().join(" "), "( ( (raise 1) ) )");
    }
}
