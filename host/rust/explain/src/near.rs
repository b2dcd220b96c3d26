//! The known word that a misspelt one was meant to be.

use crate::word::NAME_MOST;

/// The nearest of some words, if it is near enough to be meant; the first of several that are as near.
pub fn nearest<'a>(word: &str, known: impl Iterator<Item = &'a str>) -> Option<&'a str> {
    let word = word.to_ascii_lowercase();
    let most = match word.len() {
        2..=3 => 1,
        4..=7 => 2,
        8..=NAME_MOST => 3,
        _ => return None,
    };
    let far = |known: &'a str| (distance(word.as_bytes(), known.as_bytes()), known);
    // A word that shares nothing with the other is no misspelling of it.
    let near = known.map(far).filter(|(d, known)| *d <= most && *d < word.len().max(known.len()).max(2) - 1);
    near.min_by_key(|(d, _)| *d).map(|(_, known)| known)
}

/// Letters to change, drop, add or swap with the next one.
fn distance(a: &[u8], b: &[u8]) -> usize {
    let mut older = vec![0; b.len() + 1];
    let mut old: Vec<usize> = (0..=b.len()).collect();
    for i in 0..a.len() {
        let mut new = vec![i + 1];
        for j in 0..b.len() {
            let changed = old[j] + usize::from(a[i] != b[j]);
            let mut best = changed.min(old[j + 1] + 1).min(new[j] + 1);
            if i > 0 && j > 0 && a[i] == b[j - 1] && a[i - 1] == b[j] {
                best = best.min(older[j - 1] + 1);
            }
            new.push(best);
        }
        older = std::mem::replace(&mut old, new);
    }
    old[b.len()]
}

#[cfg(test)]
mod tests {
    use super::*;

    #[test]
    fn misspelt_words() {
        let known = ["stick", "speed", "wanted", "at", "while", "integer"];
        let near = |word| nearest(word, known.iter().copied());
        assert_eq!(near("stik"), Some("stick"));
        assert_eq!(near("Speeed"), Some("speed"));
        assert_eq!(near("wantde"), Some("wanted"));
        assert_eq!(near("whlie"), Some("while"));
        assert_eq!(near("intger"), Some("integer"));
        assert_eq!(near("x"), None);
        assert_eq!(near("ab"), None);
        assert_eq!(near("turn"), None);
    }
}
