//! How alike two words are: 0 for nothing in common, 1 for one word.
use super::alloc::{AllocError, Global};

/// A score above which words that begin alike score more.
const MUCH_ALIKE: f64 = 0.7;
/// How many characters of a common beginning count.
const MOST_COMMON: usize = 4;

/// The place of a character, among those from `start` to `end` that are not taken.
fn free_place(c: char, word: &[char], taken: &[bool], start: usize, end: usize) -> Option<usize> {
    (start..end).find(|place| word[*place] == c && !taken[*place])
}

fn jaro_of(a: &[char], b: &[char]) -> f64 {
    if a.is_empty() && b.is_empty() {
        return 1.0;
    }
    let range = (a.len().max(b.len()) / 2).saturating_sub(1);
    let mut taken = vec![false; b.len()];
    let mut from_a = Vec::new();
    for (place, c) in a.iter().enumerate() {
        let end = b.len().min(place + range + 1);
        if let Some(found) = free_place(*c, b, &taken, place.saturating_sub(range).min(end), end) {
            taken[found] = true;
            from_a.push(*c);
        }
    }
    if from_a.is_empty() {
        return 0.0;
    }
    let from_b = b.iter().zip(&taken).filter(|(_, is_taken)| **is_taken).map(|(c, _)| c);
    let swapped = from_a.iter().zip(from_b).filter(|(one, other)| one != other).count() / 2;
    let found = from_a.len() as f64;
    let kept = (from_a.len() - swapped) as f64;
    (found / a.len() as f64 + found / b.len() as f64 + kept / found) / 3.0
}

fn characters(word: &str) -> Vec<char> {
    word.chars().collect()
}

/// The similarity of Jaro.
pub fn jaro(_: Global, a: &str, b: &str) -> Result<f64, AllocError> {
    Ok(if a == b { 1.0 } else { jaro_of(&characters(a), &characters(b)) })
}

/// The similarity of Jaro and Winkler: words that begin alike score more.
pub fn jaro_winkler(_: Global, a: &str, b: &str) -> Result<f64, AllocError> {
    if a == b {
        return Ok(1.0);
    }
    let (a, b) = (characters(a), characters(b));
    let score = jaro_of(&a, &b);
    if score <= MUCH_ALIKE {
        return Ok(score);
    }
    let common = a.iter().zip(&b).take(MOST_COMMON).take_while(|(one, other)| one == other).count();
    Ok((score + 0.1 * common as f64 * (1.0 - score)).min(1.0))
}
