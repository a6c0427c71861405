//! Random sums in which every partial result is in range.

use super::writing;
use crate::layout::word;
use crate::rng::Rng;

/// Names and labels with their values.
pub type Known = Vec<(String, u16)>;

/// Tokens and what they come to.
type Worked = (Vec<String>, u16);

/// A mark, and what it makes of two values.
type Mark = (&'static str, fn(u16, u16) -> Option<u16>);

const SIGNS: [Mark; 2] = [("+", u16::checked_add), ("-", u16::checked_sub)];
const TIMES: [Mark; 1] = [("*", u16::checked_mul)];

/// A sum that uses what is known, with at most so many brackets open.
pub fn sum(rng: &mut Rng, known: &Known, depth: usize) -> Worked {
    let further = *rng.pick(&[0, 0, 0, 1, 1, 2, 4]);
    let first = product(rng, known, depth);
    (0..further).fold(first, |left, _| {
        let right = product(rng, known, depth);
        joined(left, *rng.pick(&SIGNS), right)
    })
}

fn product(rng: &mut Rng, known: &Known, depth: usize) -> Worked {
    let further = *rng.pick(&[0, 0, 0, 0, 1, 2]);
    let first = term(rng, known, depth);
    (0..further).fold(first, |left, _| {
        let right = term(rng, known, depth);
        joined(left, TIMES[0], right)
    })
}

/// Both with the mark between them, or the left alone where that is out of
/// range.
fn joined((mut tokens, left): Worked, (mark, work): Mark, (more, right): Worked) -> Worked {
    match work(left, right) {
        Some(value) => {
            tokens.push(mark.into());
            tokens.extend(more);
            (tokens, value)
        }
        None => (tokens, left),
    }
}

fn term(rng: &mut Rng, known: &Known, depth: usize) -> Worked {
    match rng.below(10) {
        0..=3 if !known.is_empty() => {
            let (name, value) = rng.pick(known).clone();
            (vec![name], value)
        }
        4 if depth > 0 => {
            let pairs = *rng.pick(&[1, 1, 1, 1, depth]);
            let (tokens, value) = sum(rng, known, depth - pairs);
            (bracketed(tokens, pairs), value)
        }
        _ => {
            let (small, any) = (word(rng.below(20)), rng.word());
            let value = *rng.pick(&[0, 1, small, small, small, small, any, any]);
            (vec![writing::number(rng, value)], value)
        }
    }
}

/// Tokens in so many pairs of brackets.
pub fn bracketed(tokens: Vec<String>, pairs: usize) -> Vec<String> {
    let brackets = |mark: &str| vec![String::from(mark); pairs];
    [brackets("("), tokens, brackets(")")].concat()
}
