//! Tokens written as bytes: blanks, comments, numbers and names.

use crate::rng::Rng;
use crate::translate::table::is_name;

/// Bytes outside the grammar, wherever they stand before a comment.
pub const OUTSIDE: &[u8] = b"\0\x01\x08\x0B\x0C\x1F!\"#$%&',./<>?@AFRZ[\\]^`{|}~\x7F\x80\xA0\xB2\xFF";

/// Words that are nearly kept ones, or are tokens of another kind nearly.
const NEARLY_KEPT: [&str; 20] = [
    "r", "r8", "r9", "r00", "r10", "r0_", "rr0", "loads", "loa", "jumpe", "jumpeqs", "return_", "in", "negates",
    "finis", "jump_by", "o", "x", "xo", "z_9",
];

const LETTERS: &[u8] = b"abcdefghijklmnopqrstuvwxyz";
const IN_WORDS: &[u8] = b"abcdefghijklmnopqrstuvwxyz0123456789_";

/// The most bytes of a random comment, and the most zeros before a number.
const MOST_IN_COMMENT: usize = 12;
const MOST_ZEROS: usize = 300;

/// The tokens as a line without its byte 10, with random blanks between them
/// and sometimes a comment after them.
pub fn line(rng: &mut Rng, tokens: &[String]) -> Vec<u8> {
    let plain = rng.percent(50);
    let mut bytes = if plain { vec![] } else { blanks(rng, 0) };
    for (place, token) in tokens.iter().enumerate() {
        let apart = usize::from(place > 0 && grown_together(&bytes, token));
        bytes.extend(if plain { vec![b' '; apart] } else { blanks(rng, apart) });
        bytes.extend(token.bytes());
    }
    if !plain {
        bytes.extend(blanks(rng, 0));
    }
    if rng.percent(15) {
        bytes.extend(comment(rng));
    }
    bytes
}

/// Whether a token would be read as a part of what stands before it.
fn grown_together(before: &[u8], token: &str) -> bool {
    let in_word = |byte: Option<&u8>| byte.is_some_and(|byte| IN_WORDS.contains(byte));
    in_word(before.last()) && in_word(token.as_bytes().first())
}

/// At least so many blanks of any kind.
fn blanks(rng: &mut Rng, least: usize) -> Vec<u8> {
    let count = least + *rng.pick(&[0, 0, 0, 1, 1, 2, 5]);
    (0..count).map(|_| *rng.pick(b"   \t\r")).collect()
}

/// A comment of any bytes but 10.
fn comment(rng: &mut Rng) -> Vec<u8> {
    let mut bytes = vec![b';'];
    for _ in 0..rng.below(MOST_IN_COMMENT) {
        let any = rng.any_word().to_le_bytes()[0];
        bytes.push(*rng.pick(&[any, any, b';', b':', b'=', b'a', b' ', b'\r']));
    }
    bytes.retain(|&byte| byte != b'\n');
    bytes
}

/// A number, sometimes with zeros before it.
pub fn number(rng: &mut Rng, value: u16) -> String {
    let zeros = match rng.below(200) {
        0 => rng.below(MOST_ZEROS),
        1..=10 => rng.between(1, 4),
        _ => 0,
    };
    format!("{}{value}", "0".repeat(zeros))
}

/// A word that is not kept.
pub fn name(rng: &mut Rng) -> String {
    loop {
        let word = if rng.percent(25) { (*rng.pick(&NEARLY_KEPT)).into() } else { any_word(rng) };
        if is_name(&word) {
            return word;
        }
    }
}

/// A word of any letters, most often a short one.
fn any_word(rng: &mut Rng) -> String {
    let mut word = vec![*rng.pick(LETTERS)];
    for _ in 0..*rng.pick(&[0, 1, 1, 2, 2, 3, 5, 12]) {
        word.push(*rng.pick(IN_WORDS));
    }
    String::from_utf8_lossy(&word).into()
}
