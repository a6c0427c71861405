//! Texts that no draft has: good ones with a byte or a line changed, rows of
//! random tokens, and random bytes.

use crate::rng::Rng;

/// The most lines of random tokens, the most tokens of one, and the most
/// random bytes.
const MOST_LINES: usize = 5;
const MOST_TOKENS: usize = 6;
const MOST_BYTES: usize = 60;

/// Bytes of the grammar, those of the ends of lines and of comments often.
const OF_THE_GRAMMAR: &[u8] = b"abrz019_+-*():=;; \t\r\n\n\n";

const TOKENS: [&str; 44] = [
    "a", "b", "a", "b", "r0", "r7", "r1", "r8", "0", "1", "7", "65535", "65536", "+", "-", "*", "(", ")", ":", "=",
    "=", ":", "load", "load", "copy", "add", "or", "jump", "jumpeq", "call", "return", "send", "output", "finish",
    "jumpby", "negate", "a:", "b:", "a=", "b=", ";", " ", "\t", "\r",
];

/// Both texts with one byte of one of them changed, put in or left out, or two
/// that stand together exchanged.
pub fn with_byte_changed(rng: &mut Rng, mut texts: [Vec<u8>; 2]) -> [Vec<u8>; 2] {
    let bytes = &mut texts[rng.below(2)];
    let place = rng.below(bytes.len() + 1);
    let new = byte(rng);
    match rng.below(4) {
        0 if place < bytes.len() => _ = bytes.remove(place),
        1 if place < bytes.len() => bytes[place] = new,
        2 if place + 1 < bytes.len() => bytes.swap(place, place + 1),
        _ => bytes.insert(place, new),
    }
    texts
}

/// Both texts with a line of one of them left out, doubled, exchanged with
/// another, or put into the other text.
pub fn with_line_moved(rng: &mut Rng, texts: [Vec<u8>; 2]) -> [Vec<u8>; 2] {
    let mut lines = texts
        .map(|bytes| -> Vec<Vec<u8>> { bytes.split_inclusive(|&byte| byte == b'\n').map(<[u8]>::to_vec).collect() });
    let text = rng.below(2);
    let count = lines[text].len();
    if count > 0 {
        let (from, to) = (rng.below(count), rng.below(count));
        let line = lines[text][from].clone();
        match rng.below(4) {
            0 => _ = lines[text].remove(from),
            1 => lines[text].insert(to, line),
            2 => lines[text].swap(from, to),
            _ => lines[1 - text].push(line),
        }
    }
    lines.map(|lines| lines.concat())
}

/// Lines of random tokens.
pub fn salad(rng: &mut Rng) -> Vec<u8> {
    let mut bytes = Vec::new();
    for _ in 0..rng.below(MOST_LINES + 1) {
        for _ in 0..rng.below(MOST_TOKENS + 1) {
            bytes.extend(rng.pick(&TOKENS).bytes());
            bytes.extend(if rng.percent(80) { &b" "[..] } else { b"" });
        }
        bytes.push(b'\n');
    }
    bytes
}

/// Random bytes, most of them of the grammar.
pub fn any_bytes(rng: &mut Rng) -> Vec<u8> {
    (0..rng.below(MOST_BYTES + 1)).map(|_| byte(rng)).collect()
}

fn byte(rng: &mut Rng) -> u8 {
    let any = rng.any_word().to_le_bytes()[0];
    if rng.percent(95) {
        *rng.pick(OF_THE_GRAMMAR)
    } else {
        any
    }
}
