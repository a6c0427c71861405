//! The printer of programs: a list of words, to a text.

#[cfg(test)]
mod tests;

use crate::numbers;
use crate::Printed;

/// The most words of a list.
const MOST_WORDS: usize = 32715;

/// The bytes that are laid by for each word; a longer text makes room for
/// itself.
const BYTES_A_WORD: usize = 8;

/// The most digits of a word.
const DIGITS: usize = 5;

const TWO_REGISTERS: [&str; 12] =
    ["copy", "fetch", "store", "add", "subtract", "multiply", "quotient", "remainder", "and", "or", "xor", "compare"];
const JUMPS_IF: [&str; 3] = ["jumpeq", "jumplt", "jumpgt"];
const SERVICES: [&str; 4] = ["send", "receive", "input", "output"];

/// Prints words as a text in the target. A refusal alters no byte.
pub fn print(words: &[u16], target: &mut [u8]) -> Printed {
    let Some(text) = text(words) else { return REFUSED };
    let Some(room) = target.get_mut(..text.len()) else { return REFUSED };
    room.copy_from_slice(&text);
    printed(&text)
}

/// How many bytes the text of words has.
pub fn print_size(words: &[u16]) -> Printed {
    text(words).map_or(REFUSED, |text| printed(&text))
}

const REFUSED: Printed = Printed { bytes: 0, number: numbers::NO_ROOM };

fn printed(text: &[u8]) -> Printed {
    Printed { bytes: text.len() as u64, number: 0 }
}

/// What a first word begins, with the order's name.
enum Line {
    Bare(&'static str),
    Registers(&'static str),
    Sum(&'static str),
    RegisterSum(&'static str),
    Number,
}

fn line(first: u16) -> Line {
    let (op, a, b) = (first / 256, first / 16 % 16, first % 16);
    match (op, a, b) {
        (1, 0..8, 0) => Line::RegisterSum("load"),
        (2..14, 0..8, 0..8) => Line::Registers(TWO_REGISTERS[usize::from(op) - 2]),
        (14, 0, 0) => Line::Sum("jump"),
        (15, 0..3, 0) => Line::Sum(JUMPS_IF[usize::from(a)]),
        (16, 0, 0) => Line::Sum("call"),
        (17, 0, 0) => Line::Bare("return"),
        (18, 1..5, 0) => Line::Bare(SERVICES[usize::from(a) - 1]),
        _ => Line::Number,
    }
}

/// The text of words, if they are not too many.
fn text(words: &[u16]) -> Option<Vec<u8>> {
    if words.len() > MOST_WORDS {
        return None;
    }
    let mut text = Vec::with_capacity(BYTES_A_WORD * words.len());
    let mut left = words;
    while let [first, rest @ ..] = left {
        left = put_line(&mut text, *first, rest);
        text.push(b'\n');
    }
    Some(text)
}

/// Puts a line, and gives the words after it.
fn put_line<'a>(text: &mut Vec<u8>, first: u16, rest: &'a [u16]) -> &'a [u16] {
    match (line(first), rest) {
        (Line::Bare(name), _) => text.extend_from_slice(name.as_bytes()),
        (Line::Registers(name), _) => {
            text.extend_from_slice(name.as_bytes());
            put_register(text, first / 16 % 16);
            put_register(text, first % 16);
        }
        (Line::Sum(name), [second, rest @ ..]) => {
            text.extend_from_slice(name.as_bytes());
            put_sum(text, *second);
            return rest;
        }
        (Line::RegisterSum(name), [second, rest @ ..]) => {
            text.extend_from_slice(name.as_bytes());
            put_register(text, first / 16 % 16);
            put_sum(text, *second);
            return rest;
        }
        _ => put_number(text, first),
    }
    rest
}

fn put_register(text: &mut Vec<u8>, register: u16) {
    text.extend_from_slice(&[b' ', b'r', b'0' + register as u8]);
}

fn put_sum(text: &mut Vec<u8>, number: u16) {
    text.push(b' ');
    put_number(text, number);
}

fn put_number(text: &mut Vec<u8>, number: u16) {
    let mut digits = [0; DIGITS];
    let mut at = DIGITS;
    let mut left = number;
    loop {
        at -= 1;
        digits[at] = b'0' + (left % 10) as u8;
        left /= 10;
        if left == 0 {
            break;
        }
    }
    text.extend_from_slice(&digits[at..]);
}
