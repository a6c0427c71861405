//! The list of words that is printed, made by chance from a seed.

use crate::chance::Chance;

const JUMPS: [u16; 5] = [3584, 3840, 3856, 3872, 4096];
const ALONE: [u16; 6] = [4352, 4352, 4624, 4640, 4656, 4672];

/// Numbers of a program are under one of these.
const LIMITS: [usize; 5] = [10, 100, 1000, 10_000, 65_536];

/// The most words of a table, and of a row of zeros.
const TABLE: usize = 32;

/// So many words, as a segment holds them: orders of all kinds, and between
/// them tables of numbers and rows of zeros.
pub fn program(words: usize, seed: u64) -> Vec<u16> {
    let mut chance = Chance(seed);
    let mut list = Vec::new();
    while list.len() < words {
        match chance.below(100) {
            0..24 => list.extend([256 + 16 * register(&mut chance), number(&mut chance)]),
            24..70 => list.push(two_registers(&mut chance)),
            70..88 => list.extend([*chance.of(&JUMPS), chance.below(words) as u16]),
            88..97 => list.push(*chance.of(&ALONE)),
            97..99 => list.extend((0..chance.below(TABLE)).map(|_| number(&mut chance)).collect::<Vec<_>>()),
            _ => list.extend(vec![0; chance.below(TABLE)]),
        }
    }
    list.truncate(words);
    list
}

fn register(chance: &mut Chance) -> u16 {
    chance.below(8) as u16
}

fn two_registers(chance: &mut Chance) -> u16 {
    256 * (2 + chance.below(12) as u16) + 16 * register(chance) + register(chance)
}

/// A number of any count of digits, all counts equally often.
fn number(chance: &mut Chance) -> u16 {
    let limit = *chance.of(&LIMITS);
    chance.below(limit) as u16
}
