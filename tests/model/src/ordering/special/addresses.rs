//! Addresses at the ends of the segment and outside it.

use super::Change::{At, R};
use super::{done, fault, Change, Special};
use crate::ordering::scene::Scene;
use crate::orders::error::ADDRESS;

/// Rows that differ in the word of one register alone.
type Rows<'a> = &'a [(u16, &'a [Change])];

/// Each address that an order uses, for a task alone and for one of three;
/// and jumps, whose address is not looked at.
pub fn all() -> Vec<Special> {
    let used = [first_words(), second_words(), fetches(), stores(), calls(), returns()].concat();
    let between =
        |special: &Special| Special { scene: special.scene.clone().between(), outcome: special.outcome.clone() };
    let of_three = used.iter().map(between).collect();
    [used, of_three, jumps()].concat()
}

/// Addresses outside a segment of four words. Some are inside the image, or
/// would be if the sum with the base were taken mod 65536.
const OUTSIDE: [u16; 14] = [4, 5, 6, 52, 53, 56, 57, 148, 32768, 65388, 65483, 65484, 65534, 65535];

/// Rows of one order at address 0 with a register at each of some addresses
/// inside, and of faults with it at addresses outside.
fn addressed(segment: &[u16], register: usize, inside: Rows, outside: &[u16]) -> Vec<Special> {
    let at = |word| Scene::alone(segment).register(4, 700).register(register, word);
    let inside = inside.iter().map(|&(word, changes)| done(at(word), changes));
    inside.chain(outside.iter().map(|&word| fault(at(word), ADDRESS))).collect()
}

fn first_words() -> Vec<Special> {
    let inside: Rows = &[(0, &[R(0, 1), R(4, 0)]), (3, &[R(0, 4), R(4, 0)])];
    addressed(&[0x0245; 4], 0, inside, &OUTSIDE)
}

/// The last place of a two-word order, and one word further on. The jump if
/// is taken with cc 1 and not with cc 2.
fn second_words() -> Vec<Special> {
    let rows: [(u16, u16, &[Change]); 5] = [
        (0x0140, 0, &[R(0, 4), R(4, 900)]),
        (0x0E00, 0, &[R(0, 900)]),
        (0x0F10, 1, &[R(0, 900)]),
        (0x0F10, 2, &[R(0, 4)]),
        (0x1000, 0, &[R(0, 900), R(1, 0), At(0, 4)]),
    ];
    let mut list = Vec::new();
    for (first_word, cc, changes) in rows {
        let fits = Scene::alone(&[20, 21, first_word, 900]).register(0, 2);
        let short = Scene::alone(&[20, 21, 22, first_word]).register(0, 3);
        list.push(done(fits.register(1, 1).flags(cc, 0, 0), changes));
        list.push(fault(short.register(1, 1).flags(cc, 0, 0), ADDRESS));
        list.push(fault(Scene::alone(&[first_word]).register(1, 1).flags(cc, 0, 0), ADDRESS));
    }
    list
}

/// A fetch at address 0 reads the order itself.
fn fetches() -> Vec<Special> {
    let inside: Rows = &[
        (0, &[R(0, 1), R(4, 0x0345)]),
        (1, &[R(0, 1), R(4, 21)]),
        (2, &[R(0, 1), R(4, 22)]),
        (3, &[R(0, 1), R(4, 23)]),
    ];
    addressed(&[0x0345, 21, 22, 23], 5, inside, &OUTSIDE)
}

/// A store at address 0 goes over the order itself, at 1 over the next one.
fn stores() -> Vec<Special> {
    let inside: Rows = &[
        (0, &[R(0, 1), At(0, 700)]),
        (1, &[R(0, 1), At(1, 700)]),
        (2, &[R(0, 1), At(2, 700)]),
        (3, &[R(0, 1), At(3, 700)]),
    ];
    addressed(&[0x0445, 21, 22, 23], 5, inside, &OUTSIDE)
}

/// The return address goes over the call's own words from stack pointers 1
/// and 2; from 2 it goes over n, and the n that was fetched counts. From 4 it
/// is still inside, and from 0 it is not.
fn calls() -> Vec<Special> {
    let inside: Rows = &[
        (1, &[R(0, 900), R(1, 0), At(0, 2)]),
        (2, &[R(0, 900), R(1, 1), At(1, 2)]),
        (3, &[R(0, 900), R(1, 2), At(2, 2)]),
        (4, &[R(0, 900), R(1, 3), At(3, 2)]),
    ];
    let outside: Vec<u16> = [0].into_iter().chain(OUTSIDE.into_iter().skip(1)).collect();
    addressed(&[0x1000, 900, 22, 23], 1, inside, &outside)
}

/// A return from address 0 reads the order itself.
fn returns() -> Vec<Special> {
    let inside: Rows = &[
        (0, &[R(0, 0x1100), R(1, 1)]),
        (1, &[R(0, 65535), R(1, 2)]),
        (2, &[R(0, 4), R(1, 3)]),
        (3, &[R(0, 0), R(1, 4)]),
    ];
    addressed(&[0x1100, 65535, 4, 0], 1, inside, &OUTSIDE)
}

/// A next order inside and outside the segment is not looked at.
fn jumps() -> Vec<Special> {
    let mut list = Vec::new();
    for n in [0, 1, 2, 3, 4, 5, 57, 32768, 65535] {
        for first_word in [0x0E00, 0x0F20, 0x0100] {
            let scene = Scene::alone(&[first_word, n, 22, 23]).flags(2, 0, 0);
            list.push(done(scene, &[R(0, n)]));
        }
        let scene = Scene::alone(&[0x1000, n, 22, 23]).register(1, 4);
        list.push(done(scene, &[R(0, n), R(1, 3), At(3, 2)]));
    }
    list
}
