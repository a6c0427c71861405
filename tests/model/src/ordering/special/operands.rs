//! What each op makes of its registers.

use super::Change::{At, Cc, R};
use super::{done, fault, Change, Special};
use crate::ordering::scene::Scene;
use crate::orders::error::{ADDRESS, DIVISOR};

/// Orders by what they make of their registers.
pub fn all() -> Vec<Special> {
    [reckoning(), same_register(), divisors(), compares(), moved()].concat()
}

/// A first word with a 4 and b 5, R4, R5, and the result in R4.
const RESULTS: [(u16, u16, u16, u16); 62] = [
    (0x0245, 7, 9, 9),
    (0x0245, 65535, 0, 0),
    (0x0545, 0, 0, 0),
    (0x0545, 1, 2, 3),
    (0x0545, 65535, 0, 65535),
    (0x0545, 65535, 1, 0),
    (0x0545, 1, 65535, 0),
    (0x0545, 32768, 32768, 0),
    (0x0545, 40000, 30000, 4464),
    (0x0545, 65535, 65535, 65534),
    (0x0645, 0, 0, 0),
    (0x0645, 5, 3, 2),
    (0x0645, 3, 5, 65534),
    (0x0645, 0, 1, 65535),
    (0x0645, 0, 65535, 1),
    (0x0645, 32768, 32769, 65535),
    (0x0645, 65535, 65535, 0),
    (0x0745, 0, 65535, 0),
    (0x0745, 1, 65535, 65535),
    (0x0745, 255, 257, 65535),
    (0x0745, 256, 256, 0),
    (0x0745, 300, 300, 24464),
    (0x0745, 32768, 2, 0),
    (0x0745, 32768, 3, 32768),
    (0x0745, 65535, 2, 65534),
    (0x0745, 65535, 65535, 1),
    (0x0845, 0, 1, 0),
    (0x0845, 7, 1, 7),
    (0x0845, 65535, 1, 65535),
    (0x0845, 7, 7, 1),
    (0x0845, 65535, 65535, 1),
    (0x0845, 7, 8, 0),
    (0x0845, 65534, 65535, 0),
    (0x0845, 7, 2, 3),
    (0x0845, 32768, 3, 10922),
    (0x0845, 65535, 256, 255),
    (0x0945, 0, 1, 0),
    (0x0945, 7, 1, 0),
    (0x0945, 65535, 1, 0),
    (0x0945, 7, 7, 0),
    (0x0945, 65535, 65535, 0),
    (0x0945, 7, 8, 7),
    (0x0945, 65534, 65535, 65534),
    (0x0945, 7, 2, 1),
    (0x0945, 32768, 3, 2),
    (0x0945, 65535, 256, 255),
    (0x0A45, 0x0FF0, 0x3C3C, 0x0C30),
    (0x0A45, 0x5555, 0xAAAA, 0),
    (0x0A45, 0xFFFF, 0x1234, 0x1234),
    (0x0A45, 0x8001, 0x8000, 0x8000),
    (0x0A45, 0xFFFF, 0xFFFF, 0xFFFF),
    (0x0B45, 0x0FF0, 0x3C3C, 0x3FFC),
    (0x0B45, 0x5555, 0xAAAA, 0xFFFF),
    (0x0B45, 0, 0x1234, 0x1234),
    (0x0B45, 0x8000, 0x0001, 0x8001),
    (0x0B45, 0, 0, 0),
    (0x0C45, 0x0FF0, 0x3C3C, 0x33CC),
    (0x0C45, 0x5555, 0xAAAA, 0xFFFF),
    (0x0C45, 0xFFFF, 0x1234, 0xEDCB),
    (0x0C45, 0x8001, 0x8000, 0x0001),
    (0x0C45, 0xFFFF, 0xFFFF, 0),
    (0x0C45, 0, 0, 0),
];

/// Ops that reckon with two registers.
fn reckoning() -> Vec<Special> {
    let row = |(first_word, left, right, result)| {
        let scene = Scene::alone(&[first_word]).register(4, left).register(5, right);
        done(scene.flags(2, 0, 0), &[R(0, 1), R(4, result)])
    };
    RESULTS.map(row).to_vec()
}

/// R4 as both operands; it is 2, and the word there is 22.
fn same_register() -> Vec<Special> {
    let rows: [(u16, Change); 12] = [
        (0x0244, R(4, 2)),
        (0x0344, R(4, 22)),
        (0x0444, At(2, 2)),
        (0x0544, R(4, 4)),
        (0x0644, R(4, 0)),
        (0x0744, R(4, 4)),
        (0x0844, R(4, 1)),
        (0x0944, R(4, 0)),
        (0x0A44, R(4, 2)),
        (0x0B44, R(4, 2)),
        (0x0C44, R(4, 0)),
        (0x0D44, Cc(0)),
    ];
    let row = |(first_word, change)| {
        let scene = Scene::alone(&[first_word, 21, 22]).register(4, 2);
        done(scene.flags(1, 0, 0), &[R(0, 1), change])
    };
    rows.map(row).to_vec()
}

/// Quotient and remainder by 0: of another register, of itself and of R0.
fn divisors() -> Vec<Special> {
    let mut list = Vec::new();
    for first_word in [0x0845, 0x0945, 0x0855, 0x0955, 0x0805, 0x0905] {
        for left in [0, 7, 65535] {
            let scene = Scene::alone(&[first_word]).register(4, left);
            list.push(fault(scene.flags(1, 0, 0), DIVISOR));
        }
    }
    list
}

/// R4, R5 and cc of their compare.
const COMPARED: [(u16, u16, u16); 11] = [
    (0, 0, 0),
    (65535, 65535, 0),
    (0, 65535, 1),
    (65535, 0, 2),
    (1, 2, 1),
    (2, 1, 2),
    (0, 1, 1),
    (1, 0, 2),
    (32767, 32768, 1),
    (32768, 32767, 2),
    (256, 255, 2),
];

/// Compares from each cc.
fn compares() -> Vec<Special> {
    let mut list = Vec::new();
    for (left, right, cc) in COMPARED {
        for old in 0..3 {
            let scene = Scene::alone(&[0x0D45]).register(4, left).register(5, right);
            list.push(done(scene.flags(old, 0, 0), &[R(0, 1), Cc(cc)]));
        }
    }
    list
}

/// A first word, R5, and the changes; the order is at address 2 with 88 after
/// it, 77 is at address 1, and cc is 1. So R0 as an operand is 3.
const MOVED: [(u16, u16, &[Change]); 46] = [
    (0x0100, 10, &[R(0, 88)]),
    (0x0150, 10, &[R(0, 4), R(5, 88)]),
    (0x0205, 10, &[R(0, 10)]),
    (0x0250, 10, &[R(0, 3), R(5, 3)]),
    (0x0200, 10, &[R(0, 3)]),
    (0x0305, 1, &[R(0, 77)]),
    (0x0305, 2, &[R(0, 0x0305)]),
    (0x0350, 10, &[R(0, 3), R(5, 88)]),
    (0x0300, 10, &[R(0, 88)]),
    (0x0405, 1, &[R(0, 3), At(1, 3)]),
    (0x0405, 2, &[R(0, 3), At(2, 3)]),
    (0x0450, 10, &[R(0, 3), At(3, 10)]),
    (0x0400, 10, &[R(0, 3), At(3, 3)]),
    (0x0505, 10, &[R(0, 13)]),
    (0x0505, 65533, &[R(0, 0)]),
    (0x0550, 10, &[R(0, 3), R(5, 13)]),
    (0x0500, 10, &[R(0, 6)]),
    (0x0605, 10, &[R(0, 65529)]),
    (0x0605, 3, &[R(0, 0)]),
    (0x0650, 10, &[R(0, 3), R(5, 7)]),
    (0x0650, 2, &[R(0, 3), R(5, 65535)]),
    (0x0600, 10, &[R(0, 0)]),
    (0x0705, 10, &[R(0, 30)]),
    (0x0750, 10, &[R(0, 3), R(5, 30)]),
    (0x0700, 10, &[R(0, 9)]),
    (0x0805, 2, &[R(0, 1)]),
    (0x0850, 10, &[R(0, 3), R(5, 3)]),
    (0x0800, 10, &[R(0, 1)]),
    (0x0905, 2, &[R(0, 1)]),
    (0x0950, 11, &[R(0, 3), R(5, 2)]),
    (0x0900, 10, &[R(0, 0)]),
    (0x0A05, 10, &[R(0, 2)]),
    (0x0A50, 10, &[R(0, 3), R(5, 2)]),
    (0x0A00, 10, &[R(0, 3)]),
    (0x0B05, 10, &[R(0, 11)]),
    (0x0B50, 10, &[R(0, 3), R(5, 11)]),
    (0x0B00, 10, &[R(0, 3)]),
    (0x0C05, 10, &[R(0, 9)]),
    (0x0C50, 10, &[R(0, 3), R(5, 9)]),
    (0x0C00, 10, &[R(0, 0)]),
    (0x0D05, 3, &[R(0, 3), Cc(0)]),
    (0x0D05, 2, &[R(0, 3), Cc(2)]),
    (0x0D05, 4, &[R(0, 3), Cc(1)]),
    (0x0D50, 2, &[R(0, 3), Cc(1)]),
    (0x0D50, 4, &[R(0, 3), Cc(2)]),
    (0x0D00, 2, &[R(0, 3), Cc(0)]),
];

/// R0 as every operand: it has moved past the order.
fn moved() -> Vec<Special> {
    let row = |(first_word, other, changes): (u16, u16, &[Change])| {
        let scene = Scene::alone(&[66, 77, first_word, 88]).register(0, 2).register(5, other);
        done(scene.flags(1, 0, 0), changes)
    };
    let mut list = MOVED.map(row).to_vec();
    for first_word in [0x0300, 0x0350, 0x0400, 0x0450] {
        let scene = Scene::alone(&[66, first_word]).register(0, 1).register(5, 1);
        list.push(fault(scene.flags(1, 0, 0), ADDRESS));
    }
    list
}
