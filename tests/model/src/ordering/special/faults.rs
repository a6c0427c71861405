//! Fields, service numbers, the order of the checks, and the flags.

use super::Change::{Cc, Pending, R};
use super::{done, fault, Special};
use crate::ordering::scene::Scene;
use crate::orders::error::{ADDRESS, DIVISOR, ORDER, SERVICE};

/// Orders by their fields, their errors and their flags.
pub fn all() -> Vec<Special> {
    [conditions(), services(), fields(), checks(), flags()].concat()
}

/// Jumps if cc is a, for each cc and each a, and with b not 0.
fn conditions() -> Vec<Special> {
    let mut list = Vec::new();
    for cc in 0..3 {
        let scene = |low| Scene::alone(&[0x0F00 + low, 900]).flags(cc, 0, 0);
        for a in 0..3 {
            let next = if a == cc { 900 } else { 2 };
            list.push(done(scene(16 * a), &[R(0, next)]));
        }
        list.extend((3..16).map(|a| fault(scene(16 * a), ORDER)));
        list.extend([0x01, 0x0F, 0x11, 0x21, 0x31].map(|low| fault(scene(low), ORDER)));
    }
    list
}

/// Every service number with b 0, 1 and 15.
fn services() -> Vec<Special> {
    let scene = |low| Scene::alone(&[0x1200 + low]).flags(2, 0, 0);
    let good = (1..=4).map(|a| done(scene(16 * a), &[R(0, 1), Pending(a)]));
    let unknown = [0].into_iter().chain(5..16).map(|a| fault(scene(16 * a), SERVICE));
    let bad = (0..16).flat_map(|a| [16 * a + 1, 16 * a + 15]);
    good.chain(unknown).chain(bad.map(|low| fault(scene(low), ORDER))).collect()
}

/// Unknown ops, and for each known op a field that is just out of range.
fn fields() -> Vec<Special> {
    let unknown = [
        0x0000, 0x0001, 0x0010, 0x0045, 0x00FF, 0x1300, 0x1310, 0x1345, 0x1400, 0x2000, 0x8000, 0x8145, 0x9210, 0xFF00,
        0xFFFF,
    ];
    let others = [0x0180, 0x01F0, 0x0101, 0x0108, 0x0E10, 0x0E01, 0x0E80, 0x1010, 0x1001, 0x1110, 0x1101];
    let pairs = (0x02..=0x0D).flat_map(|op| [0x80, 0x08, 0x88, 0xF0, 0x0F].map(|f| 256 * op + f));
    let words = unknown.into_iter().chain(others).chain(pairs);
    let scene = |first_word| Scene::alone(&[first_word, 21, 22]).register(1, 2).flags(1, 0, 0);
    words.map(|first_word| fault(scene(first_word), ORDER)).collect()
}

/// A first word alone in its segment, the word in R1, R4 and R5, and the
/// error. Where two are possible it is the one that is tested first; other
/// rows have the later one alone.
const CHECKED: [(u16, u16, u16); 24] = [
    (0x0141, 0, ORDER),
    (0x0180, 0, ORDER),
    (0x0140, 0, ADDRESS),
    (0x0348, 9, ORDER),
    (0x0385, 9, ORDER),
    (0x0448, 9, ORDER),
    (0x0485, 9, ORDER),
    (0x0345, 9, ADDRESS),
    (0x0445, 9, ADDRESS),
    (0x0885, 0, ORDER),
    (0x0985, 0, ORDER),
    (0x0845, 0, DIVISOR),
    (0x0E01, 0, ORDER),
    (0x0E10, 0, ORDER),
    (0x0F30, 0, ORDER),
    (0x0F01, 0, ORDER),
    (0x0F20, 0, ADDRESS),
    (0x1010, 0, ORDER),
    (0x1000, 0, ADDRESS),
    (0x1101, 9, ORDER),
    (0x1100, 9, ADDRESS),
    (0x1251, 0, ORDER),
    (0x1250, 0, SERVICE),
    (0x1300, 9, ORDER),
];

/// Each row as it stands, and with R0 outside the segment, which is tested
/// before all else.
fn checks() -> Vec<Special> {
    let mut list = Vec::new();
    for (first_word, operand, error) in CHECKED {
        let scene = [1, 4, 5]
            .into_iter()
            .fold(Scene::alone(&[first_word]), |scene, register| scene.register(register, operand));
        list.push(fault(scene.clone(), error));
        list.push(fault(scene.register(0, 1), ADDRESS));
    }
    list
}

/// What an order leaves of flags that are set: it replaces the one field that
/// it names.
fn flags() -> Vec<Special> {
    let mut list = Vec::new();
    for (error, pending) in [(6, 0), (1, 0), (0, 1), (0, 4)] {
        let scene = |first_word| Scene::alone(&[first_word]).flags(2, error, pending);
        list.push(done(scene(0x0545), &[R(0, 1)]));
        list.push(done(scene(0x0D45), &[R(0, 1), Cc(0)]));
        list.push(done(scene(0x1220), &[R(0, 1), Pending(2)]));
        list.push(fault(scene(0x0140), ADDRESS));
        list.push(fault(scene(0x0000), ORDER));
        list.push(fault(scene(0x1200), SERVICE));
        list.push(fault(scene(0x0845), DIVISOR));
    }
    list
}
