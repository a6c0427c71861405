//! Every one of the 65,536 words in one place: as an order's first word, and
//! as an address.

use super::scene::Scene;
use super::{first_task, order_place, Group};
use crate::image::Flags;
use crate::orders::{NEXT, STACK};

/// The segments, the first task, its registers, and its cc, error and pending.
type Row = (&'static [&'static [u16]], usize, [u16; 8], [u16; 3]);

/// The images in which the first word takes every value. In the first the
/// segment has just two words; in the second the order is the last word.
const FIRST_WORDS: [Row; 6] = [
    (&[&[0, 77]], 0, [0, 1, 0, 1, 2, 65535, 3, 40000], [0, 0, 0]),
    (&[&[31, 32, 0]], 0, [2, 3, 0, 2, 3, 1, 65535, 258], [1, 0, 0]),
    (&[&[41, 42], &[51, 0, 3, 54, 55]], 1, [1, 0, 4, 5, 0, 2, 65535, 12345], [2, 0, 0]),
    (&[&[61, 62, 63, 0, 8, 66, 67, 68], &[71]], 0, [3, 8, 300, 7, 0, 65534, 8, 1], [1, 0, 3]),
    (&[&[81], &[82, 83], &[0, 65535, 86, 87]], 2, [0, 65535, 3, 0, 0x0FF0, 0x3C3C, 4, 65535], [0, 2, 0]),
    (&[&[91, 92, 93, 94, 0, 1]], 0, [4, 6, 5, 0xAAAA, 0x5555, 32768, 3, 0], [2, 0, 0]),
];

/// A register, and an order that uses it as an address: R0 by any order, R5
/// by a fetch and a store, R1 by a call and a return.
const ADDRESSES: [(usize, u16); 5] = [(NEXT, 0x0245), (5, 0x0345), (5, 0x0445), (STACK, 0x1000), (STACK, 0x1100)];

/// Every sweep.
pub fn all() -> Vec<Group> {
    let mut groups: Vec<Group> = FIRST_WORDS.into_iter().map(first_words).collect();
    groups.extend(ADDRESSES.map(|(register, order)| addresses(register, order)));
    groups
}

fn scene((segments, first, registers, [cc, error, pending]): Row) -> Scene {
    let segments = segments.iter().map(|segment| segment.to_vec()).collect();
    Scene { segments, first, registers, flags: Flags { cc, error, pending } }
}

/// Every first word in the image of a row.
fn first_words(row: Row) -> Group {
    let kernel = scene(row).kernel();
    Group::judged(&kernel, order_place(&kernel), 0..=u16::MAX)
}

/// Every word in a register that an order of the second of three tasks uses
/// as an address.
fn addresses(register: usize, order: u16) -> Group {
    let kernel = Scene::alone(&[order; 4]).between().register(4, 700).kernel();
    let place = kernel.layout().task(first_task(&kernel)) + register;
    Group::judged(&kernel, place, 0..=u16::MAX)
}

#[cfg(test)]
mod tests {
    use super::*;

    #[test]
    fn every_sweep_has_each_word_once() {
        for group in all() {
            let mut next = 0;
            for case in &group.cases {
                assert_eq!(usize::from(case.first), next);
                assert_eq!(case.place, group.cases[0].place);
                next += case.span;
            }
            assert_eq!(next, 65536);
        }
    }

    #[test]
    fn four_addresses_are_inside() {
        for (register, order) in ADDRESSES {
            let group = addresses(register, order);
            let done = group.cases.iter().filter(|case| case.expected == 0);
            assert_eq!(done.map(|case| case.span).sum::<usize>(), 4);
            let outside = group.cases.iter().filter(|case| case.expected == 1);
            assert_eq!(outside.map(|case| case.span).sum::<usize>(), 65532);
        }
    }

    #[test]
    fn at_the_last_word_two_word_orders_fault_with_1() {
        let kernel = scene(FIRST_WORDS[1]).kernel();
        let outcome = |word| Group::judged(&kernel, 55, [word]).cases[0].expected;
        for word in [0x0100, 0x0170, 0x0E00, 0x0F00, 0x0F10, 0x0F20, 0x1000] {
            assert_eq!(outcome(word), 1);
        }
        assert_eq!([0x0245, 0x0F30, 0x1250, 0x0812].map(outcome), [0, 2, 3, 4]);
    }
}
