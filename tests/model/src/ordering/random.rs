//! Random images, each with a few orders.

use super::{first_task, order_place, Group};
use crate::cases::{LARGEST, SMALLEST};
use crate::good;
use crate::image::Kernel;
use crate::layout::{word, LARGEST_TOTAL};
use crate::orders::{Order, LAST_OP, NEXT};
use crate::rng::Rng;

/// How many orders a random image comes with.
const ORDERS: usize = 8;
/// How many orders a large image comes with.
const ORDERS_OF_LARGE: usize = 60;

/// The images of a seed: large ones, and `count` others.
pub fn all(seed: u64, count: usize) -> Vec<Group> {
    let mut rng = Rng::new(seed);
    let mut groups = large(&mut rng);
    groups.extend((0..count).map(|_| group(&mut rng)));
    groups
}

/// A random image and a few orders of its first task.
fn group(rng: &mut Rng) -> Group {
    let mut kernel = with_first_task(rng, good::kernel);
    prepare(rng, &mut kernel);
    with_orders(rng, &kernel, ORDERS)
}

/// An image of the largest T and one of the largest tables.
fn large(rng: &mut Rng) -> Vec<Group> {
    let makers: [fn(&mut Rng) -> Kernel; 2] =
        [|rng| good::with_total(rng, SMALLEST, LARGEST_TOTAL), |rng| good::framed(rng, LARGEST)];
    let mut groups = Vec::new();
    for make in makers {
        let mut kernel = with_first_task(rng, make);
        prepare(rng, &mut kernel);
        groups.push(with_orders(rng, &kernel, ORDERS_OF_LARGE));
    }
    groups
}

/// The first kernel that has a ready task.
pub fn with_first_task(rng: &mut Rng, make: fn(&mut Rng) -> Kernel) -> Kernel {
    loop {
        let kernel = make(rng);
        if !kernel.ready.is_empty() {
            return kernel;
        }
    }
}

/// Gives the first task registers to work with, and most often an order.
pub fn prepare(rng: &mut Rng, kernel: &mut Kernel) {
    let me = first_task(kernel);
    let length = kernel.tasks[me].segment.len();
    let mut registers = [(); 8].map(|()| operand(rng, kernel, me));
    if rng.percent(80) {
        registers[NEXT] = word(rng.below(length));
    }
    kernel.tasks[me].registers = registers;
}

/// An image with this many random first words of its first task's order.
fn with_orders(rng: &mut Rng, kernel: &Kernel, count: usize) -> Group {
    let words: Vec<u16> = (0..count).map(|_| first_word(rng)).collect();
    Group::judged(kernel, order_place(kernel), words)
}

/// A register's word: inside a task's segment, near its ends, far from it, a
/// small number or any.
fn operand(rng: &mut Rng, kernel: &Kernel, me: usize) -> u16 {
    let length = kernel.tasks[me].segment.len();
    let end = word(length);
    match rng.below(10) {
        0..=3 => word(rng.below(length)),
        4 | 5 => *rng.pick(&[0, 1, end - 1, end, end + 1, 65535]),
        6 => *rng.pick(&far(kernel, me)),
        7 => word(rng.below(8)),
        _ => rng.word(),
    }
}

/// Addresses at which a wrong base or a wrong end of the segment would show.
fn far(kernel: &Kernel, me: usize) -> [u16; 5] {
    let base = word(kernel.base(me));
    let total = word(kernel.total());
    [base, total - base, total - base - 1, total, 0u16.wrapping_sub(base)]
}

/// A first word: most often a known op with good fields, else one with any a
/// or any fields, or any word.
pub fn first_word(rng: &mut Rng) -> u16 {
    let op = 256 * word(rng.between(1, usize::from(LAST_OP)));
    match rng.below(20) {
        0 => rng.any_word(),
        1 => op + word(rng.below(256)),
        2 => op + 16 * word(rng.below(16)),
        _ => with_good_fields(rng, op),
    }
}

/// A word with this op in which the order code finds no fault.
fn with_good_fields(rng: &mut Rng, op: u16) -> u16 {
    let good: Vec<u16> = (op..op + 256).filter(|&word| Order::decode(word).is_ok()).collect();
    *rng.pick(&good)
}

#[cfg(test)]
mod tests {
    use super::*;

    #[test]
    fn the_same_seed_gives_the_same_cases() {
        let all = |seed| {
            let groups = all(seed, 20).into_iter();
            let rows = |group: Group| group.cases.into_iter().map(|c| (c.first, c.changes));
            groups.map(|g| (g.image.clone(), rows(g).collect::<Vec<_>>())).collect::<Vec<_>>()
        };
        assert!(all(7) == all(7));
        assert!(all(7) != all(8));
    }

    #[test]
    fn every_outcome_occurs() {
        let groups = all(9, 400);
        for outcome in 0..=4 {
            assert!(groups.iter().flat_map(|g| &g.cases).any(|case| case.expected == outcome));
        }
    }
}
