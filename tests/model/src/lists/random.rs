//! Random lists: of orders, of numbers, and of both.

use crate::layout::word;
use crate::orders::Order;
use crate::rng::Rng;

/// The most words of a list, and of most lists.
const MOST: usize = 90;
const FEW: usize = 16;

/// First words of the orders that have a second, and of those without operands.
const WITH_SUM: [u16; 5] = [3584, 3840, 3856, 3872, 4096];
const ALONE: [u16; 5] = [4352, 4624, 4640, 4656, 4672];

/// A list of each sort.
pub fn lists(rng: &mut Rng) -> [Vec<u16>; 6] {
    let sorts = [orders, numbers, near, mixed, with_lone_end];
    let [a, b, c, d, e] = sorts.map(|sort| {
        let most = if rng.percent(80) { FEW } else { MOST };
        let words = rng.between(0, most);
        sort(rng, words)
    });
    [a, b, c, d, e, vec![rng.word()]]
}

/// So many words of orders; a last one with a second word may be cut.
fn orders(rng: &mut Rng, words: usize) -> Vec<u16> {
    up_to(rng, words, order)
}

/// So many words, none of which begins an order.
fn numbers(rng: &mut Rng, words: usize) -> Vec<u16> {
    up_to(rng, words, |rng| [rng.word()].into_iter().filter(|&word| Order::decode(word).is_err()).collect())
}

/// So many words of orders in each of which one bit is another.
fn near(rng: &mut Rng, words: usize) -> Vec<u16> {
    up_to(rng, words, |rng| {
        let mut near = order(rng);
        near[0] ^= 1 << rng.below(16);
        near
    })
}

/// So many words of orders, of numbers, and of what is nearly an order.
pub fn mixed(rng: &mut Rng, words: usize) -> Vec<u16> {
    up_to(rng, words, |rng| match rng.below(10) {
        0..6 => order(rng),
        6..8 => vec![rng.word()],
        8 => vec![word(rng.below(5000))],
        _ => near(rng, 2),
    })
}

/// So many words and then a first word that lacks its second.
fn with_lone_end(rng: &mut Rng, words: usize) -> Vec<u16> {
    let mut list = mixed(rng, words);
    list.push(with_second(rng));
    list
}

/// Parts one after another, the last one cut where there are enough words.
fn up_to(rng: &mut Rng, words: usize, part: impl Fn(&mut Rng) -> Vec<u16>) -> Vec<u16> {
    let mut list = Vec::new();
    while list.len() < words {
        list.extend(part(rng));
    }
    list.truncate(words);
    list
}

/// The words of one order.
fn order(rng: &mut Rng) -> Vec<u16> {
    match rng.below(10) {
        0..4 => vec![with_second(rng), rng.word()],
        4..8 => vec![256 * word(rng.between(2, 13)) + 16 * register(rng) + register(rng)],
        _ => vec![*rng.pick(&ALONE)],
    }
}

/// The first word of an order that has a second.
fn with_second(rng: &mut Rng) -> u16 {
    match rng.below(2) {
        0 => 256 + 16 * register(rng),
        _ => *rng.pick(&WITH_SUM),
    }
}

fn register(rng: &mut Rng) -> u16 {
    word(rng.below(8))
}

#[cfg(test)]
mod tests {
    use super::*;

    #[test]
    fn an_order_is_one() {
        let mut rng = Rng::new(2);
        for _ in 0..2000 {
            let order = order(&mut rng);
            assert!(Order::decode(order[0]).is_ok(), "{order:?}");
            assert_eq!(crate::printing::takes_two(order[0]), order.len() == 2);
        }
    }

    #[test]
    fn a_list_has_the_words_that_are_asked_for() {
        let mut rng = Rng::new(2);
        for sort in [orders, numbers, near, mixed] {
            assert!((0..40).all(|words| sort(&mut rng, words).len() == words));
        }
    }
}
