//! Damages to the 18 words of the header, save those to T.

use super::{with_words, Damage};
use crate::image::Kernel;
use crate::layout::{word, HEADER_WORDS, LARGEST_CAPACITY, LARGEST_TASKS};
use crate::numbers;
use crate::rng::Rng;

/// A header word, a value it must not have, and the number that this gives.
const WRONG_VALUES: [(&str, usize, u16, u16); 17] = [
    ("mark 0", 0, 0, numbers::MARK_OR_EDITION),
    ("mark one less", 0, 19283, numbers::MARK_OR_EDITION),
    ("mark one more", 0, 19285, numbers::MARK_OR_EDITION),
    ("mark with its bytes exchanged", 0, 21579, numbers::MARK_OR_EDITION),
    ("edition 0", 1, 0, numbers::MARK_OR_EDITION),
    ("edition 2", 1, 2, numbers::MARK_OR_EDITION),
    ("edition 257", 1, 257, numbers::MARK_OR_EDITION),
    ("N 0", 2, 0, numbers::OUT_OF_RANGE),
    ("N 17", 2, 17, numbers::OUT_OF_RANGE),
    ("N 257", 2, 257, numbers::OUT_OF_RANGE),
    ("S 0", 3, 0, numbers::OUT_OF_RANGE),
    ("CI 0", 4, 0, numbers::OUT_OF_RANGE),
    ("CI 33", 4, 33, numbers::OUT_OF_RANGE),
    ("CO 0", 5, 0, numbers::OUT_OF_RANGE),
    ("CO 33", 5, 33, numbers::OUT_OF_RANGE),
    ("CM 0", 6, 0, numbers::OUT_OF_RANGE),
    ("CM 33", 6, 33, numbers::OUT_OF_RANGE),
];

pub fn damages() -> Vec<Damage> {
    let mut list = Vec::new();
    for (name, place, value, expected) in WRONG_VALUES {
        let make = move |_: &mut Rng, kernel: &Kernel| with_words(kernel, |w| w[place] = value);
        list.push(Damage::new(name, expected, make));
    }
    list.push(Damage::new("another N in range", numbers::OFFSET, |rng, kernel| another(rng, kernel, 2, LARGEST_TASKS)));
    for place in 4..7 {
        let name = format!("another capacity in range, word {place}");
        list.push(Damage::new(name, numbers::OFFSET, move |rng, kernel| another(rng, kernel, place, LARGEST_CAPACITY)));
    }
    for place in 7..16 {
        let more = move |_: &mut Rng, kernel: &Kernel| with_words(kernel, |w| w[place] += 1);
        let less = move |_: &mut Rng, kernel: &Kernel| with_words(kernel, |w| w[place] -= 1);
        let any = move |rng: &mut Rng, kernel: &Kernel| another(rng, kernel, place, 65535);
        list.push(Damage::new(format!("offset one more, word {place}"), numbers::OFFSET, more));
        list.push(Damage::new(format!("offset one less, word {place}"), numbers::OFFSET, less));
        list.push(Damage::new(format!("another offset, word {place}"), numbers::OFFSET, any));
    }
    list
}

/// The image with another value, 1 to `most`, in one word.
fn another(rng: &mut Rng, kernel: &Kernel, place: usize, most: usize) -> Option<Vec<u16>> {
    let value = word(rng.between(1, most));
    with_words(kernel, |words| words[place] = value).filter(|words| *words != kernel.encode())
}

/// The image with each header word in turn changed in each of several ways.
/// Some of these images stay good.
pub fn sweep(rng: &mut Rng, kernel: &Kernel) -> Vec<Vec<u16>> {
    let good = kernel.encode();
    let mut images = Vec::new();
    for place in 0..HEADER_WORDS {
        let old = good[place];
        for new in [old.wrapping_add(1), old.wrapping_sub(1), 0, 65535, rng.any_word()] {
            let mut words = good.clone();
            words[place] = new;
            images.push(words);
        }
    }
    images
}
