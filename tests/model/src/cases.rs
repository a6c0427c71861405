//! The cases of the check: which images the file of vectors holds.

use crate::check::check;
use crate::damage::{self, Damage};
use crate::good;
use crate::image::Kernel;
use crate::junk;
use crate::layout::{Frame, LARGEST_TOTAL};
use crate::numbers;
use crate::rng::Rng;

pub const SMALLEST: Frame = Frame { tasks: 1, slice: 1, input: 1, output: 1, message: 1 };
pub const PAIR: Frame = Frame { tasks: 2, slice: 3, input: 1, output: 2, message: 3 };
pub const CROWD: Frame = Frame { tasks: 16, slice: 5, input: 1, output: 2, message: 1 };
pub const LARGEST: Frame = Frame { tasks: 16, slice: 65535, input: 32, output: 32, message: 32 };

/// A list of words and the number that the check must give for it.
#[derive(Clone, Debug, PartialEq, Eq)]
pub struct Case {
    pub expected: u16,
    pub words: Vec<u16>,
}

impl Case {
    /// The case of these words with the number that the model gives.
    pub fn judged(words: Vec<u16>) -> Case {
        Case { expected: check(&words), words }
    }
}

/// All cases of a seed: special ones, `count` good images each with its
/// damaged ones, every named damage twice, fresh images and random lists.
pub fn collect(seed: u64, count: usize) -> Vec<Case> {
    let mut rng = Rng::new(seed);
    let damages = damage::all();
    let mut lists = large(&mut rng);
    lists.extend(long(&mut rng));
    for frame in [SMALLEST, PAIR] {
        let kernel = good::framed(&mut rng, frame);
        lists.extend(damage::sweep(&mut rng, &kernel));
        lists.extend(damage::every_cut(&kernel));
    }
    let crowd = good::framed(&mut rng, CROWD);
    lists.extend(family(&mut rng, &crowd, &damages));
    for _ in 0..count {
        let kernel = good::kernel(&mut rng);
        lists.extend(family(&mut rng, &kernel, &damages));
    }
    for damage in &damages {
        lists.extend([damage.applied(&mut rng), damage.applied(&mut rng)]);
    }
    lists.extend((0..count.div_ceil(8)).map(|_| good::fresh(&mut rng).encode()));
    for degree in junk::DEGREES {
        lists.extend((0..count.div_ceil(8)).map(|_| junk::list(&mut rng, degree)));
    }
    lists.into_iter().map(Case::judged).collect()
}

/// A good image and images made from it.
pub fn family(rng: &mut Rng, kernel: &Kernel, damages: &[Damage]) -> Vec<Vec<u16>> {
    vec![
        kernel.encode(),
        damage::any(rng, kernel, damages),
        damage::any(rng, kernel, damages),
        damage::any(rng, kernel, damages),
        damage::several(rng, kernel, damages),
        damage::noise(rng, kernel),
        damage::noise(rng, kernel),
        damage::guess(rng, kernel),
        damage::guess(rng, kernel),
    ]
}

/// Images at the largest T, one word past it, and with the largest tables.
fn large(rng: &mut Rng) -> Vec<Vec<u16>> {
    let longest = good::with_total(rng, SMALLEST, LARGEST_TOTAL);
    let widest = good::framed(rng, LARGEST);
    vec![
        longest.encode(),
        damage::total_over_the_largest(&longest),
        widest.encode(),
        damage::any(rng, &widest, &damage::of_number(numbers::OTHER_RULE)),
    ]
}

/// Lists of more than 65535 words: one whose count of words is 0 mod 65536,
/// one whose count is T mod 65536, and one in which the segments fill it all
/// and only T is too small.
fn long(rng: &mut Rng) -> Vec<Vec<u16>> {
    let kernel = good::framed(rng, PAIR);
    let mut filled = damage::fit_only_mod_65536(&kernel).expect("the kernel has two tasks");
    filled.resize(filled.len() + 65536, 0);
    vec![damage::lengthened(&kernel, 65536 - kernel.total()), damage::lengthened(&kernel, 65536), filled]
}

#[cfg(test)]
mod tests {
    use super::*;

    #[test]
    fn the_special_cases_have_their_numbers() {
        let mut rng = Rng::new(3);
        let numbers = |lists: Vec<Vec<u16>>| lists.iter().map(|w| check(w)).collect::<Vec<_>>();
        assert_eq!(numbers(large(&mut rng)), [0, 5, 0, 6]);
        assert_eq!(numbers(long(&mut rng)), [5, 5, 5]);
    }

    #[test]
    fn the_same_seed_gives_the_same_cases() {
        let words = |seed| collect(seed, 3).into_iter().map(|c| c.words).collect::<Vec<_>>();
        assert!(words(7) == words(7));
        assert!(words(7) != words(8));
    }
}
