//! Reports on bad images of each number, and with lists of counts of other
//! lengths: nothing is taken and nothing is counted.

use super::random::{any, kernel, list};
use super::Night;
use crate::damage::{self, Damage};
use crate::numbers::TARGET;
use crate::reports::{COUNTS, MOST};
use crate::rng::Rng;
use crate::running::bad::{damaged, NUMBERS};
use crate::running::events;

/// How many bad images there are of each number.
const IMAGES: usize = 3;
/// The most events of a list for them.
const MOST_EVENTS: usize = 6;
/// An event of an unknown kind.
const UNKNOWN: [u16; 3] = [3, 0, 0];
/// Lengths of lists of counts, none of them 97.
const LENGTHS: [usize; 9] = [0, 1, 6, 7, 95, 96, 98, 103, 194];

pub fn all(seed: u64) -> Vec<Night> {
    let mut rng = Rng::new(seed);
    let mut nights = Vec::new();
    for number in NUMBERS {
        let damages = damage::of_number(number);
        nights.extend((0..IMAGES).map(|_| on_bad_image(&mut rng, &damages, number)));
    }
    nights.extend(LENGTHS.map(|length| with_length(&mut rng, length)));
    nights
}

/// A bad image with an empty list, a good one, one whose first event is refused
/// and one of no multiple of three words.
fn on_bad_image(rng: &mut Rng, damages: &[Damage], number: u16) -> Night {
    let kernel = kernel(rng);
    let image = damaged(rng, &kernel, damages);
    let most = rng.between(1, MOST_EVENTS);
    let list = events(rng, &kernel, most);
    let refused = [UNKNOWN.to_vec(), list.clone()].concat();
    let cut = list[..list.len() - rng.between(1, 2)].to_vec();
    let mut night = Night::from(some_counts(rng, COUNTS)).on(image);
    for list in [vec![], list, refused, cut] {
        let case = night.judge(list);
        assert_eq!((case.taken, case.number, case.grown.len()), (0, number, 0));
    }
    night
}

/// A list of counts of another length, on a good image and on a bad one, with
/// lists of every sort.
fn with_length(rng: &mut Rng, length: usize) -> Night {
    let kernel = kernel(rng);
    let bad = damaged(rng, &kernel, &damage::all());
    let list = list(rng, &kernel);
    let mut night = Night::from(some_counts(rng, length));
    for image in [kernel.encode(), bad] {
        night = night.on(image);
        for list in [vec![], list.clone(), vec![0], UNKNOWN.to_vec()] {
            let case = night.judge(list);
            assert_eq!((case.taken, case.number, case.grown.len()), (0, TARGET, 0));
        }
    }
    night
}

/// So many counts: any, or all at their end.
fn some_counts(rng: &mut Rng, length: usize) -> Vec<u32> {
    if rng.percent(50) {
        return vec![MOST; length];
    }
    (0..length).map(|_| any(rng)).collect()
}
