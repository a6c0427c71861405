//! The cases of looks: which images, and which looks into them, the files of
//! vectors hold.

mod broken;
pub mod random;
mod sweep;

pub use broken::Damages;

use crate::breaches::broken_rule;
use crate::damage;
use crate::numbers::{GOOD, NOT_THERE};
use crate::rng::Rng;
use crate::views;

/// How many words a look is asked with, and how many fields come back beside
/// its number, at the most.
pub const MOST_ASKED: usize = 4;
pub const MOST_FIELDS: usize = 5;

/// How many rules there are.
pub const RULES: u16 = 21;

/// The numbers of bad images.
const BAD_NUMBERS: [u16; 6] = [1, 2, 3, 4, 5, 6];

/// Of so many random images one is damaged before it is looked into.
const IMAGES_TO_A_BAD_ONE: usize = 4;

/// A call that looks into an image, with what it is asked for.
#[derive(Clone, Copy, Debug, PartialEq, Eq)]
pub enum Look {
    Task { task: u16 },
    Port { device: u16 },
    Register { task: u16, register: u16 },
    QueueLength { queue: u16, i: u16, j: u16 },
    QueueWord { queue: u16, i: u16, j: u16, at: u16 },
    BrokenRule,
}

/// What a look gives. Fields that its call does not have are 0.
#[derive(Clone, Copy, Debug, PartialEq, Eq)]
pub struct Seen {
    pub number: u16,
    pub fields: [u16; MOST_FIELDS],
}

/// A look and what it gives.
#[derive(Clone, Copy, Debug, PartialEq, Eq)]
pub struct Case {
    pub look: Look,
    pub seen: Seen,
}

/// An image, and looks into it.
#[derive(Clone, Debug, PartialEq, Eq)]
pub struct Group {
    pub image: Vec<u16>,
    pub cases: Vec<Case>,
}

impl Look {
    /// What the look gives by the model.
    pub fn seen_in(self, image: &[u16]) -> Seen {
        match self {
            Look::Task { task } => Seen::of(views::task(image, task)),
            Look::Port { device } => Seen::of(views::port(image, device)),
            Look::Register { task, register } => Seen::of(views::register(image, task, register).map(|word| [word])),
            Look::QueueLength { queue, i, j } => {
                Seen::of(views::queue_length(image, queue, i, j).map(|length| [length]))
            }
            Look::QueueWord { queue, i, j, at } => {
                Seen::of(views::queue_word(image, queue, i, j, at).map(|word| [word]))
            }
            Look::BrokenRule => {
                let [number, fields @ ..] = broken_rule(image);
                Seen::new(number, fields)
            }
        }
    }

    /// The place of its call among the calls that look.
    pub fn call(self) -> usize {
        match self {
            Look::Task { .. } => 0,
            Look::Port { .. } => 1,
            Look::Register { .. } => 2,
            Look::QueueLength { .. } => 3,
            Look::QueueWord { .. } => 4,
            Look::BrokenRule => 5,
        }
    }

    /// The words that it is asked with, and 0 for those that its call lacks.
    pub fn asked(self) -> [u16; MOST_ASKED] {
        match self {
            Look::Task { task: only } | Look::Port { device: only } => [only, 0, 0, 0],
            Look::Register { task, register } => [task, register, 0, 0],
            Look::QueueLength { queue, i, j } => [queue, i, j, 0],
            Look::QueueWord { queue, i, j, at } => [queue, i, j, at],
            Look::BrokenRule => [0; MOST_ASKED],
        }
    }
}

impl Seen {
    /// A number and the fields of a call.
    pub fn new<const N: usize>(number: u16, fields: [u16; N]) -> Seen {
        let mut all = [0; MOST_FIELDS];
        all[..N].copy_from_slice(&fields);
        Seen { number, fields: all }
    }

    /// The fields of a look, or the number that refuses it and in each field
    /// that nothing is there.
    pub fn of<const N: usize>(fields: Result<[u16; N], u16>) -> Seen {
        match fields {
            Ok(fields) => Seen::new(GOOD, fields),
            Err(number) => Seen::new(number, [NOT_THERE; N]),
        }
    }
}

impl Group {
    /// The looks into an image, with what the model gives.
    pub fn judged(image: Vec<u16>, looks: Vec<Look>) -> Group {
        let cases = looks.into_iter().map(|look| Case { look, seen: look.seen_in(&image) }).collect();
        Group { image, cases }
    }
}

/// All looks of a seed that tell no rule: every one into a small image, those
/// into large images, and some into `count` random ones.
pub fn collect(seed: u64, count: usize) -> Vec<Group> {
    let mut rng = Rng::new(seed);
    let damages = BAD_NUMBERS.map(damage::of_number);
    let mut groups = vec![sweep::every_look(&mut rng)];
    groups.extend(random::large(&mut rng));
    for turn in 0..count {
        let kernel = random::kernel(&mut rng);
        let looks = random::looks(&mut rng, &kernel);
        let bad = turn % IMAGES_TO_A_BAD_ONE == 0;
        let image = if bad {
            damage::any(&mut rng, &kernel, &damages[turn / IMAGES_TO_A_BAD_ONE % damages.len()])
        } else {
            kernel.encode()
        };
        groups.push(Group::judged(image, looks));
    }
    groups
}

/// All first broken rules of a seed: of a small image with each of its words
/// changed, of each named damage twice, and of images made from `count` random ones.
pub fn collect_broken(seed: u64, count: usize) -> Vec<Group> {
    let mut rng = Rng::new(seed);
    let damages = Damages::named();
    let mut images = sweep::every_word(&mut rng);
    images.extend(damages.large(&mut rng));
    images.extend(damage::all().iter().flat_map(|damage| [damage.applied(&mut rng), damage.applied(&mut rng)]));
    for _ in 0..count {
        images.extend(damages.family(&mut rng));
    }
    images.into_iter().map(|image| Group::judged(image, vec![Look::BrokenRule])).collect()
}

#[cfg(test)]
mod tests {
    use super::*;
    use crate::layout::LARGEST_TOTAL;
    use std::collections::BTreeMap;

    /// The seed and counts of the stored sets.
    const SEED: u64 = 1984;
    const LOOKED_INTO: usize = 150;
    const BROKEN: usize = 80;
    /// The least that the stored sets have of each call and number, and of each
    /// rule.
    const OFTEN: usize = 10;

    fn count<K: Ord>(keys: impl Iterator<Item = K>) -> BTreeMap<K, usize> {
        let mut counts = BTreeMap::new();
        keys.for_each(|key| *counts.entry(key).or_insert(0) += 1);
        counts
    }

    #[test]
    fn every_call_has_every_number_in_the_stored_set() {
        let groups = collect(SEED, LOOKED_INTO);
        let cases = groups.iter().flat_map(|group| &group.cases);
        let counts = count(cases.map(|case| (case.look.call(), case.seen.number)));
        let numbers = [0, 1, 2, 3, 4, 5, 6, 65535];
        assert!(counts.keys().copied().eq((0..5).flat_map(|call| numbers.map(|number| (call, number)))));
        assert!(counts.values().all(|&cases| cases >= OFTEN), "{counts:?}");
    }

    #[test]
    fn every_rule_is_often_in_the_stored_set() {
        let groups = collect_broken(SEED, BROKEN);
        let cases = groups.iter().flat_map(|group| &group.cases);
        let counts = count(cases.clone().map(|case| (case.seen.number, case.seen.fields[0])));
        let other = (0..=5).map(|number| (number, 65535));
        assert!(counts.keys().copied().eq(other.chain((1..=RULES).map(|rule| (6, rule)))), "{counts:?}");
        assert!(counts.values().all(|&cases| cases >= OFTEN), "{counts:?}");
    }

    #[test]
    fn no_image_is_longer_than_a_good_one_may_be() {
        let groups = [collect(SEED, LOOKED_INTO), collect_broken(SEED, BROKEN)].concat();
        assert!(groups.iter().all(|group| group.image.len() <= LARGEST_TOTAL));
    }

    #[test]
    fn the_same_seed_gives_the_same_cases() {
        assert!(collect(7, 3) == collect(7, 3));
        assert!(collect(7, 3) != collect(8, 3));
        assert!(collect_broken(7, 3) == collect_broken(7, 3));
        assert!(collect_broken(7, 3) != collect_broken(8, 3));
    }

    #[test]
    fn what_is_not_there_fills_the_fields_of_its_call_alone() {
        let look = Look::Port { device: 0 };
        assert_eq!(look.seen_in(&[]), Seen { number: 1, fields: [65535, 65535, 0, 0, 0] });
        assert_eq!(Look::BrokenRule.seen_in(&[]), Seen { number: 1, fields: [65535, 65535, 65535, 65535, 0] });
    }
}
