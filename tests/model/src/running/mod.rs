//! The cases of runs: which images and lists the file of vectors holds.

pub mod bad;
mod random;
mod special;

pub use random::{after, events, list};

use crate::changes::{differences, Change};
use crate::check::check;
use crate::layout::LARGEST_TOTAL;
use crate::runs::run;

/// An image, and runs that follow one another from it.
pub struct Course {
    pub image: Vec<u16>,
    pub cases: Vec<Case>,
    /// The image that stands after the runs.
    pub stands: Vec<u16>,
}

/// A list of events, and what comes of its run.
#[derive(Clone, Debug, PartialEq, Eq)]
pub struct Case {
    pub list: Vec<u16>,
    pub taken: usize,
    pub number: u16,
    /// Each place whose word the run changes, and its new word.
    pub changes: Vec<Change>,
}

impl Course {
    /// An image, good or bad, before any run.
    pub fn on(image: Vec<u16>) -> Course {
        assert!(image.len() <= LARGEST_TOTAL, "an image of {} words", image.len());
        Course { stands: image.clone(), image, cases: Vec::new() }
    }

    /// Adds the run of a list on the image that stands, with what the model
    /// gives. The check's number of the image must stay what it is.
    pub fn judge(&mut self, list: Vec<u16>) -> &Case {
        let before = check(&self.stands);
        let ran = run(&self.stands, &list);
        assert_eq!(check(&ran.image), before, "a run does not keep {:?}", self.stands);
        let changes = differences(&self.stands, &ran.image);
        self.stands = ran.image;
        self.cases.push(Case { list, taken: ran.taken, number: ran.number, changes });
        &self.cases[self.cases.len() - 1]
    }
}

/// All cases of a seed: those chosen by hand, bad images of each number, and
/// large and `count` random images, each with some runs.
pub fn collect(seed: u64, count: usize) -> Vec<Course> {
    let mut courses = special::all();
    courses.extend(bad::all(seed));
    courses.extend(random::all(seed, count));
    courses
}

#[cfg(test)]
mod tests {
    use super::*;
    use crate::runs::EVENT_WORDS;
    use std::collections::BTreeMap;

    /// The seed and count of the stored set.
    const STORED: (u64, usize) = (1984, 180);
    /// The least that the stored set has of each number.
    const OFTEN: usize = 20;
    /// A run of so many events is a long one.
    const LONG: usize = 100;

    #[test]
    fn every_change_is_real() {
        for course in collect(5, 10) {
            let mut image = course.image;
            for case in course.cases {
                let real = |&(place, new): &Change| image[usize::from(place)] != new;
                assert!(case.changes.iter().all(real));
                assert!(case.changes.windows(2).all(|two| two[0].0 < two[1].0));
                case.changes.iter().for_each(|&(place, new)| image[usize::from(place)] = new);
            }
            assert_eq!(image, course.stands);
        }
    }

    #[test]
    fn a_case_ends_where_its_number_says() {
        for case in collect(6, 20).iter().flat_map(|course| &course.cases) {
            let whole = case.list.len().is_multiple_of(EVENT_WORDS);
            let events = case.list.len() / EVENT_WORDS;
            match (case.number, whole) {
                (0, true) => assert_eq!(case.taken, events),
                (7..=9, true) => assert!(case.taken < events),
                (1..=6, _) | (7, false) => assert_eq!((case.taken, &case.changes), (0, &vec![])),
                other => panic!("a run with {other:?}"),
            }
        }
    }

    #[test]
    fn every_number_and_long_runs_are_often_in_the_stored_set() {
        let mut numbers = BTreeMap::new();
        let mut long = BTreeMap::new();
        for case in collect(STORED.0, STORED.1).iter().flat_map(|course| &course.cases) {
            *numbers.entry(case.number).or_insert(0) += 1;
            if case.taken >= LONG {
                *long.entry(case.number).or_insert(0) += 1;
            }
        }
        assert!(numbers.keys().copied().eq(0..=9), "{numbers:?}");
        assert!(numbers.values().all(|&cases| cases >= OFTEN), "{numbers:?}");
        assert!(long.keys().copied().eq([0, 7, 8, 9]), "{long:?}");
        assert!(long.values().all(|&cases| cases >= OFTEN), "{long:?}");
    }

    #[test]
    fn the_same_seed_gives_the_same_cases() {
        let rows = |seed| {
            let courses = collect(seed, 3).into_iter();
            courses.map(|course| (course.image, course.cases)).collect::<Vec<_>>()
        };
        assert!(rows(7) == rows(7));
        assert!(rows(7) != rows(8));
    }
}
