//! The cases of runs that count: which counts, images and lists the file of
//! reports holds. And those of shares.

mod bad;
pub mod random;
pub mod shares;
mod special;

use crate::changes::{differences, Change};
use crate::check::check;
use crate::layout::{word, LARGEST_TOTAL};
use crate::numbers::{COUNT_FULL, GOOD, TARGET};
use crate::reports::{report, Reported};
use crate::runs::{events, run, EVENT_WORDS};

const TICK: [u16; EVENT_WORDS] = [0; EVENT_WORDS];

/// The place of a count, and what it then is.
pub type Growth = (u16, u32);

/// Counts of any length, and images one after another with reports, all of
/// which add to these counts.
pub struct Night {
    pub counts: Vec<u32>,
    pub courses: Vec<Course>,
    /// The counts that stand after the reports.
    pub stands: Vec<u32>,
}

/// An image, and reports that follow one another from it.
pub struct Course {
    pub image: Vec<u16>,
    pub cases: Vec<Case>,
    /// The image that stands after the reports.
    pub stands: Vec<u16>,
}

/// A list of events, and what comes of its report.
#[derive(Clone, Debug, PartialEq, Eq)]
pub struct Case {
    pub list: Vec<u16>,
    pub taken: usize,
    pub number: u16,
    /// Each place whose word the report changes, and its new word.
    pub changes: Vec<Change>,
    /// Each count that grows.
    pub grown: Vec<Growth>,
}

impl Night {
    /// These counts, before any report.
    pub fn from(counts: Vec<u32>) -> Night {
        Night { stands: counts.clone(), counts, courses: Vec::new() }
    }

    /// The same with an image, good or bad, for the reports that follow.
    pub fn on(mut self, image: Vec<u16>) -> Night {
        assert!(image.len() <= LARGEST_TOTAL, "an image of {} words", image.len());
        self.courses.push(Course { stands: image.clone(), image, cases: Vec::new() });
        self
    }

    /// The image that stands.
    pub fn standing(&self) -> &[u16] {
        &self.courses[self.courses.len() - 1].stands
    }

    /// Adds the report of a list on the image and the counts that stand, with
    /// what the model gives, which must go with what it gives for a run.
    pub fn judge(&mut self, list: Vec<u16>) -> &Case {
        let reported = report(self.standing(), &list, &self.stands);
        assert_run(self.standing(), &list, &reported);
        assert_ticks(&self.stands, &list, &reported);
        let last = self.courses.len() - 1;
        let course = &mut self.courses[last];
        let Reported { taken, number, image, counts } = reported;
        let changes = differences(&course.stands, &image);
        let grown = growths(&self.stands, &counts);
        (course.stands, self.stands) = (image, counts);
        course.cases.push(Case { list, taken, number, changes, grown });
        &course.cases[course.cases.len() - 1]
    }
}

/// Stops where a report is not that of a run: of the same list, or of the events
/// before the one that is refused with 17. A good image stays good.
fn assert_run(before: &[u16], list: &[u16], reported: &Reported) {
    let number = match reported.number {
        TARGET => return assert_eq!((reported.taken, &reported.image[..]), (0, before)),
        COUNT_FULL => GOOD,
        other => other,
    };
    let few = &list[..EVENT_WORDS * reported.taken];
    let ran = run(before, if reported.number == COUNT_FULL { few } else { list });
    assert_eq!((ran.taken, ran.number, &ran.image), (reported.taken, number, &reported.image));
    assert_eq!(check(&reported.image), check(before), "a report does not keep {before:?}");
}

/// Stops where the counts have not grown by the ticks that were taken.
fn assert_ticks(before: &[u32], list: &[u16], reported: &Reported) {
    let sum = |counts: &[u32]| counts.iter().map(|&count| u64::from(count)).sum::<u64>();
    let ticks = events(list).take(reported.taken).filter(|&words| words == TICK).count();
    assert_eq!(sum(&reported.counts), sum(before) + ticks as u64);
}

/// Each count that differs, with what it is later.
fn growths(before: &[u32], after: &[u32]) -> Vec<Growth> {
    let pairs = before.iter().zip(after).enumerate();
    let grown = pairs.filter(|(_, (old, new))| old != new);
    grown.map(|(place, (_, &new))| (word(place), new)).collect()
}

/// All cases of a seed: those chosen by hand, bad images of each number and
/// counts of other lengths, and `count` random nights.
pub fn collect(seed: u64, count: usize) -> Vec<Night> {
    let mut nights = special::all();
    nights.extend(bad::all(seed));
    nights.extend(random::all(seed, count));
    nights
}

#[cfg(test)]
mod tests {
    use super::*;
    use crate::check::accept;
    use crate::events::happen;
    use crate::reports::{HEADINGS, IDLE, MOST};
    use std::collections::BTreeMap;

    /// The seed and count of the stored set.
    const STORED: (u64, usize) = (1984, 110);
    /// The least that the stored set has of each number, and of each heading
    /// that grows, grows by so much at once, or stops a report.
    const OFTEN: usize = 10;
    const MUCH: u32 = 20;
    const RARELY: usize = 3;

    /// The heading of a place: a column of six, or the idle ticks.
    fn heading(place: usize) -> usize {
        if place == IDLE {
            HEADINGS
        } else {
            place % HEADINGS
        }
    }

    #[test]
    fn every_change_and_every_growth_is_real() {
        for night in collect(5, 10) {
            let mut counts = night.counts;
            for course in night.courses {
                let mut image = course.image;
                for case in course.cases {
                    assert!(case.changes.windows(2).all(|two| two[0].0 < two[1].0));
                    assert!(case.grown.windows(2).all(|two| two[0].0 < two[1].0));
                    for (place, new) in case.changes {
                        assert_ne!(image[usize::from(place)], new);
                        image[usize::from(place)] = new;
                    }
                    for (place, new) in case.grown {
                        assert!(counts[usize::from(place)] < new);
                        counts[usize::from(place)] = new;
                    }
                }
                assert_eq!(image, course.stands);
            }
            assert_eq!(counts, night.stands);
        }
    }

    #[test]
    fn every_number_is_often_in_the_stored_set() {
        let mut numbers = BTreeMap::new();
        let nights = collect(STORED.0, STORED.1);
        for case in nights.iter().flat_map(|night| &night.courses).flat_map(|course| &course.cases) {
            *numbers.entry(case.number).or_insert(0) += 1;
        }
        assert!(numbers.keys().copied().eq((0..=9).chain([12, 17])), "{numbers:?}");
        assert!(numbers.values().all(|&cases| cases >= OFTEN), "{numbers:?}");
    }

    /// The first counts and the last of each report, its image before it, and
    /// the case.
    fn each_report(night: &Night, mut see: impl FnMut(&[u32], &[u16], &Case)) {
        let mut counts = night.counts.clone();
        for course in &night.courses {
            let mut image = course.image.clone();
            for case in &course.cases {
                see(&counts, &image, case);
                case.changes.iter().for_each(|&(place, new)| image[usize::from(place)] = new);
                case.grown.iter().for_each(|&(place, new)| counts[usize::from(place)] = new);
            }
        }
    }

    #[test]
    fn every_heading_grows_and_grows_by_much_in_the_stored_set() {
        let mut grown = [0; HEADINGS + 1];
        let mut much = [0; HEADINGS + 1];
        for night in collect(STORED.0, STORED.1) {
            each_report(&night, |counts, _, case| {
                for &(place, new) in &case.grown {
                    let place = usize::from(place);
                    grown[heading(place)] += 1;
                    much[heading(place)] += usize::from(new - counts[place] >= MUCH);
                }
            });
        }
        assert!(grown.iter().all(|&cases| cases >= OFTEN), "{grown:?}");
        // Orders, and idle ticks: those that come in long rows.
        assert!(much[0] >= OFTEN && much[HEADINGS] >= OFTEN, "{much:?}");
    }

    /// The answer that the refused tick would have, by its heading: none but a
    /// tick is refused with 17, and its count is at its end.
    #[test]
    fn every_heading_stops_a_report_in_the_stored_set() {
        let mut stopped = [0; HEADINGS + 1];
        let mut midway = 0;
        for night in collect(STORED.0, STORED.1) {
            each_report(&night, |counts, image, case| {
                if case.number != COUNT_FULL {
                    return;
                }
                let mut kernel = accept(image).expect("a good image");
                let mut next = events(&case.list).skip(case.taken);
                for words in events(&case.list).take(case.taken) {
                    happen(&mut kernel, words).expect("a taken event");
                }
                let words = next.next().expect("the refused event");
                let answer = happen(&mut kernel, words).expect("a tick");
                assert_eq!(words, TICK);
                let column = [6, 4, 5, 1, 2, 3, 0, 3][usize::from(answer.kind)];
                stopped[column] += 1;
                let place = if column == HEADINGS { IDLE } else { HEADINGS * usize::from(answer.task) + column };
                let last = case.grown.iter().find(|growth| usize::from(growth.0) == place);
                assert_eq!(last.map_or(counts[place], |growth| growth.1), MOST);
                midway += usize::from(last.is_some());
            });
        }
        assert!(stopped.iter().all(|&cases| cases >= RARELY), "{stopped:?}");
        assert!(midway >= OFTEN, "{midway}");
    }

    #[test]
    fn the_same_seed_gives_the_same_cases() {
        let rows = |seed| {
            let nights = collect(seed, 3).into_iter();
            let courses = nights.flat_map(|night| night.courses);
            courses.map(|course| (course.image, course.cases)).collect::<Vec<_>>()
        };
        assert!(rows(7) == rows(7));
        assert!(rows(7) != rows(8));
    }
}
