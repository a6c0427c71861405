//! The cases of one order: which images and orders the file of vectors holds.

mod random;
mod scene;
mod special;
mod sweeps;

pub use random::{first_word, prepare, with_first_task};

use crate::changes::{differences, Change};
use crate::check::accept;
use crate::image::Kernel;
use crate::orders::{order, NEXT};

/// The outcome of an order that is done; of one that faults it is the error.
pub const DONE: u16 = 0;

/// An image to go by, and the cases on it.
pub struct Group {
    pub image: Vec<u16>,
    pub cases: Vec<Case>,
}

/// Neighbouring words for one place of an image, with each of which the order
/// of the first task has the same outcome and changes the same words.
#[derive(Clone, Debug, PartialEq, Eq)]
pub struct Case {
    pub expected: u16,
    pub span: usize,
    pub place: usize,
    pub first: u16,
    /// Each place whose word the order changes, and its new word.
    pub changes: Vec<Change>,
}

impl Group {
    /// An image with one case for each of these words at a place.
    pub fn judged(kernel: &Kernel, place: usize, words: impl IntoIterator<Item = u16>) -> Group {
        let mut group = Group { image: kernel.encode(), cases: Vec::new() };
        words.into_iter().for_each(|word| group.judge(place, word));
        group
    }

    /// Adds the case of a word at a place, with what the model gives.
    fn judge(&mut self, place: usize, word: u16) {
        let case = Case::judged(&self.image, place, word);
        match self.cases.last_mut() {
            Some(last) if last.goes_on_with(&case) => last.span += 1,
            _ => self.cases.push(case),
        }
    }
}

impl Case {
    /// The case of an image with a word at a place, with what the model gives.
    fn judged(image: &[u16], place: usize, word: u16) -> Case {
        let mut before = image.to_vec();
        before[place] = word;
        let mut kernel = accept(&before).expect("the image is good");
        let me = first_task(&kernel);
        let expected = order(&mut kernel.tasks[me]).err().unwrap_or(DONE);
        let changes = differences(&before, &kernel.encode());
        Case { expected, span: 1, place, first: word, changes }
    }

    /// Whether the other case differs only in its word, which is the next.
    fn goes_on_with(&self, other: &Case) -> bool {
        self.place == other.place
            && usize::from(self.first) + self.span == usize::from(other.first)
            && self.expected == other.expected
            && self.changes == other.changes
    }
}

/// The number of the first task in the ready queue.
fn first_task(kernel: &Kernel) -> usize {
    usize::from(*kernel.ready.held.front().expect("the ready queue is not empty"))
}

/// The place of the first task's order; of its segment's first word where R0
/// lies outside the segment.
fn order_place(kernel: &Kernel) -> usize {
    let me = first_task(kernel);
    let task = &kernel.tasks[me];
    let next = usize::from(task.registers[NEXT]);
    kernel.base(me) + if next < task.segment.len() { next } else { 0 }
}

/// All cases of a seed: every word in a few places, the orders chosen by
/// hand, and large and `count` random images, each with a few orders.
pub fn collect(seed: u64, count: usize) -> Vec<Group> {
    let mut groups = sweeps::all();
    groups.extend(special::all().iter().map(special::Special::judged));
    groups.extend(random::all(seed, count));
    groups
}

#[cfg(test)]
mod tests {
    use super::*;
    use scene::Scene;

    #[test]
    fn neighbouring_words_with_the_same_changes_are_one_case() {
        let scene = Scene::alone(&[0, 77]).register(1, 1).register(2, 5);
        let kernel = scene.flags(1, 0, 0).kernel();
        let group = Group::judged(&kernel, 53, 0x01FE..=0x0202);
        let rows: Vec<_> = group.cases.iter().map(|c| (c.expected, c.first, c.span)).collect();
        assert_eq!(rows, [(2, 0x01FE, 2), (0, 0x0200, 2), (0, 0x0202, 1)]);
        assert_eq!(group.cases[0].changes, [(26, 1 + 4 * 2)]);
        assert_eq!(group.cases[1].changes, [(18, 1)]);
        assert_eq!(group.cases[2].changes, [(18, 5)]);
    }

    #[test]
    fn a_call_changes_at_most_three_words() {
        let kernel = Scene::alone(&[0x1000, 77]).register(1, 1).kernel();
        let case = Case::judged(&kernel.encode(), 53, 0x1000);
        assert_eq!(case.changes, [(18, 77), (19, 0), (53, 2)]);
    }

    #[test]
    fn the_order_is_that_of_the_first_task() {
        let kernel = Scene::alone(&[9, 0x0140, 77]).between().register(0, 1).kernel();
        assert_eq!(first_task(&kernel), 1);
        assert_eq!(order_place(&kernel), 145 + 3 + 1);
        let case = Case::judged(&kernel.encode(), 149, 0x0140);
        assert_eq!(case.changes, [(27, 3), (31, 77)]);
    }

    #[test]
    fn every_image_is_good_and_every_change_is_real() {
        for group in collect(5, 40) {
            assert!(!accept(&group.image).expect("a good image").ready.is_empty());
            for case in &group.cases {
                let mut before = group.image.clone();
                before[case.place] = case.first;
                let real = |&(place, new): &Change| before[usize::from(place)] != new;
                assert!(case.changes.iter().all(real));
                assert!(case.changes.windows(2).all(|two| two[0].0 < two[1].0));
            }
        }
    }
}
