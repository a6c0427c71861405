//! The cases of events: which images and events the file of vectors holds.

pub mod many;
mod random;
pub mod scene;
mod special;

pub use random::{event, is_dead, malformed};

use crate::changes::{differences, Change};
use crate::check::check;
use crate::events::{happen, Answer};
use crate::image::Kernel;
use crate::numbers;

/// An image, and events that follow one another from it.
pub struct Sequence {
    pub image: Vec<u16>,
    pub steps: Vec<Step>,
}

/// An event, its answer or the number that refuses it, and what it changes.
#[derive(Clone, Debug, PartialEq, Eq)]
pub struct Step {
    pub event: [u16; 3],
    pub outcome: Result<Answer, u16>,
    /// Each place whose word the event changes, and its new word.
    pub changes: Vec<Change>,
}

impl Sequence {
    /// The sequence of the events that are chosen for the kernel that stands,
    /// until none is, with what the model gives.
    fn judged(mut kernel: Kernel, mut choose: impl FnMut(&Kernel) -> Option<[u16; 3]>) -> Sequence {
        let image = kernel.encode();
        assert_eq!(check(&image), numbers::GOOD, "a first image is not good: {image:?}");
        let mut steps = Vec::new();
        while let Some(event) = choose(&kernel) {
            steps.push(Step::judged(&mut kernel, event));
        }
        Sequence { image, steps }
    }
}

impl Step {
    /// Carries out an event on a kernel, which must stay good.
    pub fn judged(kernel: &mut Kernel, event: [u16; 3]) -> Step {
        let before = kernel.encode();
        let outcome = happen(kernel, event);
        let after = kernel.encode();
        assert_eq!(check(&after), numbers::GOOD, "{event:?} does not keep {before:?} good");
        Step { event, outcome, changes: differences(&before, &after) }
    }
}

/// All cases of a seed: those chosen by hand, and large and `count` random
/// images, each with some events.
pub fn collect(seed: u64, count: usize) -> Vec<Sequence> {
    let mut sequences: Vec<Sequence> = special::all().into_iter().map(special::Special::judged).collect();
    sequences.extend(random::all(seed, count));
    sequences
}

#[cfg(test)]
mod tests {
    use super::*;
    use crate::check::accept;
    use std::collections::BTreeMap;

    /// The seed and count of the stored set.
    const STORED: (u64, usize) = (1984, 1150);
    /// The least that the stored set has of each thing.
    const OFTEN: usize = 50;

    /// The image before each step, made by the changes of those before it.
    pub fn images(sequence: &Sequence) -> Vec<Vec<u16>> {
        let mut image = sequence.image.clone();
        let mut images = Vec::new();
        for step in &sequence.steps {
            images.push(image.clone());
            step.changes.iter().for_each(|&(place, new)| image[usize::from(place)] = new);
        }
        images
    }

    /// The pending service of the first task of an image, 0 for none.
    pub fn pending(image: &[u16]) -> u16 {
        let kernel = accept(image).expect("a good image");
        kernel.ready.held.front().map_or(0, |&me| kernel.tasks[usize::from(me)].flags.pending)
    }

    #[test]
    fn every_image_is_good_and_every_change_is_real() {
        for sequence in collect(5, 40) {
            for (image, step) in images(&sequence).iter().zip(&sequence.steps) {
                assert_eq!(check(image), 0);
                let real = |&(place, new): &Change| image[usize::from(place)] != new;
                assert!(step.changes.iter().all(real));
                assert!(step.changes.windows(2).all(|two| two[0].0 < two[1].0));
                assert!(step.outcome.is_ok() || step.changes.is_empty());
            }
        }
    }

    #[test]
    fn every_outcome_is_often_in_the_stored_set() {
        let mut outcomes = BTreeMap::new();
        for step in collect(STORED.0, STORED.1).iter().flat_map(|sequence| &sequence.steps) {
            *outcomes.entry(step.outcome.map(|answer| answer.kind)).or_insert(0) += 1;
        }
        let kinds = (0..=9).map(Ok);
        assert!(outcomes.keys().copied().eq(kinds.chain([7, 8, 9].map(Err))));
        assert!(outcomes.values().all(|&cases| cases >= OFTEN), "{outcomes:?}");
    }

    /// Input, service 3, never faults.
    #[test]
    fn every_service_is_often_done_waiting_and_faulted_in_the_stored_set() {
        let mut services = BTreeMap::new();
        for sequence in collect(STORED.0, STORED.1) {
            for (image, step) in images(&sequence).iter().zip(&sequence.steps) {
                if let Ok(Answer { kind: kind @ 3..=5, .. }) = step.outcome {
                    *services.entry((pending(image), kind)).or_insert(0) += 1;
                }
            }
        }
        let all = (1..=4).flat_map(|service| (3..=5).map(move |kind| (service, kind)));
        assert!(services.keys().copied().eq(all.filter(|&pair| pair != (3, 5))));
        assert!(services.values().all(|&cases| cases >= OFTEN), "{services:?}");
    }
}
