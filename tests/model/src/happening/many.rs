//! Long sequences of random events, as many as are asked for: too many for a
//! file that is stored.

use super::random::{event, is_dead};
use super::Sequence;
use crate::cases::{LARGEST, PAIR};
use crate::good;
use crate::image::Kernel;
use crate::layout::{word, Frame, LARGEST_TASKS, LARGEST_TOTAL};
use crate::lively;
use crate::rng::Rng;

/// How many events follow one another at the most.
const FEWEST_EVENTS: usize = 100;
const MOST_EVENTS: usize = 500;
/// The most on a large image.
const MOST_ON_LARGE: usize = 150;
/// How many more there are once nobody can be ready again.
const AFTER_THE_END: usize = 6;

/// In how many of a hundred cases a sequence of fewer events is kept.
const SHORT: usize = 20;

/// What stood, before how many events.
#[derive(Clone, Copy, Debug, Default, PartialEq, Eq)]
pub struct Sights {
    pub sixteen_tasks: usize,
    pub full_messages: usize,
    pub full_inputs: usize,
    pub full_outputs: usize,
    /// A full ready queue of two or more tasks.
    pub full_ready: usize,
    /// The words of all the images.
    pub words: usize,
}

impl Sights {
    /// What is counted, by name.
    pub fn rows(&self) -> [(&'static str, usize); 5] {
        [
            ("16 tasks", self.sixteen_tasks),
            ("a full message buffer", self.full_messages),
            ("a full input buffer", self.full_inputs),
            ("a full output buffer", self.full_outputs),
            ("a full ready queue", self.full_ready),
        ]
    }

    /// Counts the kernel that an event comes to.
    fn see(&mut self, kernel: &Kernel) {
        let tasks = &kernel.tasks;
        let messages = kernel.messages.iter().flatten();
        self.sixteen_tasks += usize::from(tasks.len() == LARGEST_TASKS);
        self.full_messages += usize::from(messages.clone().any(|queue| queue.is_full()));
        self.full_inputs += usize::from(tasks.iter().any(|task| task.input.is_full()));
        self.full_outputs += usize::from(tasks.iter().any(|task| task.output.is_full()));
        self.full_ready += usize::from(tasks.len() > 1 && kernel.ready.is_full());
        self.words += kernel.total();
    }
}

/// A sequence on a random image, most often a long one, with what stands
/// before its events.
pub fn sequence(rng: &mut Rng, sights: &mut Sights) -> Sequence {
    loop {
        let mut seen = *sights;
        let sequence = any_sequence(rng, &mut seen);
        if sequence.steps.len() >= FEWEST_EVENTS || rng.percent(SHORT) {
            *sights = seen;
            return sequence;
        }
    }
}

/// A sequence on a random image. It ends early where nobody can be ready again.
fn any_sequence(rng: &mut Rng, sights: &mut Sights) -> Sequence {
    let (kernel, most) = kernel(rng);
    let mut count = 0;
    let mut last = rng.between(FEWEST_EVENTS.min(most), most);
    Sequence::judged(kernel, |kernel| {
        if is_dead(kernel) {
            last = last.min(count + AFTER_THE_END);
        }
        let goes_on = count < last;
        count += 1;
        goes_on.then(|| {
            sights.see(kernel);
            event(rng, kernel)
        })
    })
}

/// A kernel, and how many events it has at the most. Few are large.
pub fn kernel(rng: &mut Rng) -> (Kernel, usize) {
    match rng.below(1000) {
        0..=1 => (lively::with_total(rng, PAIR, LARGEST_TOTAL), MOST_ON_LARGE),
        2..=6 => (lively::kernel(rng, LARGEST), MOST_ON_LARGE),
        7..=60 => (crowded(rng), MOST_EVENTS),
        _ => {
            let frame = good::frame(rng);
            (lively::kernel(rng, frame), MOST_EVENTS)
        }
    }
}

/// A kernel of the most tasks, with small buffers.
fn crowded(rng: &mut Rng) -> Kernel {
    let [input, output] = [(); 2].map(|()| rng.between(1, 3));
    let slice = word(rng.between(1, 9));
    lively::kernel(rng, Frame { tasks: LARGEST_TASKS, slice, input, output, message: 1 })
}

#[cfg(test)]
mod tests {
    use super::*;
    use crate::events::Answer;
    use crate::happening::tests::{images, pending};
    use std::collections::BTreeMap;

    /// How many events are looked at, and how many words their images may have
    /// on the average.
    const EVENTS: usize = 60_000;
    const MEAN_WORDS: usize = 800;
    /// The least that there is of each thing among them: of a million there
    /// are then well over a thousand.
    const OFTEN: usize = 90;

    /// The sequences of a seed with so many events, and what stood.
    fn sequences(seed: u64, events: usize) -> (Vec<Sequence>, Sights) {
        let mut rng = Rng::new(seed);
        let mut sights = Sights::default();
        let mut sequences: Vec<Sequence> = Vec::new();
        let mut count = 0;
        while count < events {
            sequences.push(sequence(&mut rng, &mut sights));
            count += sequences[sequences.len() - 1].steps.len();
        }
        (sequences, sights)
    }

    #[test]
    fn every_outcome_and_every_sight_is_often_there() {
        let (sequences, sights) = sequences(1984, EVENTS);
        let mut outcomes = BTreeMap::new();
        for step in sequences.iter().flat_map(|sequence| &sequence.steps) {
            *outcomes.entry(step.outcome.map(|answer| answer.kind)).or_insert(0) += 1;
        }
        let kinds = (0..=9).map(Ok);
        assert!(outcomes.keys().copied().eq(kinds.chain([7, 8, 9].map(Err))));
        assert!(outcomes.values().all(|&events| events >= OFTEN), "{outcomes:?}");
        assert!(sights.rows().iter().all(|&(_, events)| events >= OFTEN), "{sights:?}");
        assert!(sights.words < EVENTS * MEAN_WORDS, "{sights:?}");
    }

    /// Input, service 3, never faults.
    #[test]
    fn every_service_is_done_waits_and_faults() {
        let mut services = BTreeMap::new();
        for sequence in sequences(3, EVENTS / 4).0 {
            for (image, step) in images(&sequence).iter().zip(&sequence.steps) {
                if let Ok(Answer { kind: kind @ 3..=5, .. }) = step.outcome {
                    *services.entry((pending(image), kind)).or_insert(0) += 1;
                }
            }
        }
        let all = (1..=4).flat_map(|service| (3..=5).map(move |kind| (service, kind)));
        assert!(services.keys().copied().eq(all.filter(|&pair| pair != (3, 5))), "{services:?}");
    }

    #[test]
    fn most_sequences_are_long() {
        let (sequences, _) = sequences(4, EVENTS / 4);
        let long = sequences.iter().filter(|sequence| sequence.steps.len() >= FEWEST_EVENTS);
        assert!(2 * long.count() > sequences.len());
    }

    #[test]
    fn the_same_seed_gives_the_same_sequences() {
        let rows = |seed| {
            let (sequences, _) = sequences(seed, 1000);
            sequences.into_iter().map(|s| (s.image, s.steps)).collect::<Vec<_>>()
        };
        assert!(rows(7) == rows(7));
        assert!(rows(7) != rows(8));
    }
}
