//! A plan in parts, so that each part can be wrong alone.

use crate::good;
use crate::layout::{word, Frame};
use crate::rng::Rng;

/// The parts of a plan, in the order in which their words follow one another.
#[derive(Clone, Debug)]
pub struct Draft {
    /// N, S, CI, CO and CM.
    pub frame: Vec<u16>,
    pub pairs: Vec<Pair>,
    /// The words of all programs.
    pub programs: Vec<u16>,
}

/// L and P of one task.
#[derive(Clone, Copy, Debug)]
pub struct Pair {
    pub length: u16,
    pub program: u16,
}

impl Draft {
    /// A plan with these pairs (L, P) and as many random program words as
    /// they ask for.
    pub fn new(rng: &mut Rng, frame: Frame, pairs: &[(u16, u16)]) -> Draft {
        let asked = pairs.iter().map(|&(_, program)| usize::from(program)).sum();
        Draft {
            frame: frame.words().to_vec(),
            pairs: pairs.iter().map(|&(length, program)| Pair { length, program }).collect(),
            programs: any_words(rng, asked),
        }
    }

    /// A good plan of a random frame with short segments.
    pub fn random(rng: &mut Rng) -> Draft {
        let frame = good::frame(rng);
        let mut draft = Draft::new(rng, frame, &[]);
        for _ in 0..frame.tasks {
            let length = good::segment_length(rng);
            let program = rng.below(length + 1);
            draft.pairs.push(Pair { length: word(length), program: word(program) });
            draft.programs.extend(any_words(rng, program));
        }
        draft
    }

    /// The plan's words.
    pub fn words(&self) -> Vec<u16> {
        let pairs = self.pairs.iter().flat_map(|pair| [pair.length, pair.program]);
        let lead = self.frame.iter().copied().chain(pairs);
        lead.chain(self.programs.iter().copied()).collect()
    }

    /// Leaves only so many of the plan's words.
    pub fn cut(&mut self, count: usize) {
        let mut left = self.words();
        left.truncate(count);
        *self = Draft { frame: left, pairs: Vec::new(), programs: Vec::new() };
    }
}

/// So many words, each anywhere in 0..65535.
pub fn any_words(rng: &mut Rng, count: usize) -> Vec<u16> {
    (0..count).map(|_| rng.any_word()).collect()
}
