//! Random lists of words, right up to a chosen point and random after it.

use crate::good;
use crate::layout::{word, Layout, EDITION, MARK, TOTAL};
use crate::rng::Rng;

/// How much of a random list is right, each degree with those before it.
#[derive(Clone, Copy, PartialEq, Eq, PartialOrd, Ord)]
pub enum RightUpTo {
    Nothing,
    Edition,
    Frame,
    Offsets,
    Segments,
}

pub const DEGREES: [RightUpTo; 5] =
    [RightUpTo::Nothing, RightUpTo::Edition, RightUpTo::Frame, RightUpTo::Offsets, RightUpTo::Segments];

/// A random list of words: 0 to 200 of them, save where the segments are to
/// be right.
pub fn list(rng: &mut Rng, degree: RightUpTo) -> Vec<u16> {
    let layout = Layout::new(good::frame(rng));
    let mut words = if degree == RightUpTo::Segments {
        small_words(rng, layout.first_segment + layout.frame.tasks)
    } else {
        (0..rng.below(201)).map(|_| rng.word()).collect()
    };
    if degree >= RightUpTo::Edition {
        write(&mut words, 0, &[MARK, EDITION]);
    }
    if degree >= RightUpTo::Frame {
        write(&mut words, 2, &layout.frame.words());
    }
    if degree >= RightUpTo::Offsets {
        write(&mut words, 7, &layout.offsets());
    }
    if degree >= RightUpTo::Segments {
        write_segments(&mut words, &layout);
    }
    words
}

fn small_words(rng: &mut Rng, count: usize) -> Vec<u16> {
    (0..count).map(|_| word(rng.below(3))).collect()
}

/// Writes T and a table of segments of one word each.
fn write_segments(words: &mut [u16], layout: &Layout) {
    let tasks = layout.frame.tasks;
    write(words, TOTAL, &[word(layout.first_segment + tasks)]);
    for task in 0..tasks {
        write(words, layout.segment(task), &[word(layout.first_segment + task), 1]);
    }
}

/// Writes over the part of the list that is there.
fn write(list: &mut [u16], place: usize, words: &[u16]) {
    list.iter_mut().skip(place).zip(words).for_each(|(old, &new)| *old = new);
}
