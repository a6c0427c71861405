//! Every look into a small image, and a small image with each of its words
//! changed.

use super::{Group, Look};
use crate::cases::PAIR;
use crate::good;
use crate::image::Kernel;
use crate::layout::word;
use crate::rng::Rng;

/// Looks into an image with numbers up to one or two past what is there.
pub fn every_look(rng: &mut Rng) -> Group {
    let kernel = crowded(rng);
    let tasks = word(kernel.tasks.len()) + 1;
    let mut looks = Vec::new();
    for task in 0..=tasks {
        looks.push(Look::Task { task });
        looks.push(Look::Port { device: task });
        looks.extend((0..=9).map(|register| Look::Register { task, register }));
    }
    for queue in 0..=4 {
        for (i, j) in (0..=tasks).flat_map(|i| (0..=tasks).map(move |j| (i, j))) {
            looks.push(Look::QueueLength { queue, i, j });
            looks.extend((0..=4).map(|at| Look::QueueWord { queue, i, j, at }));
        }
    }
    Group::judged(kernel.encode(), looks)
}

/// A good kernel of two tasks in which each sort of queue holds something.
fn crowded(rng: &mut Rng) -> Kernel {
    loop {
        let kernel = good::framed(rng, PAIR);
        let buffers = kernel.tasks.iter().flat_map(|task| [&task.input, &task.output]);
        let messages = kernel.messages.iter().flatten();
        let empty = buffers.chain(messages).chain([&kernel.ready]).filter(|queue| queue.is_empty()).count();
        if empty <= 1 && !kernel.ready.is_empty() {
            return kernel;
        }
    }
}

/// A good image with each word before its segments changed, in each of several
/// ways. Some of these images stay good.
pub fn every_word(rng: &mut Rng) -> Vec<Vec<u16>> {
    let kernel = crowded(rng);
    let good = kernel.encode();
    let mut images = Vec::new();
    for place in 0..kernel.layout().first_segment {
        let old = good[place];
        for new in [old.wrapping_add(1), old.wrapping_sub(1), 0, 6, 256, 65535, rng.any_word()] {
            let mut words = good.clone();
            words[place] = new;
            images.push(words);
        }
    }
    images
}
