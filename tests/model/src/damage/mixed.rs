//! Several damages at once, and changes that may or may not do damage.

use super::{any, Damage};
use crate::good;
use crate::image::{Flags, Kernel};
use crate::layout::{word, CLOCK};
use crate::rng::Rng;

/// The image with two or three damages, so that the lowest number must win.
pub fn several(rng: &mut Rng, kernel: &Kernel, damages: &[Damage]) -> Vec<u16> {
    let good = kernel.encode();
    let mut words = good.clone();
    for _ in 0..rng.between(2, 3) {
        overlay(&mut words, &good, &any(rng, kernel, damages));
    }
    words
}

/// A good image with one damage two or three times, most often to another task
/// or queue each time, so that the first of them must win.
pub fn repeated(rng: &mut Rng, damage: &Damage) -> Vec<u16> {
    let (kernel, mut words) = damage.on_some_kernel(rng);
    let good = kernel.encode();
    for _ in 0..rng.between(1, 2) {
        if let Some(damaged) = damage.apply(rng, &kernel) {
            overlay(&mut words, &good, &damaged);
        }
    }
    words
}

/// The image with two to five words before the segments changed.
pub fn scattered(rng: &mut Rng, kernel: &Kernel) -> Vec<u16> {
    let mut words = kernel.encode();
    let layout = kernel.layout();
    for _ in 0..rng.between(2, 5) {
        let place = rng.between(CLOCK, layout.segment_table - 1);
        words[place] = rng.changed(words[place], 6);
    }
    words
}

/// Brings into the words all in which a damaged image differs from the good
/// one, its count of words included.
fn overlay(words: &mut Vec<u16>, good: &[u16], damaged: &[u16]) {
    words.resize(damaged.len(), 0);
    for (place, &word) in damaged.iter().enumerate() {
        if good.get(place) != Some(&word) {
            words[place] = word;
        }
    }
}

/// The image with one word anywhere changed, most often before the segments.
pub fn noise(rng: &mut Rng, kernel: &Kernel) -> Vec<u16> {
    let mut words = kernel.encode();
    let reach = if rng.percent(90) { kernel.layout().first_segment } else { words.len() };
    let place = rng.below(reach);
    words[place] = rng.changed(words[place], 6);
    words
}

/// The image with a random task's status, flags, peer and R2 guessed, and the
/// ready queue and clock set to fit the statuses.
pub fn guess(rng: &mut Rng, kernel: &Kernel) -> Vec<u16> {
    let mut kernel = kernel.clone();
    let n = kernel.tasks.len();
    let task = rng.below(n);
    let task = &mut kernel.tasks[task];
    task.status = word(rng.below(6));
    task.flags = guessed_flags(rng, task.status);
    task.peer = if rng.percent(50) { 0 } else { word(rng.below(n + 1)) };
    if rng.percent(70) {
        task.registers[2] = task.peer;
    }
    if rng.percent(70) {
        task.registers[3] = rng.character();
    }
    while !kernel.ready.is_empty() {
        kernel.ready.take();
    }
    good::line_up(rng, &mut kernel);
    kernel.encode()
}

/// Flags that often, but not always, go with a status.
fn guessed_flags(rng: &mut Rng, status: u16) -> Flags {
    let pending = if rng.percent(70) { status % 5 } else { word(rng.below(5)) };
    let error = if pending == 0 || rng.percent(5) { word(rng.below(7)) } else { 0 };
    Flags { cc: word(rng.below(3)), error, pending }
}
