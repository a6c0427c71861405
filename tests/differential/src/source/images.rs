//! Good kernels of several sorts, and images near the largest.

use model::cases::{LARGEST, PAIR};
use model::damage;
use model::events::{PEER, WORD};
use model::good;
use model::happening::many;
use model::image::service::{OUTPUT, SEND};
use model::image::{Kernel, Task};
use model::layout::{word, LARGEST_TOTAL};
use model::ordering::{first_word, prepare, with_first_task};
use model::orders::NEXT;
use model::rng::Rng;

/// One more than the largest word.
const WORDS: usize = 65536;

/// A good kernel: of any state, about to carry out an order or a service, or with programs that go on.
pub fn kernel(rng: &mut Rng) -> Kernel {
    match rng.below(10) {
        0 => good::kernel(rng),
        1..=2 => before_an_order(rng),
        3..=4 => before_a_service(rng),
        _ => many::kernel(rng).0,
    }
}

/// A good kernel whose first task carries out a random order at the next tick.
fn before_an_order(rng: &mut Rng) -> Kernel {
    let mut kernel = in_its_turn(rng);
    let task = first_task(&mut kernel);
    if let Some(word) = task.segment.get_mut(usize::from(task.registers[NEXT])) {
        *word = first_word(rng);
    }
    kernel
}

/// A good kernel whose first task has a random service done, waits or faults at the next tick.
fn before_a_service(rng: &mut Rng) -> Kernel {
    let mut kernel = in_its_turn(rng);
    let tasks = kernel.tasks.len();
    let task = first_task(&mut kernel);
    task.flags.pending = word(rng.between(usize::from(SEND), usize::from(OUTPUT)));
    task.registers[PEER] = word(rng.below(tasks + 1));
    task.registers[WORD] = *rng.pick(&[0, 65, 255, 256, task.registers[WORD]]);
    kernel
}

/// A good kernel whose first task has time left, and neither an error nor a service pending.
fn in_its_turn(rng: &mut Rng) -> Kernel {
    let mut kernel = with_first_task(rng, good::kernel);
    prepare(rng, &mut kernel);
    kernel.clock = kernel.clock.max(1);
    let flags = &mut first_task(&mut kernel).flags;
    (flags.error, flags.pending) = (0, 0);
    kernel
}

/// The first task of a ready queue that is not empty.
fn first_task(kernel: &mut Kernel) -> &mut Task {
    let first = usize::from(kernel.ready.held[0]);
    &mut kernel.tasks[first]
}

/// A kernel of the largest T, its image, and images that are as large or larger: one of the largest tables, one with T a
/// word too large, and two whose count of words is right, or 0, only mod 65536.
pub fn large(rng: &mut Rng) -> (Kernel, Vec<Vec<u16>>) {
    let longest = good::with_total(rng, PAIR, LARGEST_TOTAL);
    let small = good::framed(rng, PAIR);
    let images = vec![
        longest.encode(),
        good::framed(rng, LARGEST).encode(),
        damage::total_over_the_largest(&longest),
        damage::lengthened(&small, WORDS),
        damage::lengthened(&small, WORDS - small.total()),
    ];
    (longest, images)
}
