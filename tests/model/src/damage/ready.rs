//! Damages to what the ready queue holds, and to the clock.

use super::{choose, with_kernel, Damage, Row};
use crate::image::{status, Kernel};
use crate::layout::word;
use crate::numbers::OTHER_RULE;

pub fn damages() -> Vec<Damage> {
    Damage::of_rows(OTHER_RULE, &QUEUE_AND_CLOCK)
}

const QUEUE_AND_CLOCK: [Row; 12] = [
    ("ready queue misses a task", |_, kernel| misses_a_task(kernel)),
    ("ready queue repeats a task", |_, kernel| appended(kernel, first(kernel)?)),
    ("ready queue repeats a task in place of another", |_, kernel| replaced(kernel, *kernel.ready.held.get(1)?)),
    ("ready queue holds a task that is not ready", |rng, kernel| {
        let other = choose(rng, kernel, |task| task.status != status::READY)?;
        appended(kernel, word(other))
    }),
    ("ready queue holds another task in place of a ready one", |rng, kernel| {
        let other = choose(rng, kernel, |task| task.status != status::READY)?;
        replaced(kernel, word(other))
    }),
    ("ready queue holds N too", |_, kernel| appended(kernel, word(kernel.tasks.len()))),
    ("ready queue holds N in place of a task", |_, kernel| replaced(kernel, word(kernel.tasks.len()))),
    ("ready queue holds a task plus 256", |_, kernel| replaced(kernel, first(kernel)? + 256)),
    ("ready queue holds 65535", |_, kernel| replaced(kernel, 65535)),
    ("clock one over S", |_, kernel| {
        let clock = kernel.slice.checked_add(1)?;
        (!kernel.ready.is_empty()).then(|| with_clock(kernel, clock))?
    }),
    ("clock 1 over an empty ready queue", |_, kernel| kernel.ready.is_empty().then(|| with_clock(kernel, 1))?),
    ("clock S over an empty ready queue", |_, kernel| {
        kernel.ready.is_empty().then(|| with_clock(kernel, kernel.slice))?
    }),
];

fn first(kernel: &Kernel) -> Option<u16> {
    kernel.ready.held.front().copied()
}

/// The image without the first ready task in its queue, the clock fitting
/// what is left.
fn misses_a_task(kernel: &Kernel) -> Option<Vec<u16>> {
    first(kernel)?;
    with_kernel(kernel, |kernel| {
        kernel.ready.take();
        kernel.clock = 0;
    })
}

/// The image with one more number in its ready queue, if there is room.
fn appended(kernel: &Kernel, number: u16) -> Option<Vec<u16>> {
    (!kernel.ready.is_full()).then(|| with_kernel(kernel, |k| k.ready.append(number)))?
}

/// The image with another number first in its ready queue, if it holds any.
fn replaced(kernel: &Kernel, number: u16) -> Option<Vec<u16>> {
    first(kernel)?;
    with_kernel(kernel, |kernel| kernel.ready.held[0] = number)
}

fn with_clock(kernel: &Kernel, clock: u16) -> Option<Vec<u16>> {
    with_kernel(kernel, |kernel| kernel.clock = clock)
}
