//! Damages to the queues themselves: their leading words, and the characters
//! they hold.

use super::{with_task, Damage};
use crate::image::{Kernel, Task};
use crate::layout::QUEUE_LEAD;
use crate::numbers::OTHER_RULE;
use crate::queue::Queue;
use crate::rng::Rng;
use crate::which::{Which, INPUT, MESSAGE, OUTPUT, READY};

/// The sorts of queues, each with the first of the words that name its queues.
pub const SORTS: [(&str, u16); 4] =
    [("ready queue", READY), ("input buffer", INPUT), ("output buffer", OUTPUT), ("message buffer", MESSAGE)];

/// The queues of a sort, in any order.
pub fn of_sort(rng: &mut Rng, kernel: &Kernel, sort: u16) -> Vec<Which> {
    let mut queues = Which::all(kernel.tasks.len());
    queues.retain(|which| which.words()[0] == sort);
    rng.shuffle(&mut queues);
    queues
}

/// The leading words of a queue.
struct Lead {
    head: u16,
    tail: u16,
    length: u16,
    capacity: u16,
}

type Fault = fn(Lead) -> Option<Lead>;

/// Faults of leading words; each gives nothing where it would be no fault.
const FAULTS: [(&str, Fault); 13] = [
    ("capacity one more", |q| Some(Lead { capacity: q.capacity + 1, ..q })),
    ("capacity one less", |q| Some(Lead { capacity: q.capacity - 1, ..q })),
    ("capacity 0", |q| Some(Lead { capacity: 0, ..q })),
    ("head past the capacity", |q| Some(Lead { head: q.head + q.capacity, ..q })),
    ("head at the capacity", |q| Some(Lead { head: q.capacity, ..q })),
    ("head one step on", |q| (q.capacity > 1).then(|| Lead { head: step(q.head, &q), ..q })),
    ("head right only mod 65536", |q| (q.tail < q.length).then(|| Lead { head: q.tail.wrapping_sub(q.length), ..q })),
    ("tail past the capacity", |q| Some(Lead { tail: q.tail + q.capacity, ..q })),
    ("tail at the capacity", |q| Some(Lead { tail: q.capacity, ..q })),
    ("tail one step on", |q| (q.capacity > 1).then(|| Lead { tail: step(q.tail, &q), ..q })),
    ("length past the capacity", |q| (q.length > 0).then(|| Lead { length: q.length + q.capacity, ..q })),
    ("length one over the capacity", |q| Some(Lead { length: q.capacity + 1, ..q })),
    ("length one off", |q| {
        let length = if q.length > 0 { q.length - 1 } else { 1 };
        (q.capacity > 1).then_some(Lead { length, ..q })
    }),
];

fn step(index: u16, queue: &Lead) -> u16 {
    (index + 1) % queue.capacity
}

pub fn damages() -> Vec<Damage> {
    let mut list = held_characters();
    for (queue, sort) in SORTS {
        for (name, fault) in FAULTS {
            list.push(Damage::new(format!("{queue}, {name}"), OTHER_RULE, move |rng, kernel| {
                let place = of_sort(rng, kernel, sort)[0].place(&kernel.layout());
                with_fault(kernel, place, fault)
            }));
        }
    }
    list
}

/// The image with a fault in the leading words of the queue at a place.
fn with_fault(kernel: &Kernel, place: usize, fault: Fault) -> Option<Vec<u16>> {
    let mut words = kernel.encode();
    let lead: &mut [u16; QUEUE_LEAD] = words[place..].first_chunk_mut()?;
    let [head, tail, length, capacity] = *lead;
    let Lead { head, tail, length, capacity } = fault(Lead { head, tail, length, capacity })?;
    *lead = [head, tail, length, capacity];
    Some(words)
}

fn held_characters() -> Vec<Damage> {
    let mut list = Vec::new();
    for character in [256, 65535] {
        list.push(Damage::new(format!("input holds {character}"), OTHER_RULE, move |rng, kernel| {
            with_held(rng, kernel, character, |task| &mut task.input)
        }));
        list.push(Damage::new(format!("output holds {character}"), OTHER_RULE, move |rng, kernel| {
            with_held(rng, kernel, character, |task| &mut task.output)
        }));
    }
    list
}

/// The image with one held word of a random task's buffer changed.
fn with_held(rng: &mut Rng, kernel: &Kernel, character: u16, buffer: fn(&mut Task) -> &mut Queue) -> Option<Vec<u16>> {
    let index = rng.below(32);
    let holds_any = |task: &Task| !buffer(&mut task.clone()).is_empty();
    with_task(rng, kernel, holds_any, |task| {
        let held = &mut buffer(task).held;
        let index = index % held.len();
        held[index] = character;
    })
}
