//! Random images, each with events that follow one another.

use super::Sequence;
use crate::cases::{CROWD, LARGEST, PAIR};
use crate::events::kind::{INPUT, OUTPUT_DONE, TICK};
use crate::events::{Event, PEER, WORD};
use crate::good;
use crate::image::{service, status, Kernel, Task};
use crate::layout::{word, LARGEST_TOTAL};
use crate::ordering::{first_word, with_first_task};
use crate::orders::NEXT;
use crate::rng::Rng;

const FEWEST_EVENTS: usize = 8;
const MOST_EVENTS: usize = 40;
/// The fewest on a large image.
const MANY_EVENTS: usize = 30;
/// The lengths of a segment with room for a few orders.
const SHORT: usize = 5;
const LONG: usize = 16;

/// The character of an input that somebody waits for.
const LETTER: u16 = 65;

/// First words of orders, in hexadecimal: op, then a, then b.
const LOAD_R2: u16 = 0x0120;
const LOAD_R3: u16 = 0x0130;
const JUMP: u16 = 0x0E00;
const SERVICE: u16 = 0x1200;

/// The sequences of a seed: on large images, and on `count` others.
pub fn all(seed: u64, count: usize) -> Vec<Sequence> {
    let mut rng = Rng::new(seed);
    let mut sequences = large(&mut rng);
    sequences.extend((0..count).map(|_| {
        let kernel = kernel(&mut rng);
        sequence(&mut rng, kernel)
    }));
    sequences
}

/// An image of the largest T, one of the largest tables, and some of the most
/// tasks with small buffers.
fn large(rng: &mut Rng) -> Vec<Sequence> {
    let makers: [fn(&mut Rng) -> Kernel; 5] = [
        |rng| good::with_total(rng, PAIR, LARGEST_TOTAL),
        |rng| good::framed(rng, LARGEST),
        |rng| good::framed(rng, CROWD),
        |rng| good::framed(rng, CROWD),
        |rng| good::framed(rng, CROWD),
    ];
    makers.map(|make| long_sequence(rng, make)).into()
}

/// The first sequence on such a kernel that has many events.
fn long_sequence(rng: &mut Rng, make: fn(&mut Rng) -> Kernel) -> Sequence {
    loop {
        let kernel = with_first_task(rng, make);
        let sequence = sequence(rng, kernel);
        if sequence.steps.len() >= MANY_EVENTS {
            return sequence;
        }
    }
}

/// A kernel, most often with somebody ready, or a fresh one. Most segments
/// have room for a few orders.
fn kernel(rng: &mut Rng) -> Kernel {
    let mut kernel = match rng.below(10) {
        0 => good::kernel(rng),
        1..=5 => with_first_task(rng, good::kernel),
        _ => good::fresh(rng),
    };
    for task in &mut kernel.tasks {
        if rng.percent(80) {
            task.segment.resize(rng.between(SHORT, LONG), 0);
        }
    }
    kernel
}

/// Random events on a kernel whose tasks are first given programs. It ends
/// early where nobody can be ready again.
fn sequence(rng: &mut Rng, mut kernel: Kernel) -> Sequence {
    let tasks = kernel.tasks.len();
    kernel.tasks.iter_mut().for_each(|task| prepare(rng, task, tasks));
    let most = rng.between(FEWEST_EVENTS, MOST_EVENTS);
    let mut count = 0;
    Sequence::judged(kernel, |kernel| {
        let ended = count == most || (count >= FEWEST_EVENTS && is_dead(kernel));
        count += 1;
        (!ended).then(|| event(rng, kernel))
    })
}

/// Whether nobody is ready and no device can wake anybody.
pub fn is_dead(kernel: &Kernel) -> bool {
    kernel.ready.is_empty() && awaited(kernel).is_empty()
}

/// The events that would wake somebody.
pub fn awaited(kernel: &Kernel) -> Vec<Event> {
    let of_task = |(i, task): (usize, &Task)| match task.status {
        status::WAITS_FOR_INPUT => Some(Event::Input { device: word(i), character: LETTER }),
        status::WAITS_FOR_OUTPUT => Some(Event::OutputDone { device: word(i) }),
        _ => None,
    };
    kernel.tasks.iter().enumerate().filter_map(of_task).collect()
}

/// Gives a task a program with services and what they take, as far as its
/// status allows. Of the ready tasks with an error few keep it.
fn prepare(rng: &mut Rng, task: &mut Task, tasks: usize) {
    let length = task.segment.len();
    task.segment = program(rng, tasks, length);
    let inside = word(rng.below(length));
    task.registers[NEXT] = *rng.pick(&[0, 0, 0, inside, task.registers[NEXT]]);
    if ![status::WAITS_TO_SEND, status::WAITS_TO_RECEIVE].contains(&task.status) {
        task.registers[PEER] = peer(rng, tasks);
    }
    if task.status != status::WAITS_FOR_OUTPUT {
        task.registers[WORD] = sent(rng);
    }
    if task.status == status::READY && rng.percent(70) {
        task.flags.error = 0;
    }
}

/// A number in R2: most often a task's, or the first that is none.
fn peer(rng: &mut Rng, tasks: usize) -> u16 {
    match rng.below(20) {
        0 => word(tasks),
        1 => rng.word(),
        _ => word(rng.below(tasks)),
    }
}

/// A word in R3: most often a character.
fn sent(rng: &mut Rng) -> u16 {
    if rng.percent(85) {
        rng.character()
    } else {
        rng.word()
    }
}

/// A program of this length, which most often begins again at its end.
fn program(rng: &mut Rng, tasks: usize, length: usize) -> Vec<u16> {
    let back = [JUMP, 0];
    let mut words = Vec::new();
    while words.len() < length {
        words.extend(phrase(rng, tasks));
    }
    words.truncate(length);
    if length > back.len() && rng.percent(80) {
        words[length - back.len()..].copy_from_slice(&back);
    }
    words
}

/// One order, which most often asks for a service or loads what it takes.
fn phrase(rng: &mut Rng, tasks: usize) -> Vec<u16> {
    match rng.below(20) {
        0..=11 => {
            let number = rng.between(usize::from(service::SEND), usize::from(service::OUTPUT));
            vec![SERVICE + 16 * word(number)]
        }
        12..=14 => vec![LOAD_R2, peer(rng, tasks)],
        15..=17 => vec![LOAD_R3, sent(rng)],
        _ => vec![first_word(rng)],
    }
}

/// An event: with nobody ready most often one that wakes somebody, else most
/// often a tick, else one of any device. A few are malformed.
pub fn event(rng: &mut Rng, kernel: &Kernel) -> [u16; 3] {
    let tasks = kernel.tasks.len();
    let awaited = awaited(kernel);
    if kernel.ready.is_empty() && !awaited.is_empty() && rng.percent(70) {
        return rng.pick(&awaited).words();
    }
    let device = word(rng.below(tasks));
    match rng.below(100) {
        0..=77 => Event::Tick.words(),
        78..=86 => Event::Input { device, character: rng.character() }.words(),
        87..=96 => Event::OutputDone { device }.words(),
        _ => malformed(rng, tasks),
    }
}

/// An event in which the kind is unknown, or a word is not what the kind asks.
pub fn malformed(rng: &mut Rng, tasks: usize) -> [u16; 3] {
    let device = word(rng.below(tasks));
    let none = *rng.pick(&[word(tasks), word(tasks) + 1, 256, 65535]);
    let not_zero = rng.any_word().max(1);
    let over = *rng.pick(&[256, 257, 65535]);
    let unknown = *rng.pick(&[3, 4, 256, 257, 258, 65535]);
    let events = [
        [unknown, device, 0],
        [TICK, not_zero, 0],
        [TICK, 0, not_zero],
        [INPUT, none, rng.character()],
        [INPUT, device, over],
        [INPUT, none, over],
        [OUTPUT_DONE, none, 0],
        [OUTPUT_DONE, device, not_zero],
    ];
    *rng.pick(&events)
}

#[cfg(test)]
mod tests {
    use super::*;

    #[test]
    fn the_same_seed_gives_the_same_cases() {
        let rows = |seed| {
            let sequences = all(seed, 20).into_iter();
            sequences.map(|s| (s.image, s.steps)).collect::<Vec<_>>()
        };
        assert!(rows(7) == rows(7));
        assert!(rows(7) != rows(8));
    }

    #[test]
    fn a_malformed_event_is_none() {
        let mut rng = Rng::new(3);
        for tasks in [1, 2, 16] {
            assert!((0..200).all(|_| Event::read(malformed(&mut rng, tasks), tasks).is_none()));
        }
    }
}
