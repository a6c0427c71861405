//! Good images, most of which no plan and no event reaches.

use crate::building::Draft;
use crate::check::check;
use crate::image::{service, status, Flags, Kernel, Port, Task};
use crate::layout::{word, Frame, Layout, LARGEST_TASKS};
use crate::numbers;
use crate::plan;
use crate::queue::Queue;
use crate::rng::Rng;
use std::collections::VecDeque;

/// A good kernel of a random frame with short segments.
pub fn kernel(rng: &mut Rng) -> Kernel {
    let frame = frame(rng);
    framed(rng, frame)
}

/// A good kernel of a given frame with short segments.
pub fn framed(rng: &mut Rng, frame: Frame) -> Kernel {
    let lengths: Vec<usize> = (0..frame.tasks).map(|_| segment_length(rng)).collect();
    kernel_of(rng, frame, &lengths)
}

/// A good kernel whose image has exactly `total` words: one task has all that
/// the others leave.
pub fn with_total(rng: &mut Rng, frame: Frame, total: usize) -> Kernel {
    let mut lengths = vec![1; frame.tasks];
    let used = Layout::new(frame).first_segment + frame.tasks;
    lengths[rng.below(frame.tasks)] += total - used;
    kernel_of(rng, frame, &lengths)
}

/// The fresh kernel of a random plan.
pub fn fresh(rng: &mut Rng) -> Kernel {
    let draft = Draft::random(rng);
    let kernel = plan::accept(&draft.words()).expect("the plan is good");
    assert_good(&kernel);
    kernel
}

/// A frame in which small numbers are common and large ones occur.
pub fn frame(rng: &mut Rng) -> Frame {
    let tasks = match rng.below(100) {
        0..=29 => 1,
        30..=62 => 2,
        63..=88 => 3,
        89..=95 => 4,
        96..=98 => rng.between(5, 8),
        _ => *rng.pick(&[9, 12, LARGEST_TASKS, LARGEST_TASKS]),
    };
    let any = rng.any_word().max(1);
    let slice = *rng.pick(&[1, 2, 3, 65535, any]);
    let [input, output, message] = [(); 3].map(|()| capacity(rng));
    Frame { tasks, slice, input, output, message }
}

fn capacity(rng: &mut Rng) -> usize {
    match rng.below(100) {
        0..=39 => 1,
        40..=69 => 2,
        70..=84 => 3,
        85..=96 => rng.between(4, 6),
        _ => *rng.pick(&[8, 16, 31, 32]),
    }
}

/// A length in which small numbers are common.
pub fn segment_length(rng: &mut Rng) -> usize {
    let most = *rng.pick(&[1, 4, 12, 30]);
    rng.between(1, most)
}

/// A good kernel of a given frame and segment lengths. Buffers are filled
/// first, and each task then takes a status that they allow.
fn kernel_of(rng: &mut Rng, frame: Frame, lengths: &[usize]) -> Kernel {
    let n = frame.tasks;
    let mut kernel = Kernel {
        slice: frame.slice,
        clock: 0,
        ready: queue(rng, n, 0, Rng::word),
        tasks: lengths.iter().map(|&length| task(rng, &frame, length)).collect(),
        messages: (0..n).map(|_| (0..n).map(|_| buffer(rng, frame.message, Rng::word)).collect()).collect(),
    };
    let wishes: &[u16] = match rng.below(10) {
        0 => &[0],
        1 => &[1, 2, 3, 4, 5],
        2 => &[1, 2, 1, 2, 0],
        _ => &[0, 1, 2, 3, 4, 5],
    };
    (0..n).for_each(|me| settle(rng, &mut kernel, me, wishes));
    line_up(rng, &mut kernel);
    assert_good(&kernel);
    kernel
}

fn assert_good(kernel: &Kernel) {
    let words = kernel.encode();
    let number = check(&words);
    assert_eq!(number, numbers::GOOD, "a generated image is not good: {words:?}");
}

/// A task with random registers, buffers, port and segment, still without a
/// status of its own.
fn task(rng: &mut Rng, frame: &Frame, length: usize) -> Task {
    let idle = rng.percent(40);
    let port = if idle { Port::default() } else { Port::printing(rng.character()) };
    let output =
        if idle { queue(rng, frame.output, 0, Rng::character) } else { buffer(rng, frame.output, Rng::character) };
    Task {
        registers: [(); 8].map(|()| rng.word()),
        flags: Flags { cc: word(rng.below(3)), error: 0, pending: 0 },
        status: status::READY,
        peer: 0,
        input: buffer(rng, frame.input, Rng::character),
        output,
        port,
        segment: (0..length).map(|_| rng.word()).collect(),
    }
}

/// A queue of any length; empty and full ones are common.
fn buffer(rng: &mut Rng, capacity: usize, held: fn(&mut Rng) -> u16) -> Queue {
    let any = rng.below(capacity + 1);
    let length = *rng.pick(&[0, capacity, any]);
    queue(rng, capacity, length, held)
}

/// A queue with its head anywhere.
fn queue(rng: &mut Rng, capacity: usize, length: usize, held: fn(&mut Rng) -> u16) -> Queue {
    Queue {
        head: rng.below(capacity),
        held: (0..length).map(|_| held(rng)).collect::<VecDeque<_>>(),
        free: vec![0; capacity - length].into(),
    }
}

/// Gives a task one of the wished statuses that its buffers allow, and all
/// that the rules of that status ask of its flags, peer and registers. One
/// of the wishes is 0 or 5, which all buffers allow.
fn settle(rng: &mut Rng, kernel: &mut Kernel, me: usize, wishes: &[u16]) {
    let allowed: Vec<u16> = wishes.iter().copied().filter(|&wish| allows(kernel, me, wish)).collect();
    let chosen = *rng.pick(&allowed);
    let peers = peers(kernel, me, chosen);
    let task = &mut kernel.tasks[me];
    task.status = chosen;
    match chosen {
        status::READY => unsettle(rng, &mut task.flags),
        status::WAITS_TO_SEND | status::WAITS_TO_RECEIVE => {
            task.peer = *rng.pick(&peers);
            task.registers[2] = task.peer;
            task.flags.pending = chosen;
        }
        status::WAITS_FOR_INPUT => task.flags.pending = service::INPUT,
        status::WAITS_FOR_OUTPUT => {
            task.flags.pending = service::OUTPUT;
            task.registers[3] = rng.character();
        }
        _ => task.flags.error = word(rng.between(1, 6)),
    }
}

/// Gives the flags of a ready task an error, a pending service or neither.
fn unsettle(rng: &mut Rng, flags: &mut Flags) {
    match rng.below(3) {
        0 => flags.error = word(rng.between(1, 6)),
        1 => flags.pending = word(rng.between(1, 4)),
        _ => {}
    }
}

fn allows(kernel: &Kernel, me: usize, wish: u16) -> bool {
    match wish {
        status::WAITS_TO_SEND | status::WAITS_TO_RECEIVE => !peers(kernel, me, wish).is_empty(),
        status::WAITS_FOR_INPUT => kernel.tasks[me].input.is_empty(),
        status::WAITS_FOR_OUTPUT => kernel.tasks[me].output.is_full(),
        _ => true,
    }
}

/// The peers, itself included, for which a task can wait in this status.
fn peers(kernel: &Kernel, me: usize, wish: u16) -> Vec<u16> {
    let fits = |&peer: &usize| match wish {
        status::WAITS_TO_SEND => kernel.messages[me][peer].is_full(),
        status::WAITS_TO_RECEIVE => kernel.messages[peer][me].is_empty(),
        _ => false,
    };
    (0..kernel.tasks.len()).filter(fits).map(word).collect()
}

/// Puts the ready tasks into the empty ready queue, in any order, and sets a
/// clock that fits it.
pub fn line_up(rng: &mut Rng, kernel: &mut Kernel) {
    let is_ready = |&i: &usize| kernel.tasks[i].status == status::READY;
    let mut ready: Vec<usize> = (0..kernel.tasks.len()).filter(is_ready).collect();
    rng.shuffle(&mut ready);
    ready.into_iter().for_each(|task| kernel.ready.append(word(task)));
    let most = if kernel.ready.is_empty() { 0 } else { kernel.slice };
    let any = word(rng.below(usize::from(most) + 1));
    kernel.clock = *rng.pick(&[0, most, any]);
}

#[cfg(test)]
mod tests {
    use super::*;
    use crate::which::Which;

    /// How many images are looked at, and the least that there is of each thing
    /// in each sort of queue.
    const IMAGES: usize = 500;
    const OFTEN: usize = 20;

    #[test]
    fn zeros_and_other_words_are_held_beside_free_slots() {
        let mut rng = Rng::new(6);
        let (mut zeros, mut others) = ([0; 4], [0; 4]);
        for kernel in (0..IMAGES).map(|_| kernel(&mut rng)) {
            for which in Which::all(kernel.tasks.len()) {
                let queue = which.of(&kernel);
                let sort = usize::from(which.words()[0]);
                zeros[sort] += usize::from(queue.held.contains(&0) && !queue.is_full());
                others[sort] += usize::from(queue.held.iter().any(|&word| word != 0) && !queue.is_full());
            }
        }
        assert!(zeros.iter().chain(&others).all(|&queues| queues >= OFTEN), "{zeros:?} {others:?}");
    }
}
