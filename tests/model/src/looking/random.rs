//! Random looks, most of them at what is there.

use super::{Group, Look};
use crate::cases::{LARGEST, PAIR};
use crate::events::happen;
use crate::good;
use crate::happening::{event, is_dead, many};
use crate::image::Kernel;
use crate::layout::{word, LARGEST_CAPACITY, LARGEST_TASKS, LARGEST_TOTAL};
use crate::rng::Rng;
use crate::which::{Which, INPUT, MESSAGE, OUTPUT};

/// How many registers a task has, and how many sorts of queues there are.
const REGISTERS: usize = 8;
const SORTS: usize = 4;

/// In how many of a hundred cases a number is one of what is there, and a word
/// that a queue does not need is 0.
const THERE: usize = 75;
const UNUSED: usize = 88;

/// How often each call is made, and those on queues more.
const TIMES: usize = 2;
const TIMES_ON_QUEUES: usize = 4;

/// The most events that happen before an image is looked into.
const MOST_EVENTS: usize = 60;

/// A good kernel of any state, or one after some events.
pub fn kernel(rng: &mut Rng) -> Kernel {
    if rng.percent(40) {
        return good::kernel(rng);
    }
    let (mut kernel, most) = many::kernel(rng);
    for _ in 0..rng.below(most.min(MOST_EVENTS)) {
        if is_dead(&kernel) {
            break;
        }
        // A refused event changes nothing.
        let next = event(rng, &kernel);
        let _ = happen(&mut kernel, next);
    }
    kernel
}

/// Looks into images of the largest tables and of the largest T.
pub fn large(rng: &mut Rng) -> Vec<Group> {
    let kernels = [good::framed(rng, LARGEST), good::with_total(rng, PAIR, LARGEST_TOTAL)];
    kernels.iter().map(|kernel| Group::judged(kernel.encode(), looks(rng, kernel))).collect()
}

/// Looks of every call for the image of a kernel, or one made from it.
pub fn looks(rng: &mut Rng, kernel: &Kernel) -> Vec<Look> {
    let tasks = kernel.tasks.len();
    let mut looks = Vec::new();
    for _ in 0..TIMES {
        looks.push(Look::Task { task: number(rng, tasks) });
        looks.push(Look::Port { device: number(rng, tasks) });
        looks.push(Look::Register { task: number(rng, tasks), register: number(rng, REGISTERS) });
    }
    for _ in 0..TIMES_ON_QUEUES {
        let [queue, i, j] = named_queue(rng, tasks);
        looks.push(Look::QueueLength { queue, i, j });
        let [queue, i, j] = queue_with_words(rng, kernel).unwrap_or([queue, i, j]);
        looks.push(Look::QueueWord { queue, i, j, at: place(rng, kernel, [queue, i, j]) });
    }
    looks
}

/// A number below a limit, or one of several that are not.
fn number(rng: &mut Rng, limit: usize) -> u16 {
    let below = word(rng.below(limit));
    if rng.percent(THERE) {
        return below;
    }
    let limit = word(limit);
    let any = rng.any_word().max(limit);
    *rng.pick(&[limit, limit, limit + 1, word(LARGEST_TASKS), below + 256, below + 32768, 65535, any])
}

/// The three words of a queue, most often of one that is there.
fn named_queue(rng: &mut Rng, tasks: usize) -> [u16; 3] {
    let queue = number(rng, SORTS);
    let mut used = |wanted: &[u16]| if wanted.contains(&queue) { number(rng, tasks) } else { unused(rng, tasks) };
    [queue, used(&[INPUT, OUTPUT, MESSAGE]), used(&[MESSAGE])]
}

/// The three words of a queue that holds something, most often, if there is one.
fn queue_with_words(rng: &mut Rng, kernel: &Kernel) -> Option<[u16; 3]> {
    let all = Which::all(kernel.tasks.len()).into_iter();
    let holding: Vec<Which> = all.filter(|which| !which.of(kernel).is_empty()).collect();
    (!holding.is_empty() && rng.percent(THERE)).then(|| rng.pick(&holding).words())
}

/// A word that a queue does not need, most often 0.
fn unused(rng: &mut Rng, tasks: usize) -> u16 {
    if rng.percent(UNUSED) {
        0
    } else {
        *rng.pick(&[1, word(tasks - 1), 65535])
    }
}

/// A place in a queue: the first, the last, the one after it, or another.
fn place(rng: &mut Rng, kernel: &Kernel, [queue, i, j]: [u16; 3]) -> u16 {
    let which = Which::named(kernel.tasks.len(), queue, i, j).unwrap_or(Which::Ready);
    let length = which.of(kernel).held.len();
    let inside = word(rng.below(length.max(1)));
    let last = word(length.saturating_sub(1));
    let any = number(rng, LARGEST_CAPACITY);
    *rng.pick(&[0, inside, inside, last, word(length), any])
}
