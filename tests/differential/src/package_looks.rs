//! The looks through the Rust package, which tells them in types of its own. A queue that these have no value for cannot
//! be asked for.

use kernel::{Broken, Port, Queue, Refusal, Subject, Task};
use model::looking::{Look, Seen};
use model::numbers::{GOOD, NOT_THERE, OTHER_RULE};
use model::which::{INPUT, MESSAGE, OUTPUT, READY};
use std::cmp::Ordering;

/// Looks into an image, if the package can be asked to.
pub fn seen(look: Look, image: &[u16]) -> Option<Seen> {
    Some(match look {
        Look::Task { task } => found(kernel::task(image, task), task_fields),
        Look::Port { device } => found(kernel::port(image, device), port_fields),
        Look::Register { task, register } => found(kernel::register(image, task, register), |word| [word]),
        Look::QueueLength { queue, i, j } => {
            found(kernel::queue_length(image, named([queue, i, j])?), |length| [length])
        }
        Look::QueueWord { queue, i, j, at } => {
            found(kernel::queue_word(image, named([queue, i, j])?, at), |word| [word])
        }
        Look::BrokenRule => match kernel::broken_rule(image) {
            Ok(None) => Seen::new(GOOD, [NOT_THERE; 4]),
            Ok(Some(broken)) => Seen::new(OTHER_RULE, broken_fields(broken)),
            Err(refusal) => Seen::new(refusal.number(), [NOT_THERE; 4]),
        },
    })
}

/// What is found by its fields, or that it is not there, or the refusal's number.
fn found<T, const N: usize>(found: Result<Option<T>, Refusal>, fields: fn(T) -> [u16; N]) -> Seen {
    let there = found.map_err(Refusal::number).and_then(|value| value.ok_or(NOT_THERE));
    Seen::of(there.map(fields))
}

fn task_fields(task: Task) -> [u16; 5] {
    let cc = match task.cc {
        Ordering::Equal => 0,
        Ordering::Less => 1,
        Ordering::Greater => 2,
    };
    let error = task.error.map_or(0, |error| error.number());
    let pending = task.pending.map_or(0, |service| service.number());
    [task.status.number(), task.peer.unwrap_or(0), cc, error, pending]
}

fn port_fields(port: Port) -> [u16; 2] {
    match port {
        Port::Idle => [0, 0],
        Port::Busy(character) => [1, character.into()],
    }
}

fn broken_fields(broken: Broken) -> [u16; 4] {
    let [queue, i, j] = match broken.subject {
        Subject::Clock => [NOT_THERE; 3],
        Subject::Task(task) => [NOT_THERE, task, NOT_THERE],
        Subject::Queue(Queue::Ready) => [READY, 0, 0],
        Subject::Queue(Queue::Input(task)) => [INPUT, task, 0],
        Subject::Queue(Queue::Output(task)) => [OUTPUT, task, 0],
        Subject::Queue(Queue::Messages { from, to }) => [MESSAGE, from, to],
    };
    [broken.rule.number(), queue, i, j]
}

/// The package's value for a queue, if it has one.
fn named(words: [u16; 3]) -> Option<Queue> {
    match words {
        [READY, 0, 0] => Some(Queue::Ready),
        [INPUT, task, 0] => Some(Queue::Input(task)),
        [OUTPUT, task, 0] => Some(Queue::Output(task)),
        [MESSAGE, from, to] => Some(Queue::Messages { from, to }),
        _ => None,
    }
}
