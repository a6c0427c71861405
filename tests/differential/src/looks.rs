//! The calls of the C library that look into an image, declared here as `include/kernel.h` has them.

use crate::lent::Lent;
use model::looking::{Look, Seen};

/// What `kernel_task` gives.
#[repr(C)]
struct Task {
    number: u16,
    status: u16,
    peer: u16,
    cc: u16,
    error: u16,
    pending: u16,
}

/// What `kernel_port` gives.
#[repr(C)]
struct Port {
    number: u16,
    busy: u16,
    character: u16,
}

/// What `kernel_register`, `kernel_queue_length` and `kernel_queue_word` give.
#[repr(C)]
struct Word {
    number: u16,
    word: u16,
}

/// What `kernel_broken_rule` gives.
#[repr(C)]
struct Broken {
    number: u16,
    rule: u16,
    queue: u16,
    i: u16,
    j: u16,
}

extern "C" {
    fn kernel_task(image: *const u16, words: usize, task: u16) -> Task;
    fn kernel_port(image: *const u16, words: usize, device: u16) -> Port;
    fn kernel_register(image: *const u16, words: usize, task: u16, r: u16) -> Word;
    fn kernel_queue_length(image: *const u16, words: usize, queue: u16, i: u16, j: u16) -> Word;
    fn kernel_queue_word(image: *const u16, words: usize, queue: u16, i: u16, j: u16, at: u16) -> Word;
    fn kernel_broken_rule(image: *const u16, words: usize) -> Broken;
}

/// Looks into an image that is lent.
pub fn seen(look: Look, image: &mut Lent<u16>) -> Seen {
    let (pointer, words) = (image.pointer(), image.len());
    // SAFETY: the pointer leads to as many words as the length says, and nobody else has them during the call.
    unsafe {
        match look {
            Look::Task { task } => of_task(kernel_task(pointer, words, task)),
            Look::Port { device } => of_port(kernel_port(pointer, words, device)),
            Look::Register { task, register } => of_word(kernel_register(pointer, words, task, register)),
            Look::QueueLength { queue, i, j } => of_word(kernel_queue_length(pointer, words, queue, i, j)),
            Look::QueueWord { queue, i, j, at } => of_word(kernel_queue_word(pointer, words, queue, i, j, at)),
            Look::BrokenRule => of_rule(kernel_broken_rule(pointer, words)),
        }
    }
}

fn of_task(task: Task) -> Seen {
    Seen::new(task.number, [task.status, task.peer, task.cc, task.error, task.pending])
}

fn of_port(port: Port) -> Seen {
    Seen::new(port.number, [port.busy, port.character])
}

fn of_word(word: Word) -> Seen {
    Seen::new(word.number, [word.word])
}

fn of_rule(broken: Broken) -> Seen {
    Seen::new(broken.number, [broken.rule, broken.queue, broken.i, broken.j])
}
