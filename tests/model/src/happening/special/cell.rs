//! The words of an image by their names.

use crate::image::Kernel;
use crate::layout::{CLOCK, QUEUE_LEAD};

/// A queue's words that change, counted from its head; then come its slots.
pub const HEAD: usize = 0;
pub const TAIL: usize = 1;
pub const LENGTH: usize = 2;
pub const SLOT: usize = QUEUE_LEAD;

/// One word of an image.
#[derive(Clone, Copy, Debug)]
pub enum Cell {
    Clock,
    /// A task and a register.
    R(usize, usize),
    Flags(usize),
    /// A word of the ready queue.
    Ready(usize),
    Status(usize),
    Peer(usize),
    /// A task and a word of its input buffer.
    Input(usize, usize),
    /// A task and a word of its output buffer.
    Output(usize, usize),
    /// A sender, a receiver and a word of their message buffer.
    Message(usize, usize, usize),
    Busy(usize),
    Character(usize),
}

/// The word of a task's entry that holds the flags.
const FLAGS: usize = 8;

impl Cell {
    /// The word's place in the image of a kernel.
    pub fn place(self, kernel: &Kernel) -> usize {
        let layout = kernel.layout();
        match self {
            Cell::Clock => CLOCK,
            Cell::R(task, register) => layout.task(task) + register,
            Cell::Flags(task) => layout.task(task) + FLAGS,
            Cell::Ready(k) => layout.ready_queue + k,
            Cell::Status(task) => layout.status(task),
            Cell::Peer(task) => layout.status(task) + 1,
            Cell::Input(task, k) => layout.input(task) + k,
            Cell::Output(task, k) => layout.output(task) + k,
            Cell::Message(from, to, k) => layout.message(from, to) + k,
            Cell::Busy(task) => layout.port(task),
            Cell::Character(task) => layout.port(task) + 1,
        }
    }
}
