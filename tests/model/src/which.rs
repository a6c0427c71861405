//! The queues of an image by name, in the order in which they are gone through.

use crate::image::Kernel;
use crate::layout::{word, Layout};
use crate::queue::Queue;

/// The first of the three words that name a queue.
pub const READY: u16 = 0;
pub const INPUT: u16 = 1;
pub const OUTPUT: u16 = 2;
pub const MESSAGE: u16 = 3;

/// One of the queues.
#[derive(Clone, Copy, Debug, PartialEq, Eq)]
pub enum Which {
    Ready,
    Input(usize),
    Output(usize),
    Message { from: usize, to: usize },
}

impl Which {
    /// Every queue of so many tasks: ready, inputs, outputs, and messages by
    /// sender.
    pub fn all(tasks: usize) -> Vec<Which> {
        let messages = (0..tasks).flat_map(|from| (0..tasks).map(move |to| Which::Message { from, to }));
        let inputs = (0..tasks).map(Which::Input);
        let outputs = (0..tasks).map(Which::Output);
        [Which::Ready].into_iter().chain(inputs).chain(outputs).chain(messages).collect()
    }

    /// The queue that three words name among so many tasks, if there is one.
    pub fn named(tasks: usize, queue: u16, i: u16, j: u16) -> Option<Which> {
        Which::all(tasks).into_iter().find(|which| which.words() == [queue, i, j])
    }

    /// The three words that name it; those that it does not need are 0.
    pub fn words(self) -> [u16; 3] {
        match self {
            Which::Ready => [READY, 0, 0],
            Which::Input(task) => [INPUT, word(task), 0],
            Which::Output(task) => [OUTPUT, word(task), 0],
            Which::Message { from, to } => [MESSAGE, word(from), word(to)],
        }
    }

    /// The queue itself in a kernel that has it.
    pub fn of(self, kernel: &Kernel) -> &Queue {
        match self {
            Which::Ready => &kernel.ready,
            Which::Input(task) => &kernel.tasks[task].input,
            Which::Output(task) => &kernel.tasks[task].output,
            Which::Message { from, to } => &kernel.messages[from][to],
        }
    }

    /// The place of its first word in an image.
    pub fn place(self, layout: &Layout) -> usize {
        match self {
            Which::Ready => layout.ready_queue,
            Which::Input(task) => layout.input(task),
            Which::Output(task) => layout.output(task),
            Which::Message { from, to } => layout.message(from, to),
        }
    }

    /// The capacity that it must have.
    pub fn capacity(self, layout: &Layout) -> usize {
        match self {
            Which::Ready => layout.frame.tasks,
            Which::Input(_) => layout.frame.input,
            Which::Output(_) => layout.frame.output,
            Which::Message { .. } => layout.frame.message,
        }
    }
}

#[cfg(test)]
mod tests {
    use super::*;

    #[test]
    fn queues_go_by_kind_and_then_by_task() {
        let words: Vec<[u16; 3]> = Which::all(2).into_iter().map(Which::words).collect();
        let by_hand = [[0, 0, 0], [1, 0, 0], [1, 1, 0], [2, 0, 0], [2, 1, 0]];
        assert_eq!(words[..5], by_hand);
        assert_eq!(words[5..], [[3, 0, 0], [3, 0, 1], [3, 1, 0], [3, 1, 1]]);
    }

    #[test]
    fn other_words_name_no_queue() {
        assert_eq!(Which::named(2, 3, 1, 0), Some(Which::Message { from: 1, to: 0 }));
        let none = [[0, 1, 0], [0, 0, 1], [1, 2, 0], [1, 0, 1], [2, 2, 0], [2, 1, 1], [3, 0, 2], [3, 2, 0], [4, 0, 0]];
        assert!(none.iter().all(|&[queue, i, j]| Which::named(2, queue, i, j).is_none()));
        assert_eq!(Which::named(16, 1, 16, 0), None);
        assert_eq!(Which::named(16, 65535, 65535, 65535), None);
    }
}
