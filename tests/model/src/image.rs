//! The kernel that an image stands for: decoding and encoding.

use crate::layout::{word, Frame, Layout, CLOCK, EDITION, MARK, TASK_WORDS};
use crate::queue::Queue;

/// The largest character of a device.
pub const LARGEST_CHARACTER: u16 = 255;

/// A whole kernel. The buffer from task i to task j is `messages[i][j]`.
#[derive(Clone, Debug, PartialEq, Eq)]
pub struct Kernel {
    pub slice: u16,
    pub clock: u16,
    pub ready: Queue,
    pub tasks: Vec<Task>,
    pub messages: Vec<Vec<Queue>>,
}

/// A task with all that belongs to it alone, its device included.
#[derive(Clone, Debug, PartialEq, Eq)]
pub struct Task {
    pub registers: [u16; 8],
    pub flags: Flags,
    pub status: u16,
    pub peer: u16,
    pub input: Queue,
    pub output: Queue,
    pub port: Port,
    pub segment: Vec<u16>,
}

/// The flags word, cc + 4 x error + 32 x pending.
#[derive(Clone, Copy, Debug, Default, PartialEq, Eq)]
pub struct Flags {
    pub cc: u16,
    pub error: u16,
    pub pending: u16,
}

#[derive(Clone, Copy, Debug, Default, PartialEq, Eq)]
pub struct Port {
    pub busy: u16,
    pub character: u16,
}

/// The values of the status flag.
pub mod status {
    pub const READY: u16 = 0;
    pub const WAITS_TO_SEND: u16 = 1;
    pub const WAITS_TO_RECEIVE: u16 = 2;
    pub const WAITS_FOR_INPUT: u16 = 3;
    pub const WAITS_FOR_OUTPUT: u16 = 4;
    pub const STOPPED: u16 = 5;
}

/// The numbers of the services, which pending holds.
pub mod service {
    pub const SEND: u16 = 1;
    pub const RECEIVE: u16 = 2;
    pub const INPUT: u16 = 3;
    pub const OUTPUT: u16 = 4;
}

impl Flags {
    pub fn decode(word: u16) -> Flags {
        Flags { cc: word % 4, error: word / 4 % 8, pending: word / 32 }
    }

    pub fn encode(&self) -> u16 {
        self.cc + 4 * self.error + 32 * self.pending
    }
}

impl Port {
    /// A busy port with this character.
    pub fn printing(character: u16) -> Port {
        Port { busy: 1, character }
    }

    pub fn is_idle(&self) -> bool {
        self.busy == 0
    }
}

impl Task {
    /// Task `i` of an image, or nothing where one of its buffers is unsound.
    fn decode(words: &[u16], layout: &Layout, i: usize, segment: Vec<u16>) -> Option<Task> {
        let entry = &words[layout.task(i)..layout.task(i) + TASK_WORDS];
        let port = layout.port(i);
        Some(Task {
            registers: *entry.first_chunk()?,
            flags: Flags::decode(entry[8]),
            status: words[layout.status(i)],
            peer: words[layout.status(i) + 1],
            input: Queue::decode(&words[layout.input(i)..], layout.frame.input)?,
            output: Queue::decode(&words[layout.output(i)..], layout.frame.output)?,
            port: Port { busy: words[port], character: words[port + 1] },
            segment,
        })
    }
}

impl Kernel {
    /// The kernel in an image that numbers 1 to 5 do not refuse, or nothing
    /// where a queue's leading words break a rule.
    pub fn decode(words: &[u16], layout: &Layout) -> Option<Kernel> {
        let n = layout.frame.tasks;
        let tasks =
            segments(words, layout).into_iter().enumerate().map(|(i, segment)| Task::decode(words, layout, i, segment));
        let message = |from, to| Queue::decode(&words[layout.message(from, to)..], layout.frame.message);
        Some(Kernel {
            slice: layout.frame.slice,
            clock: words[CLOCK],
            ready: Queue::decode(&words[layout.ready_queue..], n)?,
            tasks: tasks.collect::<Option<_>>()?,
            messages: (0..n).map(|from| (0..n).map(|to| message(from, to)).collect()).collect::<Option<_>>()?,
        })
    }

    /// The image's words, every part packed after the one before.
    pub fn encode(&self) -> Vec<u16> {
        let mut words = self.header();
        for task in &self.tasks {
            words.extend(task.registers);
            words.push(task.flags.encode());
        }
        words.extend(self.ready.encode());
        words.extend(self.tasks.iter().flat_map(|t| [t.status, t.peer]));
        words.extend(self.tasks.iter().flat_map(|t| t.input.encode()));
        words.extend(self.tasks.iter().flat_map(|t| t.output.encode()));
        words.extend(self.messages.iter().flatten().flat_map(Queue::encode));
        words.extend(self.tasks.iter().flat_map(|t| [t.port.busy, t.port.character]));
        words.extend(self.segment_table());
        words.extend(self.tasks.iter().flat_map(|t| &t.segment));
        words
    }

    fn header(&self) -> Vec<u16> {
        let layout = self.layout();
        let mut words = vec![MARK, EDITION];
        words.extend(layout.frame.words());
        words.extend(layout.offsets());
        words.extend([word(self.total()), self.clock]);
        words
    }

    fn segment_table(&self) -> Vec<u16> {
        let entry = |(i, task): (usize, &Task)| [self.base(i), task.segment.len()].map(word);
        self.tasks.iter().enumerate().flat_map(entry).collect()
    }

    pub fn layout(&self) -> Layout {
        Layout::new(Frame {
            tasks: self.tasks.len(),
            slice: self.slice,
            input: self.tasks[0].input.capacity(),
            output: self.tasks[0].output.capacity(),
            message: self.messages[0][0].capacity(),
        })
    }

    /// The place of the first word of task `i`'s segment; of the count of
    /// tasks, the image's end.
    pub fn base(&self, i: usize) -> usize {
        let before: usize = self.tasks[..i].iter().map(|t| t.segment.len()).sum();
        self.layout().first_segment + before
    }

    /// T, the image's count of words.
    pub fn total(&self) -> usize {
        self.base(self.tasks.len())
    }
}

/// The segments' words, in task order.
fn segments(words: &[u16], layout: &Layout) -> Vec<Vec<u16>> {
    let mut rest = &words[layout.first_segment..];
    let mut segments = Vec::new();
    for i in 0..layout.frame.tasks {
        let length = usize::from(words[layout.segment(i) + 1]);
        let (segment, others) = rest.split_at(length);
        segments.push(segment.to_vec());
        rest = others;
    }
    segments
}

#[cfg(test)]
mod tests {
    use super::*;
    use crate::good;
    use crate::rng::Rng;

    #[test]
    fn every_flags_word_comes_back() {
        assert!((0..=65535).all(|word| Flags::decode(word).encode() == word));
    }

    #[test]
    fn encoding_and_decoding_undo_each_other() {
        let mut rng = Rng::new(1);
        for _ in 0..200 {
            let kernel = good::kernel(&mut rng);
            let words = kernel.encode();
            let back = Kernel::decode(&words, &kernel.layout()).expect("sound queues");
            assert_eq!(back, kernel);
            assert_eq!(back.encode(), words);
        }
    }
}
