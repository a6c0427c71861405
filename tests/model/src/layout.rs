//! The five numbers that fix an image's tables, and where each part stands.

pub const MARK: u16 = 19284;
pub const EDITION: u16 = 1;
pub const HEADER_WORDS: usize = 18;
/// The header word that holds T.
pub const TOTAL: usize = 16;
/// The header word that holds the clock.
pub const CLOCK: usize = 17;
pub const LARGEST_TOTAL: usize = 32768;
pub const LARGEST_TASKS: usize = 16;
pub const LARGEST_CAPACITY: usize = 32;

/// Registers R0..R7 and the flags.
pub const TASK_WORDS: usize = 9;
/// Head, tail, length and capacity, before a queue's slots.
pub const QUEUE_LEAD: usize = 4;

/// N, S, CI, CO and CM, each in its range. They open a plan, and they are
/// words 2 to 6 of an image.
#[derive(Clone, Copy, Debug, PartialEq, Eq)]
pub struct Frame {
    pub tasks: usize,
    pub slice: u16,
    pub input: usize,
    pub output: usize,
    pub message: usize,
}

impl Frame {
    /// The frame in the first five words, if each number is in its range.
    pub fn read(words: &[u16]) -> Option<Frame> {
        let &[tasks, slice, input, output, message] = words.first_chunk::<5>()?;
        let frame = Frame {
            tasks: usize::from(tasks),
            slice,
            input: usize::from(input),
            output: usize::from(output),
            message: usize::from(message),
        };
        frame.in_range().then_some(frame)
    }

    fn in_range(&self) -> bool {
        let capacities = [self.input, self.output, self.message];
        (1..=LARGEST_TASKS).contains(&self.tasks)
            && self.slice >= 1
            && capacities.iter().all(|c| (1..=LARGEST_CAPACITY).contains(c))
    }

    /// The five words, in the order in which they are read.
    pub fn words(&self) -> [u16; 5] {
        let [tasks, input, output, message] = [self.tasks, self.input, self.output, self.message].map(word);
        [tasks, self.slice, input, output, message]
    }
}

/// The packed offset of every part of an image.
#[derive(Clone, Copy, Debug)]
pub struct Layout {
    pub frame: Frame,
    pub task_table: usize,
    pub ready_queue: usize,
    pub status_table: usize,
    pub inputs: usize,
    pub outputs: usize,
    pub messages: usize,
    pub ports: usize,
    pub segment_table: usize,
    pub first_segment: usize,
}

impl Layout {
    pub fn new(frame: Frame) -> Layout {
        let n = frame.tasks;
        let task_table = HEADER_WORDS;
        let ready_queue = task_table + TASK_WORDS * n;
        let status_table = ready_queue + queue_words(n);
        let inputs = status_table + 2 * n;
        let outputs = inputs + n * queue_words(frame.input);
        let messages = outputs + n * queue_words(frame.output);
        let ports = messages + n * n * queue_words(frame.message);
        let segment_table = ports + 2 * n;
        let first_segment = segment_table + 2 * n;
        Layout {
            frame,
            task_table,
            ready_queue,
            status_table,
            inputs,
            outputs,
            messages,
            ports,
            segment_table,
            first_segment,
        }
    }

    /// Words 7 to 15 of the header.
    pub fn offsets(&self) -> [u16; 9] {
        [
            self.task_table,
            self.ready_queue,
            self.status_table,
            self.inputs,
            self.outputs,
            self.messages,
            self.ports,
            self.segment_table,
            self.first_segment,
        ]
        .map(word)
    }

    /// The place of a task's registers.
    pub fn task(&self, task: usize) -> usize {
        self.task_table + TASK_WORDS * task
    }

    /// The place of a task's status flag, which its peer follows.
    pub fn status(&self, task: usize) -> usize {
        self.status_table + 2 * task
    }

    /// The place of a task's input buffer.
    pub fn input(&self, task: usize) -> usize {
        self.inputs + task * queue_words(self.frame.input)
    }

    /// The place of a task's output buffer.
    pub fn output(&self, task: usize) -> usize {
        self.outputs + task * queue_words(self.frame.output)
    }

    /// The place of the message buffer from one task to another.
    pub fn message(&self, from: usize, to: usize) -> usize {
        self.messages + (from * self.frame.tasks + to) * queue_words(self.frame.message)
    }

    /// The place of a task's port: busy, then character.
    pub fn port(&self, task: usize) -> usize {
        self.ports + 2 * task
    }

    /// The place of a task's segment entry: base, then length.
    pub fn segment(&self, task: usize) -> usize {
        self.segment_table + 2 * task
    }
}

/// How many words a queue of this capacity takes.
pub fn queue_words(capacity: usize) -> usize {
    QUEUE_LEAD + capacity
}

/// A number that is known to fit in one word.
pub fn word(number: usize) -> u16 {
    u16::try_from(number).expect("the number fits in a word")
}

#[cfg(test)]
mod tests {
    use super::*;

    fn layout(words: [u16; 5]) -> Layout {
        Layout::new(Frame::read(&words).expect("a frame in range"))
    }

    #[test]
    fn the_papers_plan_has_the_papers_offsets() {
        assert_eq!(layout([1, 2, 1, 1, 1]).offsets(), [18, 27, 32, 34, 39, 44, 49, 51, 53]);
    }

    #[test]
    fn the_largest_first_segment_is_at_10646() {
        assert_eq!(layout([16, 1, 32, 32, 32]).first_segment, 10646);
    }

    #[test]
    fn each_message_buffer_has_its_own_place() {
        let layout = layout([3, 1, 1, 1, 2]);
        assert_eq!(layout.message(0, 0), layout.messages);
        assert_eq!(layout.message(1, 2), layout.messages + 5 * 6);
        assert_eq!(layout.message(2, 2) + 6, layout.ports);
    }

    #[test]
    fn ranges_end_where_the_paper_says() {
        assert!(Frame::read(&[1, 1, 1, 1, 1]).is_some());
        assert!(Frame::read(&[16, 65535, 32, 32, 32]).is_some());
        let outside = [
            [0, 1, 1, 1, 1],
            [17, 1, 1, 1, 1],
            [1, 0, 1, 1, 1],
            [1, 1, 0, 1, 1],
            [1, 1, 33, 1, 1],
            [1, 1, 1, 0, 1],
            [1, 1, 1, 33, 1],
            [1, 1, 1, 1, 0],
            [1, 1, 1, 1, 33],
        ];
        assert!(outside.iter().all(|words| Frame::read(words).is_none()));
    }
}
