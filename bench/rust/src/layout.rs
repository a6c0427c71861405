//! Counts, capacities and the places of the parts.

pub const HEADER_WORDS: usize = 18;
pub const ROW_WORDS: usize = 9;
pub const LARGEST_TOTAL: usize = 32768;
pub const MOST_CAPACITY: usize = 32;
pub const LARGEST_CHARACTER: u16 = 255;
pub const MARK: u16 = 19284;
pub const EDITION: u16 = 1;

/// Words of the header.
pub const TOTAL: usize = 16;
pub const CLOCK: usize = 17;

/// Words of a task's row.
pub const NEXT: usize = 0;
pub const STACK: usize = 1;
pub const PEER: usize = 2;
pub const WORD: usize = 3;
pub const FLAGS: usize = 8;

/// What one error and one pending service count in the flags.
pub const ERROR_UNIT: u16 = 4;
pub const PENDING_UNIT: u16 = 32;

/// The error in a task's flags.
#[inline(always)]
pub fn error_of(flags: u16) -> u16 {
    flags / ERROR_UNIT % 8
}

/// A task's status.
pub mod status {
    pub const READY: u16 = 0;
    pub const WAITS_TO_SEND: u16 = 1;
    pub const WAITS_TO_RECEIVE: u16 = 2;
    pub const WAITS_FOR_INPUT: u16 = 3;
    pub const WAITS_FOR_OUTPUT: u16 = 4;
    pub const STOPPED: u16 = 5;
}

/// A pending service.
pub mod service {
    pub const SEND: u16 = 1;
    pub const RECEIVE: u16 = 2;
    pub const INPUT: u16 = 3;
    pub const OUTPUT: u16 = 4;
}

/// The kinds of answer.
pub mod answer {
    pub const IDLE: u16 = 0;
    pub const ERROR_STOP: u16 = 1;
    pub const TURN_PASSED: u16 = 2;
    pub const SERVICE_DONE: u16 = 3;
    pub const SERVICE_WAITS: u16 = 4;
    pub const SERVICE_FAULTED: u16 = 5;
    pub const ORDER_DONE: u16 = 6;
    pub const ORDER_FAULTED: u16 = 7;
    pub const INPUT: u16 = 8;
    pub const OUTPUT_DONE: u16 = 9;
}

/// Where everything stands, fixed by the header.
pub struct Layout {
    pub tasks: usize,
    pub slice: u16,
    pub input_capacity: usize,
    pub output_capacity: usize,
    pub message_capacity: usize,
    pub rows: usize,
    pub ready: usize,
    pub status: usize,
    pub inputs: usize,
    pub outputs: usize,
    pub messages: usize,
    pub ports: usize,
    pub segments: usize,
    pub first_segment: usize,
}

impl Layout {
    /// The layout for N, S, CI, CO, CM, if each is in its range.
    #[inline]
    pub fn new(frame: [u16; 5]) -> Option<Layout> {
        let [n, slice, ci, co, cm] = frame;
        let fits = |capacity: u16| (1..=32).contains(&capacity);
        if !(1..=16).contains(&n) || slice == 0 || !fits(ci) || !fits(co) || !fits(cm) {
            return None;
        }
        let [tasks, ci, co, cm] = [n, ci, co, cm].map(usize::from);
        let rows = HEADER_WORDS;
        let ready = rows + ROW_WORDS * tasks;
        let status = ready + 4 + tasks;
        let inputs = status + 2 * tasks;
        let outputs = inputs + tasks * (4 + ci);
        let messages = outputs + tasks * (4 + co);
        let ports = messages + tasks * tasks * (4 + cm);
        let segments = ports + 2 * tasks;
        Some(Layout {
            tasks,
            slice,
            input_capacity: ci,
            output_capacity: co,
            message_capacity: cm,
            rows,
            ready,
            status,
            inputs,
            outputs,
            messages,
            ports,
            segments,
            first_segment: segments + 2 * tasks,
        })
    }

    /// Words 7..15 of the header.
    #[inline]
    pub fn offsets(&self) -> [u16; 9] {
        [
            self.rows,
            self.ready,
            self.status,
            self.inputs,
            self.outputs,
            self.messages,
            self.ports,
            self.segments,
            self.first_segment,
        ]
        .map(|place| place as u16)
    }

    /// The place of a task's row.
    #[inline]
    pub fn row(&self, task: usize) -> usize {
        self.rows + ROW_WORDS * task
    }

    /// The place of a task's input buffer.
    #[inline]
    pub fn input(&self, task: usize) -> usize {
        self.inputs + task * (4 + self.input_capacity)
    }

    /// The place of a task's output buffer.
    #[inline]
    pub fn output(&self, task: usize) -> usize {
        self.outputs + task * (4 + self.output_capacity)
    }

    /// The place of the message buffer between two tasks.
    #[inline]
    pub fn message(&self, from: usize, to: usize) -> usize {
        self.messages + (from * self.tasks + to) * (4 + self.message_capacity)
    }

    /// The place of a task's pair in the segment table.
    #[inline]
    pub fn segment(&self, task: usize) -> usize {
        self.segments + 2 * task
    }
}
