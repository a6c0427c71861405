//! The functions of the archive themselves, in numbers and pointers. The crate's own calls say what each does; they are
//! safe, and are what a program wants. A pointer must lead to as many words, bytes or counts as the length beside it
//! says, to none where that is 0, the one of a share to one number; and nobody else may write them during the call, nor
//! read what is lent for writing.

/// How many words a plan's image has.
#[repr(C)]
#[derive(Clone, Copy, Debug, PartialEq, Eq)]
pub struct Size {
    /// 0 where the plan is refused.
    pub words: u64,
    /// 0, 3 or 11.
    pub number: u16,
}

/// What an event comes to.
#[repr(C)]
#[derive(Clone, Copy, Debug, PartialEq, Eq)]
pub struct Told {
    /// 0 where the event is accepted, else 1 to 9.
    pub number: u16,
    /// The kind of the answer, or [`NO_ANSWER`].
    pub kind: u16,
    /// The task that the answer is about, or [`NO_ANSWER`].
    pub task: u16,
}

/// How a run ended, or one that counts.
#[repr(C)]
#[derive(Clone, Copy, Debug, PartialEq, Eq)]
pub struct Ran {
    /// How many events were taken.
    pub taken: u64,
    /// 0 where all were, else the number of the refusal that stopped it.
    pub number: u16,
}

/// What a script with its list of names is translated to.
#[repr(C)]
#[derive(Clone, Copy, Debug, PartialEq, Eq)]
pub struct Translated {
    /// How many words the script has, 0 where a line is refused.
    pub words: u64,
    /// 0 where no line is refused, else 13 to 16.
    pub number: u16,
    /// The text of the refused line: [`NAMES`], [`SCRIPT`] or [`NO_TEXT`].
    pub text: u16,
}

/// A refused line, as a part of its text.
#[repr(C)]
#[derive(Clone, Copy, Debug, PartialEq, Eq)]
pub struct Line {
    /// How many bytes of the text stand before it.
    pub start: u64,
    /// How many bytes it has.
    pub bytes: u64,
}

/// What a list of words is printed to.
#[repr(C)]
#[derive(Clone, Copy, Debug, PartialEq, Eq)]
pub struct Printed {
    /// How many bytes the text has, 0 where the list is refused.
    pub bytes: u64,
    /// 0 or 16.
    pub number: u16,
}

/// What stands in an image of a task.
#[repr(C)]
#[derive(Clone, Copy, Debug, PartialEq, Eq)]
pub struct Task {
    /// 0 where the task is there; 1 to 6 as the image is refused, or [`NOT_THERE`]: then so are the other fields.
    pub number: u16,
    /// 0 to 5.
    pub status: u16,
    /// The task that it waits for with status 1 or 2, else 0.
    pub peer: u16,
    /// 0 to 2.
    pub cc: u16,
    /// 0 to 6, 0 where there is none.
    pub error: u16,
    /// The service that is pending, 0 to 4, 0 where none is.
    pub pending: u16,
}

/// What stands in an image of a port.
#[repr(C)]
#[derive(Clone, Copy, Debug, PartialEq, Eq)]
pub struct Port {
    /// 0 where the device is there; 1 to 6 as the image is refused, or [`NOT_THERE`]: then so are the other fields.
    pub number: u16,
    /// 0 or 1.
    pub busy: u16,
    /// 0 to 255.
    pub character: u16,
}

/// A word of an image, or a count.
#[repr(C)]
#[derive(Clone, Copy, Debug, PartialEq, Eq)]
pub struct Word {
    /// 0 where it is there; 1 to 6 as the image is refused, or [`NOT_THERE`].
    pub number: u16,
    /// Any word; 65535 where the number is not 0.
    pub word: u16,
}

/// The first broken rule of an image.
#[repr(C)]
#[derive(Clone, Copy, Debug, PartialEq, Eq)]
pub struct Broken {
    /// 0 to 6, as the image is checked.
    pub number: u16,
    /// 1 to 21 where the number is 6, else [`NOT_THERE`], as the fields below.
    pub rule: u16,
    /// The queue that breaks a rule of queues.
    pub queue: u16,
    /// The task that breaks a rule of tasks, or the queue's first task, 0 where it has none.
    pub i: u16,
    /// The queue's second task, 0 where it has none.
    pub j: u16,
}

/// What is not there: a task, a device, a register, a queue or a place in it; a broken rule or what breaks it.
pub const NOT_THERE: u16 = 65535;

/// The ready queue; i and j are 0.
pub const READY_QUEUE: u16 = 0;

/// The input buffer of task i.
pub const INPUT_BUFFER: u16 = 1;

/// The output buffer of task i.
pub const OUTPUT_BUFFER: u16 = 2;

/// The messages from task i to task j.
pub const MESSAGE_BUFFER: u16 = 3;

/// The cc after a compare of equal words.
pub const EQUAL: u16 = 0;

/// The cc after a compare of a less word with a greater one.
pub const LESS: u16 = 1;

/// The cc after a compare of a greater word with a less one.
pub const GREATER: u16 = 2;

/// The error or the pending service where there is none.
pub const NONE: u16 = 0;

/// The busy of a port that is idle.
pub const IDLE: u16 = 0;

/// The kind and the task of a refused event.
pub const NO_ANSWER: u16 = 65535;

/// The answer where a share is told.
pub const TOLD: u16 = 1;

/// The answer where none is: no ticks were counted, or there are not 97 counts.
pub const NOT_TOLD: u16 = 0;

/// The list of names, as the text of a refused line.
pub const NAMES: u16 = 0;

/// The script, as the text of a refused line.
pub const SCRIPT: u16 = 1;

/// The text where no line is refused.
pub const NO_TEXT: u16 = 65535;

extern "C" {
    /// Checks an image.
    pub fn kernel_check(image: *const u16, words: usize) -> u16;

    /// The size of the image that a plan describes.
    pub fn kernel_size(plan: *const u16, plan_words: usize) -> Size;

    /// Builds the image of a plan in the target.
    pub fn kernel_build(plan: *const u16, plan_words: usize, target: *mut u16, target_words: usize) -> u16;

    /// One event on an image.
    pub fn kernel_event(image: *mut u16, words: usize, kind: u16, device: u16, character: u16) -> Told;

    /// A list of events, one after another, up to the first that is refused.
    pub fn kernel_run(image: *mut u16, words: usize, events: *const u16, event_words: usize) -> Ran;

    /// A run that counts.
    pub fn kernel_report(
        image: *mut u16,
        words: usize,
        events: *const u16,
        event_words: usize,
        counts: *mut u32,
        entries: usize,
    ) -> Ran;

    /// A task's share of all ticks: [`TOLD`], and it is written; or [`NOT_TOLD`].
    pub fn kernel_share(counts: *const u32, entries: usize, task: u16, share: *mut f64) -> u16;

    /// Translates a script with its list of names to words in the target.
    pub fn kernel_translate(
        names: *const u8,
        names_bytes: usize,
        script: *const u8,
        script_bytes: usize,
        target: *mut u16,
        target_words: usize,
    ) -> Translated;

    /// The line that [`kernel_translate`] refuses with a target of so many words.
    pub fn kernel_refused_line(
        names: *const u8,
        names_bytes: usize,
        script: *const u8,
        script_bytes: usize,
        room: u64,
    ) -> Line;

    /// Prints a list of words in the buffer.
    pub fn kernel_print(words: *const u16, count: usize, text: *mut u8, text_bytes: usize) -> Printed;

    /// How many bytes [`kernel_print`] needs for a list of words.
    pub fn kernel_print_size(words: *const u16, count: usize) -> Printed;

    /// The status, the peer and the flags of a task.
    pub fn kernel_task(image: *const u16, words: usize, task: u16) -> Task;

    /// The port of a device.
    pub fn kernel_port(image: *const u16, words: usize, device: u16) -> Port;

    /// A register of a task.
    pub fn kernel_register(image: *const u16, words: usize, task: u16, r: u16) -> Word;

    /// How many words a queue holds.
    pub fn kernel_queue_length(image: *const u16, words: usize, queue: u16, i: u16, j: u16) -> Word;

    /// A word that a queue holds, counted from the head.
    pub fn kernel_queue_word(image: *const u16, words: usize, queue: u16, i: u16, j: u16, at: u16) -> Word;

    /// The first broken rule of an image.
    pub fn kernel_broken_rule(image: *const u16, words: usize) -> Broken;
}
