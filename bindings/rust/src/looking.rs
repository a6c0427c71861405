//! The calls that look into an image. They change no word.

use crate::{c, known, unless_refused, Refusal, Rule, Service, Status, TaskError};
use std::cmp::Ordering;
use std::fmt;

/// How a task stands.
#[derive(Clone, Copy, Debug, PartialEq, Eq, Hash)]
pub struct Task {
    /// Whether it is ready, waits or is stopped.
    pub status: Status,
    /// The task that it waits for: of a task that waits to send or to receive, and of no other.
    pub peer: Option<u16>,
    /// What its last compare found of the first register against the second; equal before any (cc).
    pub cc: Ordering,
    /// What its last order or service was at fault for, if it was.
    pub error: Option<TaskError>,
    /// The service that it has asked for and that is not done yet, if any.
    pub pending: Option<Service>,
}

/// A device's port.
#[derive(Clone, Copy, Debug, PartialEq, Eq, Hash)]
pub enum Port {
    /// It puts nothing out.
    Idle,
    /// It puts this character out, until an [`OUTPUT_DONE`](crate::OUTPUT_DONE).
    Busy(u8),
}

/// A queue of an image.
#[derive(Clone, Copy, Debug, PartialEq, Eq, Hash)]
pub enum Queue {
    /// The ready tasks.
    Ready,
    /// The characters that came in for a task.
    Input(u16),
    /// The characters that a task puts out and its port has not taken.
    Output(u16),
    /// The words that one task sent to another.
    Messages {
        /// The task that sends.
        from: u16,
        /// The task that receives.
        to: u16,
    },
}

impl Queue {
    /// The archive's numbers of a queue: which of the four, i and j.
    const fn numbers(self) -> (u16, u16, u16) {
        match self {
            Queue::Ready => (c::READY_QUEUE, 0, 0),
            Queue::Input(task) => (c::INPUT_BUFFER, task, 0),
            Queue::Output(task) => (c::OUTPUT_BUFFER, task, 0),
            Queue::Messages { from, to } => (c::MESSAGE_BUFFER, from, to),
        }
    }

    /// The queue with these numbers, if one has them.
    const fn with_numbers(queue: u16, i: u16, j: u16) -> Option<Queue> {
        match queue {
            c::READY_QUEUE => Some(Queue::Ready),
            c::INPUT_BUFFER => Some(Queue::Input(i)),
            c::OUTPUT_BUFFER => Some(Queue::Output(i)),
            c::MESSAGE_BUFFER => Some(Queue::Messages { from: i, to: j }),
            _ => None,
        }
    }
}

impl fmt::Display for Queue {
    fn fmt(&self, to: &mut fmt::Formatter<'_>) -> fmt::Result {
        match self {
            Queue::Ready => write!(to, "ready queue"),
            Queue::Input(task) => write!(to, "input of task {task}"),
            Queue::Output(task) => write!(to, "output of task {task}"),
            Queue::Messages { from, to: receiver } => write!(to, "messages from {from} to {receiver}"),
        }
    }
}

/// What a rule of images is about.
#[derive(Clone, Copy, Debug, PartialEq, Eq, Hash)]
pub enum Subject {
    /// The clock.
    Clock,
    /// A task.
    Task(u16),
    /// A queue.
    Queue(Queue),
}

/// A broken rule, and what breaks it.
#[derive(Clone, Copy, Debug, PartialEq, Eq, Hash)]
pub struct Broken {
    /// The rule.
    pub rule: Rule,
    /// What breaks it.
    pub subject: Subject,
}

impl fmt::Display for Broken {
    fn fmt(&self, to: &mut fmt::Formatter<'_>) -> fmt::Result {
        match self.subject {
            Subject::Clock => self.rule.fmt(to),
            Subject::Task(task) => write!(to, "task {task}: {}", self.rule),
            Subject::Queue(queue) => write!(to, "{queue}: {}", self.rule),
        }
    }
}

/// `value` where `number` is 0, nothing where it says that it is not there, else the refusal of the image.
fn if_there<T>(number: u16, value: impl FnOnce() -> T) -> Result<Option<T>, Refusal> {
    match number {
        c::NOT_THERE => Ok(None),
        number => unless_refused(number, ()).map(|()| Some(value())),
    }
}

/// A task of an image: `None` where the image has no task with this number.
///
/// # Errors
///
/// 1 to 6, as [`check`](crate::check()) refuses the image.
pub fn task(image: &[u16], task: u16) -> Result<Option<Task>, Refusal> {
    // SAFETY: as lib.rs says.
    let told = unsafe { c::kernel_task(image.as_ptr(), image.len(), task) };
    if_there(told.number, || {
        let status = known(Status::with_number(told.status));
        Task {
            status,
            peer: matches!(status, Status::WaitsToSend | Status::WaitsToReceive).then_some(told.peer),
            cc: known(ordering(told.cc)),
            error: unless_none(told.error, TaskError::with_number),
            pending: unless_none(told.pending, Service::with_number),
        }
    })
}

/// What a compare found, by the archive's number.
const fn ordering(cc: u16) -> Option<Ordering> {
    match cc {
        c::EQUAL => Some(Ordering::Equal),
        c::LESS => Some(Ordering::Less),
        c::GREATER => Some(Ordering::Greater),
        _ => None,
    }
}

/// The case that an error's or a service's number stands for, nothing where there is none, which is number 0.
fn unless_none<T>(number: u16, with_number: impl FnOnce(u16) -> Option<T>) -> Option<T> {
    match number {
        c::NONE => None,
        number => Some(known(with_number(number))),
    }
}

/// The port of a device, which has the number of its task: `None` where the image has no such device.
///
/// # Errors
///
/// 1 to 6, as [`check`](crate::check()) refuses the image.
pub fn port(image: &[u16], device: u16) -> Result<Option<Port>, Refusal> {
    // SAFETY: as lib.rs says.
    let told = unsafe { c::kernel_port(image.as_ptr(), image.len(), device) };
    if_there(told.number, || match told.busy {
        c::IDLE => Port::Idle,
        _ => Port::Busy(known(u8::try_from(told.character).ok())),
    })
}

/// A register of a task, R0 to R7 by their numbers: `None` where there is no such task or register. R0 is the address
/// of the next order in the task's segment, R1 its stack pointer.
///
/// # Errors
///
/// 1 to 6, as [`check`](crate::check()) refuses the image.
pub fn register(image: &[u16], task: u16, r: u16) -> Result<Option<u16>, Refusal> {
    // SAFETY: as lib.rs says.
    let told = unsafe { c::kernel_register(image.as_ptr(), image.len(), task, r) };
    if_there(told.number, || told.word)
}

/// How many words a queue holds: `None` where a task of it is not there.
///
/// # Errors
///
/// 1 to 6, as [`check`](crate::check()) refuses the image.
pub fn queue_length(image: &[u16], queue: Queue) -> Result<Option<u16>, Refusal> {
    let (queue, i, j) = queue.numbers();
    // SAFETY: as lib.rs says.
    let told = unsafe { c::kernel_queue_length(image.as_ptr(), image.len(), queue, i, j) };
    if_there(told.number, || told.word)
}

/// A word that a queue holds, counted from its head: 0 is the one that is taken next. `None` where the queue holds no
/// more than `at` words, or a task of it is not there.
///
/// # Errors
///
/// 1 to 6, as [`check`](crate::check()) refuses the image.
pub fn queue_word(image: &[u16], queue: Queue, at: u16) -> Result<Option<u16>, Refusal> {
    let (queue, i, j) = queue.numbers();
    // SAFETY: as lib.rs says.
    let told = unsafe { c::kernel_queue_word(image.as_ptr(), image.len(), queue, i, j, at) };
    if_there(told.number, || told.word)
}

/// Why an image is refused with [`Refusal::RuleBroken`]: of the rules that it breaks the first, and of what breaks
/// that rule the first: tasks from 0 on; queues as [`Queue`] has them, each by its tasks. `None` where the image is
/// good.
///
/// ```
/// let plan = [1, 9, 1, 1, 1, 4, 0];
/// let mut image = vec![0; kernel::size(&plan)?];
/// kernel::build(&plan, &mut image)?;
/// assert_eq!(kernel::broken_rule(&image)?, None);
///
/// image[kernel::AT_CLOCK] = 10;
/// assert_eq!(kernel::check(&image), Err(kernel::Refusal::RuleBroken));
/// assert_eq!(kernel::broken_rule(&image)?.unwrap().to_string(), "clock over the slice");
/// # Ok::<(), kernel::Refusal>(())
/// ```
///
/// # Errors
///
/// 1 to 5, as [`check`](crate::check()) refuses the image: it is too far off to tell its rules apart.
pub fn broken_rule(image: &[u16]) -> Result<Option<Broken>, Refusal> {
    // SAFETY: as lib.rs says.
    let told = unsafe { c::kernel_broken_rule(image.as_ptr(), image.len()) };
    match unless_refused(told.number, ()) {
        Ok(()) => Ok(None),
        Err(Refusal::RuleBroken) => Ok(Some(broken(told))),
        Err(refusal) => Err(refusal),
    }
}

/// A broken rule that the archive tells.
fn broken(told: c::Broken) -> Broken {
    let subject = match (told.queue, told.i) {
        (c::NOT_THERE, c::NOT_THERE) => Subject::Clock,
        (c::NOT_THERE, task) => Subject::Task(task),
        (queue, i) => Subject::Queue(known(Queue::with_numbers(queue, i, told.j))),
    };
    Broken { rule: known(Rule::with_number(told.rule)), subject }
}
