//! The proved kernel for programs in Rust: a runner of scripts of a small machine of 16-bit words.
//!
//! - A *plan* says which tasks there are: their number (1 to 16), the slice, the capacities of input, output and
//!   message buffers (1 to 32 each), then for each task the length of its segment and of its program, then the
//!   programs. [`size`] says how many words its image has, [`build`] makes it.
//! - An *image* is the whole state, a slice of words: registers and flags of each task, buffers, ports, segments.
//!   [`check`] says whether a slice is one; every call that takes an image checks it first. In a file a word is two
//!   bytes, the low one first ([`u16::to_le_bytes`]).
//! - An *event* is a tick, which lets the first ready task do one order or service; an input character for a device; or
//!   that a device has put its character out. [`event`] takes one and [`run`] a list of them.
//! - [`report`] is a run that counts which task used how many ticks, and what for: [`Counts`]. [`share`] is a task's
//!   share of them.
//! - [`task`], [`port`], [`register`], [`queue_length`] and [`queue_word`] look into an image, and [`broken_rule`]
//!   says why one is refused with [`Refusal::RuleBroken`].
//! - A *script* is a program as text, one order a line. [`translate`] gives its words, [`print()`] gives the text
//!   back.
//!
//! docs/MACHINE.md in the repository says what each order, service and word of an image means, and docs/GRAMMAR.md how
//! a script is written.
//!
//! Nothing is required of the words and bytes: any slice may be lent, empty ones too. A call either does what it says,
//! or it refuses, says why with a [`Refusal`], and changes no word and no byte. No call allocates, keeps a reference
//! or remembers earlier calls. [`translate`] and [`refused_line`] take at most 256 KiB of the stack, [`report`] 80 KiB
//! and every other call 4 KiB.
//!
//! Where a program is killed in the middle of [`build`], [`event`], [`run`] or [`report`], the image may hold a part of
//! the change, and may pass the check all the same. Keep the last image that was saved whole, its counts and the events
//! since: they give the same image and counts again.
//!
//! The enums may get more cases, so a `match` on one needs a last arm `_`. An image carries its edition, [`EDITION`]
//! today; one of an edition that is not known is [`Refusal::NotMarked`]. One that was saved before 0.5, and had run, is
//! nearly always refused with [`Rule::FreeSlots`], and is not converted: build it anew, and run its events again.
//!
//! # Example
//!
//! A task that takes a character from its device and gives it back. Each tick is one step: the order, then the service
//! that it asks for.
//!
//! ```
//! use kernel::{Kind, Port, Refusal, Status, TaskError, INPUT, OUTPUT_DONE, TICK};
//!
//! // The program's words.
//! let mut program = [0; 2];
//! assert_eq!(kernel::translate(b"", b"input\noutput\n", &mut program), Ok(2));
//!
//! // One task, slice 9, buffers of one word; a segment of 4 words, in which the program's 2 stand first.
//! let plan = [1, 9, 1, 1, 1, 4, 2, program[0], program[1]];
//! let mut image = vec![0; kernel::size(&plan)?];
//! kernel::build(&plan, &mut image)?;
//!
//! assert_eq!(kernel::event(&mut image, TICK, 0, 0)?.kind, Kind::OrderDone);
//! assert_eq!(kernel::event(&mut image, TICK, 0, 0)?.kind, Kind::ServiceWaits);
//! let task = kernel::task(&image, 0)?.expect("task 0 is there");
//! assert_eq!(task.status.to_string(), "waits for input");
//!
//! kernel::event(&mut image, INPUT, 0, u16::from(b'A'))?;
//! for _ in 0..3 {
//!     kernel::event(&mut image, TICK, 0, 0)?;
//! }
//! assert_eq!(kernel::port(&image, 0)?, Some(Port::Busy(b'A')));
//! assert_eq!(kernel::event(&mut image, OUTPUT_DONE, 0, 0)?.task, Some(0));
//! assert_eq!(kernel::event(&mut image, OUTPUT_DONE, 0, 0), Err(Refusal::PortIdle));
//!
//! // After the program comes a 0, which is no order: an error, and with the tick after it the task is stopped.
//! kernel::event(&mut image, TICK, 0, 0)?;
//! assert_eq!(kernel::event(&mut image, TICK, 0, 0)?.kind, Kind::ErrorStop);
//! let task = kernel::task(&image, 0)?.expect("task 0 is there");
//! assert_eq!((task.status, task.error), (Status::Stopped, Some(TaskError::BadOrder)));
//! assert_eq!(kernel::task(&image, 1)?, None);
//! # Ok::<(), kernel::Refusal>(())
//! ```
#![deny(missing_docs)]

pub mod c;
mod counts;
mod looking;
mod numbers;
mod outcomes;
mod scripts;
#[cfg(test)]
mod tests;

pub use counts::{report, share, Counts, AT_IDLE_COUNT, COUNTS, HEADINGS};
pub use looking::{broken_rule, port, queue_length, queue_word, register, task};
pub use looking::{Broken, Port, Queue, Subject, Task};
pub use numbers::{Heading, Kind, Refusal, Rule, Service, Status, TaskError};
pub use outcomes::{Answer, Stopped};
pub use scripts::{print, print_size, refused_line, translate, Text, Untranslated, MOST_NAMES, MOST_PRINTED};

/// The kind of a tick; its device and its character are 0.
pub const TICK: u16 = 0;

/// The kind of an input: a device and its character, at most 255.
pub const INPUT: u16 = 1;

/// The kind of an output that is done: a device; the character is 0.
pub const OUTPUT_DONE: u16 = 2;

/// The words of an event in a list: kind, device, character.
pub const EVENT_WORDS: usize = 3;

/// The edition of the images that [`build`] makes. It stands in an image's second word.
pub const EDITION: u16 = 1;

/// The most tasks of an image.
pub const MOST_TASKS: u16 = 16;

/// The most words of an image.
pub const MOST_WORDS: usize = 32768;

/// The registers of a task.
pub const REGISTERS: u16 = 8;

/// Where an image that passes the check has its edition.
pub const AT_EDITION: usize = 1;

/// Where it has the number of its tasks.
pub const AT_TASKS: usize = 2;

/// Where it has the slice.
pub const AT_SLICE: usize = 3;

/// Where it has the capacity of input buffers.
pub const AT_INPUT_CAPACITY: usize = 4;

/// Where it has the capacity of output buffers.
pub const AT_OUTPUT_CAPACITY: usize = 5;

/// Where it has the capacity of message buffers.
pub const AT_MESSAGE_CAPACITY: usize = 6;

/// Where it has the place of its segment table: for each task in turn the place of its segment's first word, and how
/// many words it has.
pub const AT_SEGMENTS: usize = 14;

/// Where it has the clock.
pub const AT_CLOCK: usize = 17;

// Why every call of the archive is safe, in all modules: a slice's pointer leads to as many words, bytes or counts as
// its length says, of an empty one to none, which the archive allows; a slice lent for writing shares no byte with
// another; and the archive's functions read and write nothing but what they are lent, on any words, bytes and counts.

/// `value` where `number` is 0, else the refusal with the number.
fn unless_refused<T>(number: u16, value: T) -> Result<T, Refusal> {
    match number {
        0 => Ok(value),
        refused => Err(known(Refusal::with_number(refused))),
    }
}

/// A case that the archive's number stands for. It answers no number but those of the enums.
fn known<T>(case: Option<T>) -> T {
    case.expect("the archive is of the package's version")
}

/// A count of the archive's. It counts words, bytes or events of slices that this machine holds, so it fits.
fn count(number: u64) -> usize {
    usize::try_from(number).expect("the archive is for machines of 64 bits")
}

/// Checks an image.
///
/// # Errors
///
/// The first of [`Refusal::TooShort`] to [`Refusal::RuleBroken`], 1 to 6, that applies.
pub fn check(image: &[u16]) -> Result<(), Refusal> {
    // SAFETY: above.
    let number = unsafe { c::kernel_check(image.as_ptr(), image.len()) };
    unless_refused(number, ())
}

/// How many words the image of a plan has.
///
/// # Errors
///
/// [`Refusal::OutOfRange`] or [`Refusal::BadPlan`].
pub fn size(plan: &[u16]) -> Result<usize, Refusal> {
    // SAFETY: above.
    let size = unsafe { c::kernel_size(plan.as_ptr(), plan.len()) };
    unless_refused(size.number, count(size.words))
}

/// Builds the image of a plan in the target, which must have as many words as [`size`] says; whatever it held is
/// written over.
///
/// # Errors
///
/// [`Refusal::OutOfRange`] or [`Refusal::BadPlan`], as [`size`] is refused; [`Refusal::WrongTarget`] where the target
/// has another length. No word of the target is changed then.
pub fn build(plan: &[u16], target: &mut [u16]) -> Result<(), Refusal> {
    // SAFETY: above.
    let number = unsafe { c::kernel_build(plan.as_ptr(), plan.len(), target.as_mut_ptr(), target.len()) };
    unless_refused(number, ())
}

/// One event on an image: [`TICK`], 0 and 0; [`INPUT`], a device and its character; or [`OUTPUT_DONE`], a device and
/// 0. The device of a task has the task's number.
///
/// # Errors
///
/// 1 to 6, as [`check`] refuses the image; then [`Refusal::MalformedEvent`], [`Refusal::InputFull`] or
/// [`Refusal::PortIdle`]. No word of the image is changed then.
pub fn event(image: &mut [u16], kind: u16, device: u16, character: u16) -> Result<Answer, Refusal> {
    // SAFETY: above.
    let told = unsafe { c::kernel_event(image.as_mut_ptr(), image.len(), kind, device, character) };
    unless_refused(told.number, ())?;
    let kind = known(Kind::with_number(told.kind));
    Ok(Answer { kind, task: (kind != Kind::Idle).then_some(told.task) })
}

/// A list of events, three words each, one after another. Answers how many there are, where all are taken.
///
/// # Errors
///
/// The first refusal, and how many events were taken before it; the image holds exactly these. A bad image (1 to 6),
/// or a list that is not a multiple of three words ([`Refusal::MalformedEvent`]), is refused before any event is
/// taken.
pub fn run(image: &mut [u16], events: &[u16]) -> Result<usize, Stopped> {
    // SAFETY: above.
    let ran = unsafe { c::kernel_run(image.as_mut_ptr(), image.len(), events.as_ptr(), events.len()) };
    let taken = count(ran.taken);
    unless_refused(ran.number, taken).map_err(|refusal| Stopped { taken, refusal })
}
