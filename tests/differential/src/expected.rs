//! What the model says of a call.

use crate::call::{Answer, Call};
use kernel::c::NO_ANSWER;
use model::check::{accept, check};
use model::events::{self, happen};
use model::image::Kernel;
use model::numbers::{GOOD, NOT_THERE};
use model::plan;
use model::printing;
use model::reports::{report, share, Reported};
use model::runs::{run, Ran};
use model::translate::{translate, Translation};

/// What a call comes to.
pub struct Outcome {
    /// The number that refuses what the call is lent, 0 where nothing is refused. One call does not answer it.
    pub number: u16,
    pub answer: Answer,
    /// The words of each buffer after the call.
    pub buffers: Vec<Vec<u16>>,
    /// The text after the call, where it is one that the call may print to.
    pub printed: Option<Vec<u8>>,
    /// The counts after the call, where it may count.
    pub counts: Option<Vec<u32>>,
    /// The bits of the share after the call, where it may write one.
    pub share: Option<u64>,
}

impl Outcome {
    /// An outcome of a call that prints nothing.
    fn new(number: u16, answer: Answer, buffers: Vec<Vec<u16>>) -> Outcome {
        Outcome { number, answer, buffers, printed: None, counts: None, share: None }
    }
}

/// What the call comes to by the model.
pub fn outcome(call: &Call) -> Outcome {
    match call {
        Call::Check { image } => {
            let number = check(image);
            Outcome::new(number, Answer::Check { number }, vec![image.clone()])
        }
        Call::Size { plan } => size(plan),
        Call::Build { plan, target } => {
            let (number, built) = plan::build(plan, target);
            Outcome::new(number, Answer::Build { number }, vec![plan.clone(), built])
        }
        Call::Event { image, event } => one_event(image, *event),
        Call::Run { image, events } => {
            let Ran { number, taken, image } = run(image, events);
            let answer = Answer::Run { number, taken: taken as u64 };
            Outcome::new(number, answer, vec![image, events.clone()])
        }
        Call::Translate { names, script, target } => translated(names, script, target),
        Call::RefusedLine { names, script, room } => refused_line(names, script, *room),
        Call::Print { words, text } => printed(words, text),
        Call::PrintSize { words } => {
            let (number, bytes) = numbered(printing::size(words), 0);
            let answer = Answer::PrintSize { number, bytes: bytes as u64 };
            Outcome::new(number, answer, vec![words.clone()])
        }
        Call::RoundTrip { words, text, target } => round_trip(words, text, target),
        Call::Look { image, look } => {
            let seen = look.seen_in(image);
            Outcome::new(seen.number, Answer::Look(seen), vec![image.clone()])
        }
        Call::Report { image, events, counts } => {
            let Reported { number, taken, image, counts } = report(image, events, counts);
            let answer = Answer::Report { number, taken: taken as u64 };
            Outcome { counts: Some(counts), ..Outcome::new(number, answer, vec![image, events.clone()]) }
        }
        Call::Share { counts, task, .. } => task_share(share(counts, *task)),
    }
}

/// A share, or none, which is told by the number of what is not there.
fn task_share(share: Option<f64>) -> Outcome {
    let number = if share.is_some() { GOOD } else { NOT_THERE };
    let answer = Answer::Share { told: share.is_some().into() };
    Outcome { share: share.map(f64::to_bits), ..Outcome::new(number, answer, vec![]) }
}

/// The number of a refusal and another value, or 0 and the value.
fn numbered<T>(result: Result<T, u16>, refused: T) -> (u16, T) {
    match result {
        Ok(value) => (GOOD, value),
        Err(number) => (number, refused),
    }
}

/// The size of a plan's image, 0 where the plan is refused.
fn size(plan: &[u16]) -> Outcome {
    let (number, words) = numbered(plan::size(plan), 0);
    Outcome::new(number, Answer::Size { number, words: words as u64 }, vec![plan.to_vec()])
}

/// The answer to an event, and the image's words after it.
fn one_event(image: &[u16], event: [u16; 3]) -> Outcome {
    match taken(image, event) {
        Ok((events::Answer { kind, task }, kernel)) => {
            let answer = Answer::Event { number: GOOD, kind, task };
            Outcome::new(GOOD, answer, vec![kernel.encode()])
        }
        Err(number) => Outcome::new(number, refused_event(number), vec![image.to_vec()]),
    }
}

/// The kernel after an event, or the number that refuses the image or the event.
fn taken(image: &[u16], event: [u16; 3]) -> Result<(events::Answer, Kernel), u16> {
    let mut kernel = accept(image)?;
    let answer = happen(&mut kernel, event)?;
    Ok((answer, kernel))
}

/// The answer to an event that is refused with a number.
pub fn refused_event(number: u16) -> Answer {
    Answer::Event { number, kind: NO_ANSWER, task: NO_ANSWER }
}

/// A script's words from the target's first place on; those past them stay.
fn translated(names: &[u8], script: &[u8], target: &[u16]) -> Outcome {
    let Translation { number, text, words, .. } = translate(names, script, target.len());
    let answer = Answer::Translate { number, text, words: words.len() as u64 };
    Outcome::new(number, answer, vec![over(&words, target)])
}

/// The line that is refused with a target of so many words.
fn refused_line(names: &[u8], script: &[u8], room: u64) -> Outcome {
    let room = usize::try_from(room).expect("the archive is for machines of 64 bits");
    let Translation { number, start, bytes, .. } = translate(names, script, room);
    let answer = Answer::RefusedLine { start: start as u64, bytes: bytes as u64 };
    Outcome::new(number, answer, vec![])
}

/// A buffer with these units from its first place on.
fn over<T: Copy>(units: &[T], buffer: &[T]) -> Vec<T> {
    [units, &buffer[units.len()..]].concat()
}

/// The text of words from the buffer's first byte on; the bytes past it stay.
fn printed(words: &[u16], text: &[u8]) -> Outcome {
    let (number, bytes) = numbered(printing::print(words, text.len()), vec![]);
    let answer = Answer::Print { number, bytes: bytes.len() as u64 };
    Outcome { printed: Some(over(&bytes, text)), ..Outcome::new(number, answer, vec![words.to_vec()]) }
}

/// The text of words that are printed, and the same words from the target's first place on.
fn round_trip(words: &[u16], text: &[u8], target: &[u16]) -> Outcome {
    let bytes = printing::print(words, text.len()).expect("a text that fits");
    let answer = Answer::RoundTrip { printed: bytes.len() as u64, number: GOOD, words: words.len() as u64 };
    let buffers = vec![words.to_vec(), over(words, target)];
    Outcome { printed: Some(over(&bytes, text)), ..Outcome::new(GOOD, answer, buffers) }
}
