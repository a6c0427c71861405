//! The same calls through the Rust package. It tells nothing of a refused call but the number.

use crate::call::{Answer, Call};
use crate::expected::refused_event;
use crate::lent::{Lent, Rooms};
use crate::package_looks;
use kernel::c::{NAMES, NO_TEXT, SCRIPT};
use kernel::{Counts, Refusal, Stopped, Text, Untranslated};

/// Makes the call with its words and bytes in the rooms that are lent, if the package can be asked to.
pub fn answer(call: &Call, lent: &mut Rooms) -> Option<Answer> {
    Some(match (call, &mut lent.words[..], &mut lent.texts[..]) {
        (Call::Check { .. }, [image], []) => Answer::Check { number: number(kernel::check(image.words())) },
        (Call::Size { .. }, [plan], []) => size(plan),
        (Call::Build { .. }, [plan, target], []) => {
            Answer::Build { number: number(kernel::build(plan.words(), target.words())) }
        }
        (Call::Event { event, .. }, [image], []) => one_event(image, *event),
        (Call::Run { .. }, [image, events], []) => {
            let (number, taken) = ended(kernel::run(image.words(), events.words()));
            Answer::Run { number, taken }
        }
        (Call::Translate { .. }, [target], [names, script]) => translate(names, script, target),
        (Call::RefusedLine { room, .. }, [], [names, script]) => refused_line(names, script, *room),
        (Call::Print { .. }, [words], [text]) => {
            let (number, bytes) = counted(kernel::print(words.words(), text.words()));
            Answer::Print { number, bytes }
        }
        (Call::PrintSize { .. }, [words], []) => {
            let (number, bytes) = counted(kernel::print_size(words.words()));
            Answer::PrintSize { number, bytes }
        }
        (Call::RoundTrip { .. }, [words, target], [text]) => round_trip(words, text, target),
        (Call::Look { look, .. }, [image], []) => Answer::Look(package_looks::seen(*look, image.words())?),
        (Call::Report { .. }, [image, events], []) => report(image, events, &mut lent.counts[0])?,
        (Call::Share { task, .. }, [], []) => share(&mut lent.counts[0], *task, &mut lent.shares[0])?,
        _ => unreachable!("a call has the buffers of its own"),
    })
}

/// The number of a result, 0 where nothing is refused.
fn number(result: Result<(), Refusal>) -> u16 {
    result.err().map_or(0, Refusal::number)
}

/// The number of a result, and its count, 0 where it is refused.
fn counted(result: Result<usize, Refusal>) -> (u16, u64) {
    match result {
        Ok(count) => (0, count as u64),
        Err(refusal) => (refusal.number(), 0),
    }
}

/// The number of a run, and how many events it took.
fn ended(result: Result<usize, Stopped>) -> (u16, u64) {
    match result {
        Ok(taken) => (0, taken as u64),
        Err(Stopped { taken, refusal }) => (refusal.number(), taken as u64),
    }
}

fn size(plan: &mut Lent<u16>) -> Answer {
    let (number, words) = counted(kernel::size(plan.words()));
    Answer::Size { number, words }
}

fn one_event(image: &mut Lent<u16>, [kind, device, character]: [u16; 3]) -> Answer {
    match kernel::event(image.words(), kind, device, character) {
        Ok(kernel::Answer { kind, task }) => Answer::Event { number: 0, kind: kind.number(), task: task.unwrap_or(0) },
        Err(refusal) => refused_event(refusal.number()),
    }
}

fn translate(names: &mut Lent<u8>, script: &mut Lent<u8>, target: &mut Lent<u16>) -> Answer {
    match kernel::translate(names.words(), script.words(), target.words()) {
        Ok(words) => Answer::Translate { number: 0, text: NO_TEXT, words: words as u64 },
        Err(Untranslated { refusal, text }) => {
            Answer::Translate { number: refusal.number(), text: text_number(text), words: 0 }
        }
    }
}

fn text_number(text: Text) -> u16 {
    match text {
        Text::Names => NAMES,
        Text::Script => SCRIPT,
    }
}

/// A run that counts, unless the counts are of another length: the package's are always 97.
fn report(image: &mut Lent<u16>, events: &mut Lent<u16>, lent: &mut Lent<u32>) -> Option<Answer> {
    let mut counts = Counts::with_numbers(lent.words().try_into().ok()?);
    let (number, taken) = ended(kernel::report(image.words(), events.words(), &mut counts));
    lent.words().copy_from_slice(counts.numbers());
    Some(Answer::Report { number, taken })
}

/// A task's share, put in its place where there is one, unless the counts are of another length.
fn share(lent: &mut Lent<u32>, task: u16, place: &mut Lent<u64>) -> Option<Answer> {
    let counts = Counts::with_numbers(lent.words().try_into().ok()?);
    let share = kernel::share(&counts, task);
    if let Some(share) = share {
        place.words()[0] = share.to_bits();
    }
    Some(Answer::Share { told: share.is_some().into() })
}

/// Prints words, and translates what is printed, with no names.
fn round_trip(words: &mut Lent<u16>, text: &mut Lent<u8>, target: &mut Lent<u16>) -> Answer {
    let (number, printed) = counted(kernel::print(words.words(), text.words()));
    if number != 0 {
        return Answer::RoundTrip { printed, number, words: 0 };
    }
    let script = &text.words()[..printed as usize];
    let back = kernel::translate(&[], script, target.words()).map_err(|refused| refused.refusal);
    let (number, words) = counted(back);
    Answer::RoundTrip { printed, number, words }
}

fn refused_line(names: &mut Lent<u8>, script: &mut Lent<u8>, room: u64) -> Answer {
    let room = usize::try_from(room).expect("the package is for machines of 64 bits");
    let (names, script) = (names.words(), script.words());
    let Some(line) = kernel::refused_line(names, script, room) else {
        return Answer::RefusedLine { start: 0, bytes: 0 };
    };
    let start = start_in(names, line).or(start_in(script, line)).expect("a part of a text");
    Answer::RefusedLine { start: start as u64, bytes: line.len() as u64 }
}

/// Where a part begins in a text, unless it is a part of the other one. Guards part the two.
fn start_in(text: &[u8], part: &[u8]) -> Option<usize> {
    let start = part.as_ptr().addr().checked_sub(text.as_ptr().addr())?;
    (start <= text.len()).then_some(start)
}
