//! The calls of the C library itself, as the Rust package declares them, those that look as `looks` does, and those that
//! count as `reports` does.

use crate::call::{Answer, Call};
use crate::lent::{Lent, Rooms};
use crate::looks;
use crate::reports;
use kernel::c::{self, Line, Printed, Ran, Size, Told, Translated};
use model::numbers::GOOD;

/// Makes the call with its words and bytes in the rooms that are lent.
pub fn answer(call: &Call, lent: &mut Rooms) -> Answer {
    match (call, &mut lent.counts[..], &mut lent.shares[..]) {
        (Call::Share { task, .. }, [counts], [share]) => reports::share(counts, *task, share),
        (Call::Report { .. }, [counts], []) => reports::report(&mut lent.words, counts),
        _ => answer_in_words(call, lent),
    }
}

/// Makes a call that is lent neither counts nor the place for a share.
fn answer_in_words(call: &Call, lent: &mut Rooms) -> Answer {
    match (call, &mut lent.words[..], &mut lent.texts[..]) {
        (Call::Check { .. }, [image], []) => check(image),
        (Call::Size { .. }, [plan], []) => size(plan),
        (Call::Build { .. }, [plan, target], []) => build(plan, target),
        (Call::Event { event, .. }, [image], []) => one_event(image, *event),
        (Call::Run { .. }, [image, events], []) => run(image, events),
        (Call::Translate { .. }, [target], [names, script]) => translate(names, script, target),
        (Call::RefusedLine { room, .. }, [], [names, script]) => refused_line(names, script, *room),
        (Call::Print { .. }, [words], [text]) => {
            let Printed { bytes, number } = print(words, text);
            Answer::Print { number, bytes }
        }
        (Call::PrintSize { .. }, [words], []) => print_size(words),
        (Call::RoundTrip { .. }, [words, target], [text]) => round_trip(words, text, target),
        (Call::Look { look, .. }, [image], []) => Answer::Look(looks::seen(*look, image)),
        _ => unreachable!("a call has the buffers of its own"),
    }
}

// Why every call below is safe: a pointer leads to as many words, or bytes, as the length beside it says, no two rooms
// share any, and nobody else has the rooms during the call.

fn check(image: &mut Lent<u16>) -> Answer {
    // SAFETY: above.
    let number = unsafe { c::kernel_check(image.pointer(), image.len()) };
    Answer::Check { number }
}

fn size(plan: &mut Lent<u16>) -> Answer {
    // SAFETY: above.
    let Size { words, number } = unsafe { c::kernel_size(plan.pointer(), plan.len()) };
    Answer::Size { number, words }
}

fn build(plan: &mut Lent<u16>, target: &mut Lent<u16>) -> Answer {
    // SAFETY: above.
    let number = unsafe { c::kernel_build(plan.pointer(), plan.len(), target.pointer(), target.len()) };
    Answer::Build { number }
}

fn one_event(image: &mut Lent<u16>, [kind, device, character]: [u16; 3]) -> Answer {
    // SAFETY: above.
    let Told { number, kind, task } = unsafe { c::kernel_event(image.pointer(), image.len(), kind, device, character) };
    Answer::Event { number, kind, task }
}

fn run(image: &mut Lent<u16>, events: &mut Lent<u16>) -> Answer {
    // SAFETY: above.
    let Ran { taken, number } = unsafe { c::kernel_run(image.pointer(), image.len(), events.pointer(), events.len()) };
    Answer::Run { number, taken }
}

fn translate(names: &mut Lent<u8>, script: &mut Lent<u8>, target: &mut Lent<u16>) -> Answer {
    // SAFETY: above.
    let Translated { words, number, text } = unsafe {
        c::kernel_translate(
            names.pointer(),
            names.len(),
            script.pointer(),
            script.len(),
            target.pointer(),
            target.len(),
        )
    };
    Answer::Translate { number, text, words }
}

fn refused_line(names: &mut Lent<u8>, script: &mut Lent<u8>, room: u64) -> Answer {
    // SAFETY: above.
    let Line { start, bytes } =
        unsafe { c::kernel_refused_line(names.pointer(), names.len(), script.pointer(), script.len(), room) };
    Answer::RefusedLine { start, bytes }
}

fn print(words: &mut Lent<u16>, text: &mut Lent<u8>) -> Printed {
    // SAFETY: above.
    unsafe { c::kernel_print(words.pointer(), words.len(), text.pointer(), text.len()) }
}

fn print_size(words: &mut Lent<u16>) -> Answer {
    // SAFETY: above.
    let Printed { bytes, number } = unsafe { c::kernel_print_size(words.pointer(), words.len()) };
    Answer::PrintSize { number, bytes }
}

/// Prints words, and translates what is printed, with no names.
fn round_trip(words: &mut Lent<u16>, text: &mut Lent<u8>, target: &mut Lent<u16>) -> Answer {
    let Printed { bytes: printed, number } = print(words, text);
    if number != GOOD {
        return Answer::RoundTrip { printed, number, words: 0 };
    }
    let names: &[u8] = &[];
    let script = &text.words()[..printed as usize];
    // SAFETY: above.
    let Translated { words, number, .. } = unsafe {
        c::kernel_translate(names.as_ptr(), names.len(), script.as_ptr(), script.len(), target.pointer(), target.len())
    };
    Answer::RoundTrip { printed, number, words }
}
