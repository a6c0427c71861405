//! One event on an image, and a run over a list of events.

use crate::check::inspect;
use crate::kernel::{refused, Kernel};
use crate::layout::answer;
use crate::numbers;
use crate::{Ran, Told};

/// The three words of an event.
type Event = [u16; 3];

const TICK: Event = [0, 0, 0];

/// One event: kind, device, character.
pub fn event(image: &mut [u16], kind: u16, device: u16, character: u16) -> Told {
    let layout = match inspect(image) {
        Ok(layout) => layout,
        Err(number) => return refused(number),
    };
    let mut kernel = Kernel::new(image, &layout);
    let event = [kind, device, character];
    if event == TICK {
        kernel.tick()
    } else {
        kernel.report(event)
    }
}

/// A run over a list of events.
pub fn run(image: &mut [u16], list: &[u16]) -> Ran {
    let layout = match inspect(image) {
        Ok(layout) => layout,
        Err(number) => return Ran { taken: 0, number },
    };
    let (events, rest) = list.as_chunks();
    if !rest.is_empty() {
        return Ran { taken: 0, number: numbers::MALFORMED_EVENT };
    }
    take_events(Kernel::new(image, &layout), events)
}

/// Takes events up to the first refused one.
#[inline(always)]
fn take_events(mut kernel: Kernel, events: &[Event]) -> Ran {
    let mut left = events;
    loop {
        let ticks = ticks_ahead(left);
        take_ticks(&mut kernel, ticks);
        left = &left[ticks..];
        let Some((event, later)) = left.split_first() else {
            return Ran { taken: events.len() as u64, number: 0 };
        };
        let number = kernel.report(*event).number;
        if number != 0 {
            return Ran { taken: (events.len() - left.len()) as u64, number };
        }
        left = later;
    }
}

/// How many events at the head of a list are ticks.
#[inline(always)]
fn ticks_ahead(events: &[Event]) -> usize {
    let blocks = events.as_chunks::<4>().0;
    let quick = 4 * blocks.iter().take_while(|block| **block == [TICK; 4]).count();
    quick + events[quick..].iter().take_while(|event| **event == TICK).count()
}

/// So many ticks; none is refused. A task whose service is done is still the
/// first.
#[inline(always)]
fn take_ticks(kernel: &mut Kernel, mut left: usize) {
    let Some(mut first) = kernel.first() else {
        return;
    };
    loop {
        left -= kernel.take_orders(first, left);
        if left == 0 {
            return;
        }
        let told = kernel.other_tick(first);
        left -= 1;
        if told.kind != answer::SERVICE_DONE {
            let Some(next) = kernel.first() else {
                return;
            };
            first = next;
        }
    }
}
