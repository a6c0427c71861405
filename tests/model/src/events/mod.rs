//! Events: one tick, one input, or one output that is done.

mod devices;
mod dispatch;
mod services;
mod tick;

pub use services::{PEER, WORD};

use crate::image::{Kernel, LARGEST_CHARACTER};
use crate::numbers;

/// The kinds of event, an event's first word.
pub mod kind {
    pub const TICK: u16 = 0;
    pub const INPUT: u16 = 1;
    pub const OUTPUT_DONE: u16 = 2;
}

/// The kinds of answer.
pub mod answer {
    pub const IDLE: u16 = 0;
    pub const ERROR_STOP: u16 = 1;
    pub const TURN_PASSED: u16 = 2;
    pub const SERVICE_DONE: u16 = 3;
    pub const SERVICE_WAITS: u16 = 4;
    pub const SERVICE_FAULTED: u16 = 5;
    pub const ORDER_DONE: u16 = 6;
    pub const ORDER_FAULTED: u16 = 7;
    pub const INPUT: u16 = 8;
    pub const OUTPUT_DONE: u16 = 9;
}

/// An event that is not malformed.
#[derive(Clone, Copy, Debug, PartialEq, Eq)]
pub enum Event {
    Tick,
    Input { device: u16, character: u16 },
    OutputDone { device: u16 },
}

/// What an accepted event answers.
#[derive(Clone, Copy, Debug, PartialEq, Eq)]
pub struct Answer {
    pub kind: u16,
    pub task: u16,
}

impl Event {
    /// The event in three words for a kernel of so many tasks, or nothing
    /// where they are malformed.
    pub fn read(words: [u16; 3], tasks: usize) -> Option<Event> {
        let [kind, device, character] = words;
        let owned = usize::from(device) < tasks;
        match kind {
            kind::TICK if device == 0 && character == 0 => Some(Event::Tick),
            kind::INPUT if owned && character <= LARGEST_CHARACTER => Some(Event::Input { device, character }),
            kind::OUTPUT_DONE if owned && character == 0 => Some(Event::OutputDone { device }),
            _ => None,
        }
    }

    /// The event's three words: kind, device and character.
    pub fn words(self) -> [u16; 3] {
        match self {
            Event::Tick => [kind::TICK, 0, 0],
            Event::Input { device, character } => [kind::INPUT, device, character],
            Event::OutputDone { device } => [kind::OUTPUT_DONE, device, 0],
        }
    }
}

/// Carries out the event in three words. A refusal gives its number and
/// changes nothing.
pub fn happen(kernel: &mut Kernel, words: [u16; 3]) -> Result<Answer, u16> {
    match Event::read(words, kernel.tasks.len()).ok_or(numbers::EVENT)? {
        Event::Tick => Ok(tick::tick(kernel)),
        Event::Input { device, character } => devices::input(kernel, device, character),
        Event::OutputDone { device } => devices::output_done(kernel, device),
    }
}

#[cfg(test)]
mod tests {
    use super::*;
    use crate::happening::scene::Scene;
    use crate::plan;

    pub const TICK: [u16; 3] = [0, 0, 0];

    /// The kernel after an accepted event, which must answer so.
    pub fn after(before: &Kernel, words: [u16; 3], kind: u16, task: u16) -> Kernel {
        let mut after = before.clone();
        assert_eq!(happen(&mut after, words), Ok(Answer { kind, task }));
        after
    }

    /// The number of a refused event, which must change nothing.
    pub fn refusal(before: &Kernel, words: [u16; 3]) -> u16 {
        let mut after = before.clone();
        let number = happen(&mut after, words).expect_err("a refusal");
        assert_eq!(after, *before);
        number
    }

    #[test]
    fn three_words_are_an_event() {
        let input = Event::Input { device: 1, character: 255 };
        assert_eq!(Event::read([0, 0, 0], 2), Some(Event::Tick));
        assert_eq!(Event::read([1, 1, 255], 2), Some(input));
        assert_eq!(Event::read([2, 1, 0], 2), Some(Event::OutputDone { device: 1 }));
        assert_eq!(input.words(), [1, 1, 255]);
        assert_eq!(Event::Tick.words(), [0, 0, 0]);
        assert_eq!(Event::OutputDone { device: 15 }.words(), [2, 15, 0]);
    }

    #[test]
    fn a_malformed_event_is_7() {
        let kernel = Scene::of(2).kernel();
        let ticks = [[0, 1, 0], [0, 0, 1], [0, 65535, 65535]];
        let inputs = [[1, 2, 65], [1, 65535, 65], [1, 0, 256], [1, 0, 65535], [1, 2, 256]];
        let outputs = [[2, 2, 0], [2, 65535, 0], [2, 0, 1], [2, 0, 65535]];
        let unknown = [[3, 0, 0], [256, 0, 0], [257, 0, 65], [65535, 0, 0]];
        for words in [&ticks[..], &inputs, &outputs, &unknown].concat() {
            assert_eq!(refusal(&kernel, words), 7);
        }
    }

    #[test]
    fn malformed_comes_before_8_and_9() {
        let kernel = Scene::of(1).input(0, &[0, 0, 2, 2, 5, 6]).kernel();
        assert_eq!(refusal(&kernel, [1, 0, 256]), 7);
        assert_eq!(refusal(&kernel, [1, 0, 255]), 8);
        assert_eq!(refusal(&kernel, [2, 0, 1]), 7);
        assert_eq!(refusal(&kernel, [2, 0, 0]), 9);
    }

    #[test]
    fn the_papers_run() {
        let mut kernel = plan::accept(&[1, 2, 1, 1, 1, 4, 2, 4656, 4672]).expect("a good plan");
        let rows = [
            (TICK, 6),
            (TICK, 4),
            (TICK, 0),
            ([1, 0, 65], 8),
            (TICK, 3),
            (TICK, 6),
            (TICK, 2),
            (TICK, 3),
            (TICK, 7),
            ([2, 0, 0], 9),
        ];
        for (words, kind) in rows {
            kernel = after(&kernel, words, kind, 0);
        }
        assert_eq!(refusal(&kernel, [2, 0, 0]), 9);
    }
}
