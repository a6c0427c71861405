//! Events chosen by hand, each with its answer as the paper gives it, and
//! most with the words that change.

mod cell;
mod crowds;
mod devices;
mod messages;
mod refusals;
mod runs;
mod ticks;
mod wakes;

use super::scene::Scene;
use super::Sequence;
use crate::changes::Change;
use crate::events::{answer, Answer, Event};
use crate::image::Kernel;
use crate::layout::word;
use cell::Cell;

/// The words of a buffer with two slots: full, empty, and with one word.
const FULL: [u16; 6] = [0, 0, 2, 2, 65, 66];
const EMPTY: [u16; 6] = [0, 0, 0, 2, 0, 0];
const SINGLE: [u16; 6] = [0, 1, 1, 2, 65, 0];

/// An image, and events with what must come of them.
#[derive(Clone, Debug)]
pub struct Special {
    kernel: Kernel,
    steps: Vec<Expected>,
}

/// An event, its answer or number, and the changes where they are written.
#[derive(Clone, Debug)]
struct Expected {
    event: [u16; 3],
    outcome: Result<Answer, u16>,
    changes: Option<Vec<(Cell, u16)>>,
}

impl Special {
    fn on(scene: Scene) -> Special {
        Special { kernel: scene.kernel(), steps: Vec::new() }
    }

    /// A tick with all that it changes.
    fn tick(self, kind: u16, task: u16, changes: &[(Cell, u16)]) -> Special {
        self.accepted(Event::Tick, kind, task, Some(changes.to_vec()))
    }

    /// A tick of which only the answer is written.
    fn answers(self, kind: u16, task: u16) -> Special {
        self.accepted(Event::Tick, kind, task, None)
    }

    /// An input that is taken, with all that it changes.
    fn input(self, device: u16, character: u16, changes: &[(Cell, u16)]) -> Special {
        let event = Event::Input { device, character };
        self.accepted(event, answer::INPUT, device, Some(changes.to_vec()))
    }

    /// An output done that is taken, with all that it changes.
    fn output_done(self, device: u16, changes: &[(Cell, u16)]) -> Special {
        let event = Event::OutputDone { device };
        self.accepted(event, answer::OUTPUT_DONE, device, Some(changes.to_vec()))
    }

    fn accepted(mut self, event: Event, kind: u16, task: u16, changes: Option<Vec<(Cell, u16)>>) -> Special {
        let outcome = Ok(Answer { kind, task });
        self.steps.push(Expected { event: event.words(), outcome, changes });
        self
    }

    fn refused(mut self, event: [u16; 3], number: u16) -> Special {
        self.steps.push(Expected { event, outcome: Err(number), changes: Some(Vec::new()) });
        self
    }

    /// The sequence of the events, whose outcomes the model must give.
    pub fn judged(self) -> Sequence {
        let mut events = self.steps.iter().map(|expected| expected.event);
        let sequence = Sequence::judged(self.kernel.clone(), |_| events.next());
        for (i, (expected, step)) in self.steps.iter().zip(&sequence.steps).enumerate() {
            let number = i + 1;
            assert_eq!(step.outcome, expected.outcome, "event {number} of {self:?}");
            if let Some(changes) = &expected.changes {
                let by_hand = placed(&self.kernel, changes);
                assert_eq!(step.changes, by_hand, "event {number} of {self:?}");
            }
        }
        sequence
    }
}

/// Named words as places of a kernel's image, in ascending order.
fn placed(kernel: &Kernel, changes: &[(Cell, u16)]) -> Vec<Change> {
    let mut places: Vec<Change> = changes.iter().map(|&(cell, new)| (word(cell.place(kernel)), new)).collect();
    places.sort_unstable();
    places
}

/// Every sequence chosen by hand, the paper's run first.
pub fn all() -> Vec<Special> {
    [runs::all(), ticks::all(), messages::all(), wakes::all(), devices::all(), refusals::all(), crowds::all()].concat()
}
