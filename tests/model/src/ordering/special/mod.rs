//! Orders chosen by hand, each with its outcome as the paper gives it.
//!
//! A first word is written in hexadecimal: op, then a, then b.

mod addresses;
mod faults;
mod operands;

use super::scene::Scene;
use super::{first_task, order_place, Group, DONE};
use crate::changes::differences;
use crate::image::Task;

/// A scene, and what its order changes or the error of its fault.
#[derive(Clone, Debug)]
pub struct Special {
    scene: Scene,
    outcome: Result<Vec<Change>, u16>,
}

/// One thing that an order sets.
#[derive(Clone, Copy, Debug)]
pub enum Change {
    /// A register and its new word.
    R(usize, u16),
    /// An address and the new word there.
    At(usize, u16),
    Cc(u16),
    Pending(u16),
}

impl Special {
    /// The case of the scene, whose outcome the model must give.
    pub fn judged(&self) -> Group {
        let mut kernel = self.scene.kernel();
        let place = order_place(&kernel);
        let before = kernel.encode();
        let group = Group::judged(&kernel, place, [before[place]]);
        let me = first_task(&kernel);
        let expected = self.apply(&mut kernel.tasks[me]);
        let changes = differences(&before, &kernel.encode());
        let case = &group.cases[0];
        assert_eq!((case.expected, &case.changes), (expected, &changes), "{self:?}");
        group
    }

    /// Changes a task as the outcome says, and gives the outcome's number.
    fn apply(&self, task: &mut Task) -> u16 {
        match &self.outcome {
            Ok(changes) => {
                changes.iter().for_each(|change| change.apply(task));
                DONE
            }
            &Err(error) => {
                task.flags.error = error;
                error
            }
        }
    }
}

impl Change {
    fn apply(&self, task: &mut Task) {
        match *self {
            Change::R(register, word) => task.registers[register] = word,
            Change::At(address, word) => task.segment[address] = word,
            Change::Cc(cc) => task.flags.cc = cc,
            Change::Pending(number) => task.flags.pending = number,
        }
    }
}

fn done(scene: Scene, changes: &[Change]) -> Special {
    Special { scene, outcome: Ok(changes.to_vec()) }
}

fn fault(scene: Scene, error: u16) -> Special {
    Special { scene, outcome: Err(error) }
}

/// Every order chosen by hand.
pub fn all() -> Vec<Special> {
    [operands::all(), addresses::all(), faults::all()].concat()
}
