//! What an event and a run come to.

use crate::{Kind, Refusal};
use std::fmt;

/// What an accepted event came to.
#[derive(Clone, Copy, Debug, PartialEq, Eq, Hash)]
pub struct Answer {
    /// What happened.
    pub kind: Kind,
    /// To which task: of a tick the one that was first in the ready queue, else the device's. `None` where the kind is
    /// [`Kind::Idle`], and only there.
    pub task: Option<u16>,
}

impl fmt::Display for Answer {
    fn fmt(&self, to: &mut fmt::Formatter<'_>) -> fmt::Result {
        match self.task {
            Some(task) => write!(to, "task {task}: {}", self.kind),
            None => self.kind.fmt(to),
        }
    }
}

/// Why a run did not take all events.
#[derive(Clone, Copy, Debug, PartialEq, Eq, Hash)]
#[must_use]
pub struct Stopped {
    /// How many events were taken; the image holds exactly these, and so do the counts of a run that counts.
    pub taken: usize,
    /// Why the next one, or the image or the list before any, was refused.
    pub refusal: Refusal,
}

impl fmt::Display for Stopped {
    fn fmt(&self, to: &mut fmt::Formatter<'_>) -> fmt::Result {
        write!(to, "events taken: {}, the next refused: {}", self.taken, self.refusal)
    }
}

impl std::error::Error for Stopped {}
