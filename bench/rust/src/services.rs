//! The four services.

use crate::kernel::{answered, Kernel};
use crate::layout::*;
use crate::Told;
use std::hint::cold_path;

const TASK_ERROR: u16 = 5;
const CHARACTER_ERROR: u16 = 6;

impl Kernel<'_> {
    /// Does the pending service of the first task.
    #[inline(always)]
    pub fn serve(&mut self, me: usize) -> Told {
        let row = &self.rows[me];
        let (named, word) = (usize::from(row[PEER]), row[WORD]);
        match row[FLAGS] / PENDING_UNIT {
            service::SEND => self.send(me, named, word),
            service::RECEIVE => self.receive(me, named),
            service::INPUT => self.input_service(me),
            _ => self.output_service(me, word),
        }
    }

    /// A service that is done leaves cc, and uses the clock.
    #[inline(always)]
    fn done(&mut self, me: usize) -> Told {
        *self.turns.clock -= 1;
        self.rows[me][FLAGS] %= ERROR_UNIT;
        answered(answer::SERVICE_DONE, me)
    }

    /// A service that faults leaves cc and the error, and uses the clock.
    #[inline(always)]
    fn faulted(&mut self, me: usize, error: u16) -> Told {
        cold_path();
        *self.turns.clock -= 1;
        let flags = &mut self.rows[me][FLAGS];
        *flags = *flags % ERROR_UNIT + ERROR_UNIT * error;
        answered(answer::SERVICE_FAULTED, me)
    }

    /// A service that waits leaves the clock that dispatch sets.
    #[inline(always)]
    fn waits(&mut self, me: usize, status: u16, peer: usize) -> Told {
        self.turns.leave(me, status, peer as u16);
        answered(answer::SERVICE_WAITS, me)
    }

    #[inline(always)]
    fn send(&mut self, me: usize, peer: usize, word: u16) -> Told {
        let tasks = self.tasks();
        if peer >= tasks {
            return self.faulted(me, TASK_ERROR);
        }
        let mut queue = self.messages.at(me * tasks + peer);
        if queue.is_full() {
            return self.waits(me, status::WAITS_TO_SEND, peer);
        }
        queue.append(word);
        if self.turns.status[peer] == [status::WAITS_TO_RECEIVE, me as u16] {
            self.turns.wake(peer);
        }
        self.done(me)
    }

    #[inline(always)]
    fn receive(&mut self, me: usize, source: usize) -> Told {
        let tasks = self.tasks();
        if source >= tasks {
            return self.faulted(me, TASK_ERROR);
        }
        let mut queue = self.messages.at(source * tasks + me);
        if queue.is_empty() {
            return self.waits(me, status::WAITS_TO_RECEIVE, source);
        }
        self.rows[me][WORD] = queue.take();
        if self.turns.status[source] == [status::WAITS_TO_SEND, me as u16] {
            self.turns.wake(source);
        }
        self.done(me)
    }

    #[inline(always)]
    fn input_service(&mut self, me: usize) -> Told {
        let mut queue = self.inputs.at(me);
        if queue.is_empty() {
            return self.waits(me, status::WAITS_FOR_INPUT, 0);
        }
        self.rows[me][WORD] = queue.take();
        self.done(me)
    }

    #[inline(always)]
    fn output_service(&mut self, me: usize, character: u16) -> Told {
        if character > LARGEST_CHARACTER {
            return self.faulted(me, CHARACTER_ERROR);
        }
        let mut queue = self.outputs.at(me);
        if queue.is_full() {
            return self.waits(me, status::WAITS_FOR_OUTPUT, 0);
        }
        queue.append(character);
        if self.ports[me][0] == 0 {
            self.ports[me] = [1, queue.take()];
        }
        self.done(me)
    }
}
