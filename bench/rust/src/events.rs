//! Ticks, inputs, and outputs that are done.

use crate::kernel::{answered, refused, Kernel};
use crate::layout::*;
use crate::numbers;
use crate::orders::orders;
use crate::Told;
use std::hint::cold_path;

impl Kernel<'_> {
    /// The first task, if one is ready.
    #[inline(always)]
    pub fn first(&self) -> Option<usize> {
        let ready = &self.turns.ready;
        (!ready.is_empty()).then(|| usize::from(ready.first()))
    }

    /// Orders of the first task for at most so many ticks. Gives how many, 0
    /// where another rule applies.
    #[inline(always)]
    pub fn take_orders(&mut self, first: usize, most: usize) -> usize {
        let row = &mut self.rows[first];
        if row[FLAGS] >= ERROR_UNIT {
            return 0;
        }
        let [base, length] = self.table[first].map(usize::from);
        let segment = &mut self.segments[base - self.first_segment..][..length];
        let clock = usize::from(*self.turns.clock);
        let taken = orders(row, segment, most.min(clock));
        *self.turns.clock = (clock - taken) as u16;
        taken
    }

    /// A tick by rules 2 to 4, for the first task.
    #[inline(always)]
    pub fn other_tick(&mut self, first: usize) -> Told {
        if self.has_error(first) {
            cold_path();
            self.turns.leave(first, status::STOPPED, 0);
            return answered(answer::ERROR_STOP, first);
        }
        if *self.turns.clock == 0 {
            self.turns.pass(first);
            return answered(answer::TURN_PASSED, first);
        }
        self.serve(first)
    }

    #[inline(always)]
    fn has_error(&self, task: usize) -> bool {
        error_of(self.rows[task][FLAGS]) != 0
    }

    /// One tick.
    #[inline(always)]
    pub fn tick(&mut self) -> Told {
        let Some(first) = self.first() else {
            return answered(answer::IDLE, 0);
        };
        if self.take_orders(first, 1) == 0 {
            return self.other_tick(first);
        }
        answered(if self.has_error(first) { answer::ORDER_FAULTED } else { answer::ORDER_DONE }, first)
    }

    /// Any event but a tick.
    #[inline(always)]
    pub fn report(&mut self, [kind, device, character]: [u16; 3]) -> Told {
        let task = usize::from(device);
        if kind == 1 && task < self.tasks() && character <= LARGEST_CHARACTER {
            self.input(task, character)
        } else if kind == 2 && task < self.tasks() && character == 0 {
            self.output_done(task)
        } else {
            refused(numbers::MALFORMED_EVENT)
        }
    }

    #[inline(always)]
    fn input(&mut self, device: usize, character: u16) -> Told {
        let mut queue = self.inputs.at(device);
        if queue.is_full() {
            return refused(numbers::INPUT_FULL);
        }
        queue.append(character);
        if self.turns.status[device][0] == status::WAITS_FOR_INPUT {
            self.turns.wake(device);
        }
        answered(answer::INPUT, device)
    }

    #[inline(always)]
    fn output_done(&mut self, device: usize) -> Told {
        let port = &mut self.ports[device];
        if port[0] == 0 {
            return refused(numbers::PORT_IDLE);
        }
        let mut queue = self.outputs.at(device);
        *port = if queue.is_empty() { [0, 0] } else { [1, queue.take()] };
        if self.turns.status[device][0] == status::WAITS_FOR_OUTPUT {
            self.turns.wake(device);
        }
        answered(answer::OUTPUT_DONE, device)
    }
}
