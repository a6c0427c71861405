//! A good image, lent in parts, and who runs.

use crate::layout::*;
use crate::queues::{Buffers, Queue};
use crate::Told;
use ::kernel::c::NO_ANSWER;
use std::hint::cold_path;

/// The parts of a good image.
pub struct Kernel<'a> {
    pub rows: &'a mut [[u16; ROW_WORDS]],
    pub turns: Turns<'a>,
    pub inputs: Buffers<'a>,
    pub outputs: Buffers<'a>,
    pub messages: Buffers<'a>,
    pub ports: &'a mut [[u16; 2]],
    pub table: &'a [[u16; 2]],
    pub first_segment: usize,
    pub segments: &'a mut [u16],
}

/// The parts that say who runs and who waits.
pub struct Turns<'a> {
    pub slice: u16,
    pub clock: &'a mut u16,
    pub ready: Queue<'a>,
    pub status: &'a mut [[u16; 2]],
}

impl<'a> Kernel<'a> {
    /// Lends the parts of an image that has this layout.
    #[inline(always)]
    pub fn new(image: &'a mut [u16], layout: &Layout) -> Kernel<'a> {
        let n = layout.tasks;
        let (header, rest) = image.split_at_mut(HEADER_WORDS);
        let (rows, rest) = rest.split_at_mut(layout.ready - layout.rows);
        let (ready, rest) = rest.split_at_mut(layout.status - layout.ready);
        let (status, rest) = rest.split_at_mut(2 * n);
        let (inputs, rest) = rest.split_at_mut(layout.outputs - layout.inputs);
        let (outputs, rest) = rest.split_at_mut(layout.messages - layout.outputs);
        let (messages, rest) = rest.split_at_mut(layout.ports - layout.messages);
        let (ports, rest) = rest.split_at_mut(2 * n);
        let (table, segments) = rest.split_at_mut(2 * n);
        Kernel {
            rows: rows.as_chunks_mut().0,
            turns: Turns {
                slice: layout.slice,
                clock: &mut header[CLOCK],
                ready: Queue::new(ready),
                status: status.as_chunks_mut().0,
            },
            inputs: Buffers::new(inputs, layout.input_capacity),
            outputs: Buffers::new(outputs, layout.output_capacity),
            messages: Buffers::new(messages, layout.message_capacity),
            ports: ports.as_chunks_mut().0,
            table: table.as_chunks().0,
            first_segment: layout.first_segment,
            segments,
        }
    }

    /// N.
    #[inline(always)]
    pub fn tasks(&self) -> usize {
        self.rows.len()
    }
}

impl Turns<'_> {
    #[inline(always)]
    pub fn wake(&mut self, task: usize) {
        self.status[task] = [status::READY, 0];
        if self.ready.is_empty() {
            *self.clock = self.slice;
        }
        self.ready.append(task as u16);
    }

    /// The first task leaves the ready queue with a status and a peer;
    /// dispatch.
    #[inline(always)]
    pub fn leave(&mut self, first: usize, status: u16, peer: u16) {
        self.status[first] = [status, peer];
        self.ready.take();
        *self.clock = if self.ready.is_empty() { 0 } else { self.slice };
    }

    /// The first task is taken and appended.
    #[inline(always)]
    pub fn pass(&mut self, first: usize) {
        self.ready.turn(first as u16);
        *self.clock = self.slice;
    }
}

#[inline(always)]
pub fn refused(number: u16) -> Told {
    cold_path();
    Told { number, kind: NO_ANSWER, task: NO_ANSWER }
}

#[inline(always)]
pub fn answered(kind: u16, task: usize) -> Told {
    Told { number: 0, kind, task: task as u16 }
}
