//! Images made by hand.

use crate::image::{Flags, Kernel};
use crate::layout::{word, Frame};
use crate::plan;

/// The segments of the neighbours in `Scene::between`.
const NEIGHBOURS: [[u16; 3]; 2] = [[501, 502, 503], [601, 602, 603]];

/// The tasks' segments, and the task that is first in the ready queue with
/// its registers and flags. All else is as in a fresh image.
#[derive(Clone, Debug)]
pub struct Scene {
    pub segments: Vec<Vec<u16>>,
    pub first: usize,
    pub registers: [u16; 8],
    pub flags: Flags,
}

impl Scene {
    /// One task with nothing but 0 in its registers and flags.
    pub fn alone(segment: &[u16]) -> Scene {
        let flags = Flags::default();
        Scene { segments: vec![segment.to_vec()], first: 0, registers: [0; 8], flags }
    }

    /// The same task, now the second of three.
    pub fn between(mut self) -> Scene {
        let [before, after] = NEIGHBOURS.map(Vec::from);
        self.segments.insert(0, before);
        self.segments.push(after);
        self.first = 1;
        self
    }

    pub fn register(mut self, register: usize, word: u16) -> Scene {
        self.registers[register] = word;
        self
    }

    pub fn flags(mut self, cc: u16, error: u16, pending: u16) -> Scene {
        self.flags = Flags { cc, error, pending };
        self
    }

    pub fn kernel(&self) -> Kernel {
        let mut kernel = plan::accept(&self.plan()).expect("the scene's plan is good");
        for _ in 0..self.first {
            let task = kernel.ready.take();
            kernel.ready.append(task);
        }
        let task = &mut kernel.tasks[self.first];
        task.registers = self.registers;
        task.flags = self.flags;
        kernel
    }

    /// A plan of smallest buffers, with programs that fill the segments.
    fn plan(&self) -> Vec<u16> {
        let tasks = self.segments.len();
        let frame = Frame { tasks, slice: 9, input: 1, output: 1, message: 1 };
        let pairs = self.segments.iter().flat_map(|segment| [word(segment.len()); 2]);
        let programs = self.segments.iter().flatten().copied();
        frame.words().into_iter().chain(pairs).chain(programs).collect()
    }
}
