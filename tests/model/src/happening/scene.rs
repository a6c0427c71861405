//! Images made by hand, from a fresh one on.

use crate::events::{PEER, WORD};
use crate::image::{service, status, Flags, Kernel, Port};
use crate::layout::{word, Frame, QUEUE_LEAD};
use crate::plan;
use crate::queue::Queue;

/// Copies R4 from R5.
const COPY: u16 = 0x0245;
/// The word of a queue that holds its capacity.
const CAPACITY: usize = 3;

/// A kernel that is changed one thing at a time.
#[derive(Clone, Debug)]
pub struct Scene {
    kernel: Kernel,
}

impl Scene {
    /// So many fresh tasks that do nothing of note. S is 5, and buffers have
    /// room for two words.
    pub fn of(tasks: usize) -> Scene {
        Scene::running(tasks, &[COPY; 2])
    }

    /// The same with each task's segment filled by this program.
    pub fn running(tasks: usize, program: &[u16]) -> Scene {
        Scene::framed(Frame { tasks, slice: 5, input: 2, output: 2, message: 2 }, program)
    }

    /// So many fresh tasks with buffers of one word.
    pub fn narrow(tasks: usize) -> Scene {
        Scene::framed(Frame { tasks, slice: 5, input: 1, output: 1, message: 1 }, &[COPY])
    }

    /// The fresh image of a frame, with each segment filled by a program.
    pub fn framed(frame: Frame, program: &[u16]) -> Scene {
        let pairs = [word(program.len()); 2].repeat(frame.tasks);
        let plan = [frame.words().to_vec(), pairs, program.repeat(frame.tasks)].concat();
        Scene::planned(&plan)
    }

    /// The fresh image of a good plan.
    pub fn planned(plan: &[u16]) -> Scene {
        Scene { kernel: plan::accept(plan).expect("the scene's plan is good") }
    }

    pub fn kernel(self) -> Kernel {
        self.kernel
    }

    /// S, which the clock then is.
    pub fn slice(mut self, slice: u16) -> Scene {
        self.kernel.slice = slice;
        self.clock(slice)
    }

    pub fn clock(mut self, clock: u16) -> Scene {
        self.kernel.clock = clock;
        self
    }

    pub fn register(mut self, task: usize, register: usize, word: u16) -> Scene {
        self.kernel.tasks[task].registers[register] = word;
        self
    }

    pub fn flags(mut self, task: usize, cc: u16, error: u16, pending: u16) -> Scene {
        self.kernel.tasks[task].flags = Flags { cc, error, pending };
        self
    }

    /// A pending service, with R2 and R3.
    pub fn asks(self, task: usize, service: u16, peer: u16, word: u16) -> Scene {
        self.flags(task, 0, 0, service).register(task, PEER, peer).register(task, WORD, word)
    }

    /// The words of the ready queue.
    pub fn ready(mut self, words: &[u16]) -> Scene {
        self.kernel.ready = queue(words);
        self
    }

    /// The words of an input buffer.
    pub fn input(mut self, task: usize, words: &[u16]) -> Scene {
        self.kernel.tasks[task].input = queue(words);
        self
    }

    /// A busy port's character, and the words of the output buffer.
    pub fn output(mut self, task: usize, character: u16, words: &[u16]) -> Scene {
        self.kernel.tasks[task].port = Port::printing(character);
        self.idle_output(task, words)
    }

    /// The words of the output buffer alone.
    pub fn idle_output(mut self, task: usize, words: &[u16]) -> Scene {
        self.kernel.tasks[task].output = queue(words);
        self
    }

    /// The words of the message buffer from one task to another.
    pub fn message(mut self, from: usize, to: usize, words: &[u16]) -> Scene {
        self.kernel.messages[from][to] = queue(words);
        self
    }

    pub fn waits_to_send(self, task: usize, peer: u16) -> Scene {
        self.asks(task, service::SEND, peer, 0).left(task, status::WAITS_TO_SEND, peer)
    }

    pub fn waits_to_receive(self, task: usize, source: u16) -> Scene {
        self.asks(task, service::RECEIVE, source, 0).left(task, status::WAITS_TO_RECEIVE, source)
    }

    pub fn waits_for_input(self, task: usize) -> Scene {
        self.asks(task, service::INPUT, 0, 0).left(task, status::WAITS_FOR_INPUT, 0)
    }

    pub fn waits_for_output(self, task: usize, character: u16) -> Scene {
        self.asks(task, service::OUTPUT, 0, character).left(task, status::WAITS_FOR_OUTPUT, 0)
    }

    pub fn stopped(self, task: usize, error: u16) -> Scene {
        self.flags(task, 0, error, 0).left(task, status::STOPPED, 0)
    }

    /// A status outside the ready queue, in which the others stay from the
    /// first slot on. With nobody left the clock is 0.
    fn left(mut self, task: usize, status: u16, peer: u16) -> Scene {
        self.kernel.tasks[task].status = status;
        self.kernel.tasks[task].peer = peer;
        let ready = &mut self.kernel.ready;
        ready.held.retain(|&other| usize::from(other) != task);
        ready.free = vec![0; self.kernel.tasks.len() - ready.held.len()].into();
        let nobody = ready.is_empty();
        let clock = if nobody { 0 } else { self.kernel.clock };
        self.clock(clock)
    }
}

/// The sound queue of these words: head, tail, length, capacity and slots.
pub fn queue(words: &[u16]) -> Queue {
    let capacity = usize::from(words[CAPACITY]);
    assert_eq!(words.len(), QUEUE_LEAD + capacity);
    Queue::decode(words, capacity).expect("the queue is sound")
}
