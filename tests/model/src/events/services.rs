//! The four services.

use super::answer;
use super::dispatch::{leave, wake};
use crate::image::{service, status, Kernel, Port, Task, LARGEST_CHARACTER};
use crate::layout::word;

/// The errors of a service that faults.
mod error {
    /// The number of no task.
    pub const TASK: u16 = 5;
    /// An output of more than a character.
    pub const CHARACTER: u16 = 6;
}

/// The register that names a peer or a source.
pub const PEER: usize = 2;
/// The register whose word a service takes or delivers.
pub const WORD: usize = 3;

/// What comes of a service.
enum Outcome {
    Done,
    Waits { status: u16, peer: u16 },
    Faulted { error: u16 },
}

/// Does the pending service of the first task, and gives the kind of the
/// answer.
pub fn serve(kernel: &mut Kernel, me: usize) -> u16 {
    let outcome = match kernel.tasks[me].flags.pending {
        service::SEND => send(kernel, me),
        service::RECEIVE => receive(kernel, me),
        service::INPUT => input(&mut kernel.tasks[me]),
        service::OUTPUT => output(&mut kernel.tasks[me]),
        other => unreachable!("{other} is no service"),
    };
    conclude(kernel, me, outcome)
}

/// Sets what an outcome says of the task itself.
fn conclude(kernel: &mut Kernel, me: usize, outcome: Outcome) -> u16 {
    let task = &mut kernel.tasks[me];
    match outcome {
        Outcome::Done => {
            task.flags.pending = 0;
            answer::SERVICE_DONE
        }
        Outcome::Waits { status, peer } => {
            task.peer = peer;
            leave(kernel, status);
            answer::SERVICE_WAITS
        }
        Outcome::Faulted { error } => {
            task.flags.pending = 0;
            task.flags.error = error;
            answer::SERVICE_FAULTED
        }
    }
}

fn send(kernel: &mut Kernel, me: usize) -> Outcome {
    let Some(peer) = named_task(kernel, me) else {
        return Outcome::Faulted { error: error::TASK };
    };
    let buffer = &mut kernel.messages[me][peer];
    if buffer.is_full() {
        return Outcome::Waits { status: status::WAITS_TO_SEND, peer: word(peer) };
    }
    buffer.append(kernel.tasks[me].registers[WORD]);
    if waits(&kernel.tasks[peer], status::WAITS_TO_RECEIVE, me) {
        wake(kernel, peer);
    }
    Outcome::Done
}

fn receive(kernel: &mut Kernel, me: usize) -> Outcome {
    let Some(source) = named_task(kernel, me) else {
        return Outcome::Faulted { error: error::TASK };
    };
    let buffer = &mut kernel.messages[source][me];
    if buffer.is_empty() {
        return Outcome::Waits { status: status::WAITS_TO_RECEIVE, peer: word(source) };
    }
    kernel.tasks[me].registers[WORD] = buffer.take();
    if waits(&kernel.tasks[source], status::WAITS_TO_SEND, me) {
        wake(kernel, source);
    }
    Outcome::Done
}

fn input(task: &mut Task) -> Outcome {
    if task.input.is_empty() {
        return Outcome::Waits { status: status::WAITS_FOR_INPUT, peer: 0 };
    }
    task.registers[WORD] = task.input.take();
    Outcome::Done
}

fn output(task: &mut Task) -> Outcome {
    let character = task.registers[WORD];
    if character > LARGEST_CHARACTER {
        return Outcome::Faulted { error: error::CHARACTER };
    }
    if task.output.is_full() {
        return Outcome::Waits { status: status::WAITS_FOR_OUTPUT, peer: 0 };
    }
    task.output.append(character);
    if task.port.is_idle() {
        task.port = Port::printing(task.output.take());
    }
    Outcome::Done
}

/// The task that R2 names, if there is such a task.
fn named_task(kernel: &Kernel, me: usize) -> Option<usize> {
    let number = usize::from(kernel.tasks[me].registers[PEER]);
    (number < kernel.tasks.len()).then_some(number)
}

/// Whether a task waits in this status for this other task.
fn waits(task: &Task, status: u16, other: usize) -> bool {
    task.status == status && usize::from(task.peer) == other
}

#[cfg(test)]
mod tests {
    use crate::events::tests::{after, TICK};
    use crate::happening::scene::{queue, Scene};
    use crate::image::{Flags, Port};

    const FULL: [u16; 6] = [0, 0, 2, 2, 5, 6];

    /// Asserts that the pending service of task 0 faults with an error, which
    /// takes the place of pending, that the clock of 5 falls by 1, and that
    /// nothing else changes.
    fn assert_fault(scene: Scene, error: u16) {
        let mut before = scene.kernel();
        before.tasks[0].flags.cc = 2;
        let mut expected = before.clone();
        expected.tasks[0].flags = Flags { cc: 2, error, pending: 0 };
        expected.clock = 4;
        assert_eq!(after(&before, TICK, 5, 0), expected);
    }

    /// Asserts that the pending service of task 0, the first of two, waits in
    /// this status with this peer, and that registers and flags stay.
    fn assert_waits(scene: Scene, status: u16, peer: u16) {
        let before = scene.clock(2).kernel();
        let mut expected = before.clone();
        expected.tasks[0].status = status;
        expected.tasks[0].peer = peer;
        expected.ready = queue(&[1, 0, 1, 2, 0, 1]);
        expected.clock = 5;
        assert_eq!(after(&before, TICK, 4, 0), expected);
    }

    #[test]
    fn a_send_moves_its_word() {
        let before = Scene::of(2).asks(0, 1, 1, 65535).kernel();
        let mut expected = before.clone();
        expected.tasks[0].flags.pending = 0;
        expected.messages[0][1] = queue(&[0, 1, 1, 2, 65535, 0]);
        expected.clock = 4;
        assert_eq!(after(&before, TICK, 3, 0), expected);
    }

    #[test]
    fn a_receive_delivers_the_first_word_even_0() {
        let scene = Scene::of(2).asks(0, 2, 1, 9);
        let before = scene.message(1, 0, &[1, 1, 2, 2, 300, 0]).kernel();
        let mut expected = before.clone();
        expected.tasks[0].flags.pending = 0;
        expected.tasks[0].registers[3] = 0;
        expected.messages[1][0] = queue(&[0, 1, 1, 2, 300, 0]);
        expected.clock = 4;
        assert_eq!(after(&before, TICK, 3, 0), expected);
    }

    #[test]
    fn an_input_service_delivers_the_first_character() {
        let before = Scene::of(2).asks(0, 3, 65535, 9).input(0, &[0, 1, 1, 2, 65, 0]).kernel();
        let mut expected = before.clone();
        expected.tasks[0].flags.pending = 0;
        expected.tasks[0].registers[3] = 65;
        expected.tasks[0].input = queue(&[1, 1, 0, 2, 0, 0]);
        expected.clock = 4;
        assert_eq!(after(&before, TICK, 3, 0), expected);
    }

    #[test]
    fn an_output_to_an_idle_port_goes_through_the_buffer() {
        let before = Scene::of(2).asks(0, 4, 65535, 255).kernel();
        let mut expected = before.clone();
        expected.tasks[0].flags.pending = 0;
        expected.tasks[0].output = queue(&[1, 1, 0, 2, 0, 0]);
        expected.tasks[0].port = Port { busy: 1, character: 255 };
        expected.clock = 4;
        assert_eq!(after(&before, TICK, 3, 0), expected);
    }

    #[test]
    fn an_output_to_a_busy_port_stays_in_the_buffer() {
        let scene = Scene::of(2).asks(0, 4, 0, 66);
        let before = scene.output(0, 64, &[1, 0, 1, 2, 0, 65]).kernel();
        let mut expected = before.clone();
        expected.tasks[0].flags.pending = 0;
        expected.tasks[0].output = queue(&[1, 1, 2, 2, 66, 65]);
        expected.clock = 4;
        assert_eq!(after(&before, TICK, 3, 0), expected);
    }

    #[test]
    fn a_service_waits_where_its_buffer_is_full_or_empty() {
        assert_waits(Scene::of(2).asks(0, 1, 1, 7).message(0, 1, &FULL), 1, 1);
        assert_waits(Scene::of(2).asks(0, 2, 1, 7).message(0, 1, &FULL), 2, 1);
        assert_waits(Scene::of(2).asks(0, 3, 1, 7), 3, 0);
        assert_waits(Scene::of(2).asks(0, 4, 1, 7).output(0, 64, &FULL), 4, 0);
    }

    #[test]
    fn the_last_task_that_waits_leaves_clock_0() {
        let waiting = after(&Scene::of(1).asks(0, 2, 0, 7).kernel(), TICK, 4, 0);
        assert_eq!((waiting.clock, waiting.tasks[0].status), (0, 2));
        assert_eq!(after(&waiting, TICK, 0, 0), waiting);
    }

    #[test]
    fn the_number_of_no_task_is_error_5() {
        for number in [2, 3, 65535] {
            assert_fault(Scene::of(2).asks(0, 1, number, 7), 5);
            assert_fault(Scene::of(2).asks(0, 2, number, 7), 5);
        }
    }

    #[test]
    fn an_output_over_255_is_error_6_even_where_the_buffer_is_full() {
        for character in [256, 65535] {
            assert_fault(Scene::of(2).asks(0, 4, 0, character), 6);
            assert_fault(Scene::of(2).asks(0, 4, 0, character).output(0, 64, &FULL), 6);
        }
    }

    #[test]
    fn a_send_wakes_the_peer_that_waits_for_the_sender() {
        let before = Scene::of(3).waits_to_receive(0, 1).asks(1, 1, 0, 7).clock(2).kernel();
        let mut expected = before.clone();
        expected.tasks[1].flags.pending = 0;
        expected.messages[1][0] = queue(&[0, 1, 1, 2, 7, 0]);
        expected.tasks[0].status = 0;
        expected.tasks[0].peer = 0;
        expected.ready = queue(&[0, 0, 3, 3, 1, 2, 0]);
        expected.clock = 1;
        assert_eq!(after(&before, TICK, 3, 1), expected);
    }

    #[test]
    fn a_receive_wakes_the_source_that_waits_for_the_receiver() {
        let scene = Scene::of(3).waits_to_send(0, 1).message(0, 1, &FULL);
        let before = scene.asks(1, 2, 0, 7).clock(2).kernel();
        let mut expected = before.clone();
        expected.tasks[1].flags.pending = 0;
        expected.tasks[1].registers[3] = 5;
        expected.messages[0][1] = queue(&[1, 0, 1, 2, 0, 6]);
        expected.tasks[0].status = 0;
        expected.tasks[0].peer = 0;
        expected.ready = queue(&[0, 0, 3, 3, 1, 2, 0]);
        expected.clock = 1;
        assert_eq!(after(&before, TICK, 3, 1), expected);
    }

    #[test]
    fn who_waits_for_another_is_not_woken() {
        let receives = Scene::of(3).waits_to_receive(2, 1).asks(0, 1, 2, 7);
        let sends = Scene::of(3).waits_to_send(2, 1).message(2, 1, &FULL).asks(0, 1, 2, 7);
        let reads = Scene::of(3).waits_for_input(2).asks(0, 1, 2, 7);
        let answers = Scene::of(3).waits_to_send(2, 0).message(2, 0, &FULL).asks(0, 1, 2, 7);
        for scene in [receives, sends, reads, answers] {
            let before = scene.kernel();
            let mut expected = before.clone();
            expected.tasks[0].flags.pending = 0;
            expected.messages[0][2] = queue(&[0, 1, 1, 2, 7, 0]);
            expected.clock = 4;
            assert_eq!(after(&before, TICK, 3, 0), expected);
        }
    }

    #[test]
    fn a_source_that_waits_for_another_is_not_woken() {
        let sends = Scene::of(3).waits_to_send(2, 1).message(2, 1, &FULL);
        let receives = Scene::of(3).waits_to_receive(2, 0);
        for scene in [sends, receives, Scene::of(3).waits_for_input(2)] {
            let scene = scene.asks(0, 2, 2, 9);
            let before = scene.message(2, 0, &[0, 1, 1, 2, 7, 0]).kernel();
            let mut expected = before.clone();
            expected.tasks[0].flags.pending = 0;
            expected.tasks[0].registers[3] = 7;
            expected.messages[2][0] = queue(&[1, 1, 0, 2, 0, 0]);
            expected.clock = 4;
            assert_eq!(after(&before, TICK, 3, 0), expected);
        }
    }

    #[test]
    fn a_task_sends_to_itself_and_waits_for_itself() {
        let sent = after(&Scene::of(1).asks(0, 1, 0, 7).kernel(), TICK, 3, 0);
        assert_eq!(sent.messages[0][0], queue(&[0, 1, 1, 2, 7, 0]));
        assert_eq!(sent.ready.held, [0]);
        assert_waits(Scene::of(2).asks(0, 1, 0, 7).message(0, 0, &FULL), 1, 0);
        assert_waits(Scene::of(2).asks(0, 2, 0, 7), 2, 0);
    }
}
