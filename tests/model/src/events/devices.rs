//! What devices report: an input, and an output that is done.

use super::dispatch::wake;
use super::{answer, Answer};
use crate::image::{status, Kernel, Port};
use crate::numbers::{self, require};

/// An input: the character joins the owner's input buffer.
pub fn input(kernel: &mut Kernel, device: u16, character: u16) -> Result<Answer, u16> {
    let owner = usize::from(device);
    let task = &mut kernel.tasks[owner];
    require(!task.input.is_full(), numbers::INPUT_FULL)?;
    task.input.append(character);
    if task.status == status::WAITS_FOR_INPUT {
        wake(kernel, owner);
    }
    Ok(Answer { kind: answer::INPUT, task: device })
}

/// Output done: the port goes on with the next character, or goes idle.
pub fn output_done(kernel: &mut Kernel, device: u16) -> Result<Answer, u16> {
    let owner = usize::from(device);
    let task = &mut kernel.tasks[owner];
    require(!task.port.is_idle(), numbers::PORT_IDLE)?;
    task.port = if task.output.is_empty() { Port::default() } else { Port::printing(task.output.take()) };
    if task.status == status::WAITS_FOR_OUTPUT {
        wake(kernel, owner);
    }
    Ok(Answer { kind: answer::OUTPUT_DONE, task: device })
}

#[cfg(test)]
mod tests {
    use crate::events::tests::{after, refusal};
    use crate::happening::scene::{queue, Scene};
    use crate::image::Port;

    #[test]
    fn an_input_joins_the_buffer() {
        let before = Scene::of(2).input(1, &[1, 0, 1, 2, 0, 5]).clock(3).kernel();
        let mut expected = before.clone();
        expected.tasks[1].input = queue(&[1, 1, 2, 2, 65, 5]);
        let full = after(&before, [1, 1, 65], 8, 1);
        assert_eq!(full, expected);
        assert_eq!(refusal(&full, [1, 1, 65]), 8);
    }

    #[test]
    fn an_input_wakes_the_owner_that_waits_for_it() {
        let before = Scene::of(2).waits_for_input(1).clock(3).kernel();
        let mut expected = before.clone();
        expected.tasks[1].status = 0;
        expected.tasks[1].input = queue(&[0, 1, 1, 2, 65, 0]);
        expected.ready = queue(&[0, 0, 2, 2, 0, 1]);
        assert_eq!(after(&before, [1, 1, 65], 8, 1), expected);
        assert_eq!(expected.tasks[1].flags.pending, 3);
    }

    #[test]
    fn an_input_wakes_nobody_who_waits_for_something_else() {
        let full = [0, 0, 2, 2, 5, 6];
        let scenes = [
            Scene::of(2).waits_to_send(1, 0).message(1, 0, &full),
            Scene::of(2).waits_to_receive(1, 0),
            Scene::of(2).waits_for_output(1, 65).output(1, 64, &full),
            Scene::of(2).stopped(1, 3),
        ];
        for scene in scenes {
            let before = scene.kernel();
            let mut expected = before.clone();
            expected.tasks[1].input = queue(&[0, 1, 1, 2, 0, 0]);
            assert_eq!(after(&before, [1, 1, 0], 8, 1), expected);
        }
    }

    #[test]
    fn a_port_goes_on_until_the_buffer_is_empty() {
        let before = Scene::of(1).output(0, 64, &[1, 1, 2, 2, 0, 66]).kernel();
        let mut expected = before.clone();
        expected.tasks[0].output = queue(&[0, 1, 1, 2, 0, 0]);
        expected.tasks[0].port = Port { busy: 1, character: 66 };
        let first = after(&before, [2, 0, 0], 9, 0);
        assert_eq!(first, expected);
        expected.tasks[0].output = queue(&[1, 1, 0, 2, 0, 0]);
        expected.tasks[0].port = Port { busy: 1, character: 0 };
        let last = after(&first, [2, 0, 0], 9, 0);
        assert_eq!(last, expected);
        expected.tasks[0].port = Port { busy: 0, character: 0 };
        let idle = after(&last, [2, 0, 0], 9, 0);
        assert_eq!(idle, expected);
        assert_eq!(refusal(&idle, [2, 0, 0]), 9);
    }

    #[test]
    fn output_done_wakes_the_owner_that_waits_for_it() {
        let scene = Scene::of(1).waits_for_output(0, 67);
        let before = scene.output(0, 64, &[0, 0, 2, 2, 65, 66]).kernel();
        let mut expected = before.clone();
        expected.tasks[0].output = queue(&[1, 0, 1, 2, 0, 66]);
        expected.tasks[0].port = Port { busy: 1, character: 65 };
        expected.tasks[0].status = 0;
        expected.ready = queue(&[0, 0, 1, 1, 0]);
        expected.clock = 5;
        assert_eq!(after(&before, [2, 0, 0], 9, 0), expected);
    }

    #[test]
    fn output_done_wakes_nobody_who_waits_for_something_else() {
        let scenes = [Scene::of(2).waits_for_input(0), Scene::of(2).waits_to_receive(0, 1), Scene::of(2)];
        for scene in scenes {
            let before = scene.output(0, 64, &[1, 1, 0, 2, 0, 0]).kernel();
            let mut expected = before.clone();
            expected.tasks[0].port = Port { busy: 0, character: 0 };
            assert_eq!(after(&before, [2, 0, 0], 9, 0), expected);
        }
    }
}
