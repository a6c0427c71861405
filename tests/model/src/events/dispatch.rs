//! Who runs: dispatch, leaving the ready queue, and waking.

use crate::image::{status, Kernel};
use crate::layout::word;

/// Gives the first ready task a whole slice.
fn dispatch(kernel: &mut Kernel) {
    kernel.clock = if kernel.ready.is_empty() { 0 } else { kernel.slice };
}

/// Takes the first task out of the ready queue, with the status that it has
/// from then on, and dispatches.
pub fn leave(kernel: &mut Kernel, status: u16) {
    let first = usize::from(kernel.ready.take());
    kernel.tasks[first].status = status;
    dispatch(kernel);
}

/// Passes the turn of the first task, which becomes the last.
pub fn pass_turn(kernel: &mut Kernel) {
    let first = kernel.ready.take();
    kernel.ready.append(first);
    dispatch(kernel);
}

/// Makes a waiting task ready. The ready queue has room for it: it holds each
/// ready task once and no other.
pub fn wake(kernel: &mut Kernel, task: usize) {
    assert!(!kernel.ready.is_full(), "a wake finds the ready queue full");
    let nobody_was_ready = kernel.ready.is_empty();
    kernel.tasks[task].status = status::READY;
    kernel.tasks[task].peer = 0;
    kernel.ready.append(word(task));
    if nobody_was_ready {
        dispatch(kernel);
    }
}

#[cfg(test)]
mod tests {
    use super::*;
    use crate::check::check;
    use crate::happening::scene::{queue, Scene};

    #[test]
    fn dispatch_sets_the_slice_or_0() {
        let mut kernel = Scene::of(2).clock(3).kernel();
        leave(&mut kernel, 3);
        assert_eq!((kernel.clock, kernel.tasks[0].status), (5, 3));
        assert_eq!(kernel.ready, queue(&[1, 0, 1, 2, 0, 1]));
        leave(&mut kernel, 5);
        assert_eq!((kernel.clock, kernel.tasks[1].status), (0, 5));
        assert_eq!(kernel.ready, queue(&[0, 0, 0, 2, 0, 0]));
    }

    #[test]
    fn a_woken_task_is_the_last_and_has_no_peer() {
        let before = Scene::of(3).waits_to_receive(0, 2).clock(3).kernel();
        let mut after = before.clone();
        wake(&mut after, 0);
        let mut expected = before;
        expected.tasks[0].status = 0;
        expected.tasks[0].peer = 0;
        expected.ready = queue(&[0, 0, 3, 3, 1, 2, 0]);
        assert_eq!(after, expected);
    }

    #[test]
    fn a_wake_dispatches_where_nobody_was_ready() {
        let mut kernel = Scene::of(2).waits_for_input(0).waits_for_input(1).kernel();
        assert_eq!(kernel.clock, 0);
        wake(&mut kernel, 1);
        assert_eq!(kernel.clock, 5);
        kernel.clock = 2;
        wake(&mut kernel, 0);
        assert_eq!(kernel.clock, 2);
        assert_eq!(kernel.ready, queue(&[0, 0, 2, 2, 1, 0]));
    }

    #[test]
    #[should_panic(expected = "a wake finds the ready queue full")]
    fn a_full_ready_queue_takes_no_other() {
        wake(&mut Scene::of(2).kernel(), 0);
    }

    #[test]
    fn no_good_image_has_a_full_ready_queue_and_a_task_that_waits() {
        let full = [0, 0, 2, 2, 5, 6];
        let scenes = [
            Scene::of(2).waits_to_send(0, 1).message(0, 1, &full),
            Scene::of(2).waits_to_receive(0, 1),
            Scene::of(2).waits_for_input(0),
            Scene::of(2).waits_for_output(0, 65).output(0, 64, &full),
        ];
        for scene in scenes {
            assert_eq!(check(&scene.clone().kernel().encode()), 0);
            assert_eq!(check(&scene.ready(&[0, 0, 2, 2, 1, 0]).kernel().encode()), 6);
        }
    }
}
