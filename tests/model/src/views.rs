//! Looking into an image: the state of a task, a port, a register, and what a
//! queue holds. A look is refused with the number of the check, or, where what
//! is asked for is not there, with a number of its own.

use crate::check::accept;
use crate::image::{Kernel, Task};
use crate::layout::word;
use crate::numbers::NOT_THERE;
use crate::queue::Queue;
use crate::which::Which;

/// Status, peer, cc, error and pending of a task.
pub fn task(image: &[u16], task: u16) -> Result<[u16; 5], u16> {
    let kernel = accept(image)?;
    let Task { status, peer, flags, .. } = *named(&kernel, task)?;
    Ok([status, peer, flags.cc, flags.error, flags.pending])
}

/// Busy and character of a device's port.
pub fn port(image: &[u16], device: u16) -> Result<[u16; 2], u16> {
    let kernel = accept(image)?;
    let port = named(&kernel, device)?.port;
    Ok([port.busy, port.character])
}

/// A register of a task.
pub fn register(image: &[u16], task: u16, register: u16) -> Result<u16, u16> {
    let kernel = accept(image)?;
    let registers = named(&kernel, task)?.registers;
    registers.get(usize::from(register)).copied().ok_or(NOT_THERE)
}

/// How many words a queue holds.
pub fn queue_length(image: &[u16], queue: u16, i: u16, j: u16) -> Result<u16, u16> {
    let kernel = accept(image)?;
    let queue = named_queue(&kernel, queue, i, j)?;
    Ok(word(queue.held.len()))
}

/// A word that a queue holds, counted from the one that is taken next.
pub fn queue_word(image: &[u16], queue: u16, i: u16, j: u16, at: u16) -> Result<u16, u16> {
    let kernel = accept(image)?;
    let queue = named_queue(&kernel, queue, i, j)?;
    queue.held.get(usize::from(at)).copied().ok_or(NOT_THERE)
}

/// The task of a number, if there is one.
fn named(kernel: &Kernel, task: u16) -> Result<&Task, u16> {
    kernel.tasks.get(usize::from(task)).ok_or(NOT_THERE)
}

/// The queue that three words name, if there is one.
fn named_queue(kernel: &Kernel, queue: u16, i: u16, j: u16) -> Result<&Queue, u16> {
    let which = Which::named(kernel.tasks.len(), queue, i, j).ok_or(NOT_THERE)?;
    Ok(which.of(kernel))
}

#[cfg(test)]
mod tests {
    use super::*;
    use crate::happening::scene::Scene;

    /// Three tasks: task 0 waits to send to task 2, task 1 is ready and second
    /// to nobody, task 2 is stopped by error 6.
    fn image() -> Vec<u16> {
        let scene = Scene::of(3)
            .message(0, 2, &[1, 1, 2, 2, 70, 71])
            .message(2, 0, &[0, 1, 1, 2, 80, 0])
            .input(1, &[1, 0, 1, 2, 0, 91])
            .output(2, 65, &[0, 1, 1, 2, 92, 0])
            .register(1, 7, 4321)
            .waits_to_send(0, 2)
            .stopped(2, 6)
            .flags(1, 2, 0, 3);
        scene.kernel().encode()
    }

    #[test]
    fn the_state_of_each_task() {
        assert_eq!(task(&image(), 0), Ok([1, 2, 0, 0, 1]));
        assert_eq!(task(&image(), 1), Ok([0, 0, 2, 0, 3]));
        assert_eq!(task(&image(), 2), Ok([5, 0, 0, 6, 0]));
        assert!([3, 16, 256, 65535].iter().all(|&none| task(&image(), none) == Err(65535)));
    }

    #[test]
    fn ports_and_registers() {
        assert_eq!(port(&image(), 1), Ok([0, 0]));
        assert_eq!(port(&image(), 2), Ok([1, 65]));
        assert_eq!(port(&image(), 3), Err(65535));
        assert_eq!(register(&image(), 0, 2), Ok(2));
        assert_eq!(register(&image(), 1, 7), Ok(4321));
        assert_eq!(register(&image(), 1, 8), Err(65535));
        assert_eq!(register(&image(), 3, 0), Err(65535));
    }

    #[test]
    fn queues_are_read_from_the_head_on() {
        let length = |queue, i, j| queue_length(&image(), queue, i, j);
        let at = |queue, i, j, at| queue_word(&image(), queue, i, j, at);
        assert_eq!([length(0, 0, 0), length(1, 1, 0), length(2, 2, 0)], [Ok(1); 3]);
        assert_eq!([length(3, 0, 2), length(3, 2, 0), length(3, 2, 2)], [Ok(2), Ok(1), Ok(0)]);
        assert_eq!([at(0, 0, 0, 0), at(0, 0, 0, 1)], [Ok(1), Err(65535)]);
        assert_eq!([at(3, 0, 2, 0), at(3, 0, 2, 1), at(3, 0, 2, 2)], [Ok(71), Ok(70), Err(65535)]);
        assert_eq!([at(3, 2, 0, 0), at(3, 2, 0, 1)], [Ok(80), Err(65535)]);
        assert_eq!([at(1, 1, 0, 0), at(2, 2, 0, 0), at(2, 0, 0, 0)], [Ok(91), Ok(92), Err(65535)]);
    }

    #[test]
    fn what_a_queue_does_not_need_is_0() {
        let length = |queue, i, j| queue_length(&image(), queue, i, j);
        let none =
            [length(0, 1, 0), length(0, 0, 1), length(1, 1, 1), length(1, 3, 0), length(3, 0, 3), length(4, 0, 0)];
        assert_eq!(none, [Err(65535); 6]);
    }

    #[test]
    fn the_image_is_refused_before_what_is_not_there() {
        let mut image = image();
        image[17] = 6;
        assert_eq!(task(&image, 3), Err(6));
        assert_eq!(port(&image, 3), Err(6));
        assert_eq!(register(&image, 0, 8), Err(6));
        assert_eq!(queue_length(&image, 4, 0, 0), Err(6));
        assert_eq!(queue_word(&image, 0, 0, 0, 9), Err(6));
        assert_eq!(task(&image[..17], 0), Err(1));
    }
}
