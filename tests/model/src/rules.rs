//! What an image must hold beyond its header, segments and queues: the rest
//! of number 6, one function for each rule.

use crate::image::{service, status, Flags, Kernel, Task, LARGEST_CHARACTER};
use crate::queue::Queue;

/// Whether a kernel keeps every rule that a struct of sound queues can break.
pub fn hold(kernel: &Kernel) -> bool {
    ready_queue_holds_the_ready(kernel)
        && clock_fits(kernel)
        && kernel.tasks.iter().all(characters_fit)
        && kernel.tasks.iter().all(port_fits)
        && kernel.tasks.iter().all(|task| flags_fit(&task.flags))
        && (0..kernel.tasks.len()).all(|me| status_fits(kernel, me))
        && free_slots_hold_0(kernel)
}

/// Each task of status 0 exactly once, and no other.
fn ready_queue_holds_the_ready(kernel: &Kernel) -> bool {
    let mut queued: Vec<usize> = kernel.ready.held.iter().map(|&w| usize::from(w)).collect();
    queued.sort_unstable();
    let ready = (0..kernel.tasks.len()).filter(|&i| kernel.tasks[i].status == status::READY);
    queued.into_iter().eq(ready)
}

/// At most S; 0 where the ready queue is empty.
fn clock_fits(kernel: &Kernel) -> bool {
    let most = if kernel.ready.is_empty() { 0 } else { kernel.slice };
    kernel.clock <= most
}

fn characters_fit(task: &Task) -> bool {
    task.input.held.iter().chain(&task.output.held).all(|&w| w <= LARGEST_CHARACTER)
}

/// A busy port has a character; an idle one has character 0 and nothing left
/// to put out.
fn port_fits(task: &Task) -> bool {
    match task.port.busy {
        0 => task.port.character == 0 && task.output.is_empty(),
        1 => task.port.character <= LARGEST_CHARACTER,
        _ => false,
    }
}

fn flags_fit(flags: &Flags) -> bool {
    flags.cc <= 2 && flags.error <= 6 && flags.pending <= 4 && (flags.error == 0 || flags.pending == 0)
}

/// The rules of a task's own status, its peer field included.
fn status_fits(kernel: &Kernel, me: usize) -> bool {
    let task = &kernel.tasks[me];
    let pending = task.flags.pending;
    let buffer = |from: usize, to: usize| &kernel.messages[from][to];
    let peer = named_peer(kernel, task);
    match task.status {
        status::READY => task.peer == 0,
        status::WAITS_TO_SEND => pending == service::SEND && peer.is_some_and(|peer| buffer(me, peer).is_full()),
        status::WAITS_TO_RECEIVE => pending == service::RECEIVE && peer.is_some_and(|peer| buffer(peer, me).is_empty()),
        status::WAITS_FOR_INPUT => task.peer == 0 && pending == service::INPUT && task.input.is_empty(),
        status::WAITS_FOR_OUTPUT => {
            task.peer == 0
                && pending == service::OUTPUT
                && task.registers[3] <= LARGEST_CHARACTER
                && task.output.is_full()
        }
        status::STOPPED => task.peer == 0 && task.flags.error != 0,
        _ => false,
    }
}

/// 0 in every free slot of every queue, the ready queue too.
fn free_slots_hold_0(kernel: &Kernel) -> bool {
    let devices = kernel.tasks.iter().flat_map(|task| [&task.input, &task.output]);
    devices.chain(kernel.messages.iter().flatten()).chain([&kernel.ready]).all(Queue::is_clear)
}

/// The task that both R2 and the peer field name, if there is such a task.
fn named_peer(kernel: &Kernel, task: &Task) -> Option<usize> {
    let peer = usize::from(task.peer);
    (task.registers[2] == task.peer && peer < kernel.tasks.len()).then_some(peer)
}
