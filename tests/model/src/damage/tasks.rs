//! Damages to ports, to flags and to the rules of each status.

use super::{choose, with_kernel, with_task, Damage, Row};
use crate::image::{status, Kernel, Task};
use crate::layout::word;
use crate::numbers::OTHER_RULE;
use crate::rng::Rng;

pub fn damages() -> Vec<Damage> {
    let buffers = Damage::of_rows(OTHER_RULE, &BUFFERS);
    [ports(), flags(), statuses(), pendings(), peers(), buffers].into_iter().flatten().collect()
}

/// A damage to any task that fits.
fn damage(
    name: impl Into<String>,
    fits: impl Fn(&Task) -> bool + 'static,
    change: impl Fn(&mut Task) + 'static,
) -> Damage {
    Damage::new(name, OTHER_RULE, move |rng: &mut Rng, kernel: &Kernel| with_task(rng, kernel, &fits, &change))
}

fn idle(task: &Task) -> bool {
    task.port.busy == 0
}

fn has_error(task: &Task) -> bool {
    task.flags.error != 0
}

fn is(wanted: u16) -> impl Fn(&Task) -> bool {
    move |task| task.status == wanted
}

fn ports() -> Vec<Damage> {
    vec![
        damage("port busy 2", |t| !idle(t), |t| t.port.busy = 2),
        damage("port busy 2, else idle", idle, |t| t.port.busy = 2),
        damage("port busy 257", |t| !idle(t), |t| t.port.busy = 257),
        damage("busy port, character 256", |t| !idle(t), |t| t.port.character = 256),
        damage("busy port, character 65535", |t| !idle(t), |t| t.port.character = 65535),
        damage("idle port, character 1", idle, |t| t.port.character = 1),
        damage("idle port, character 256", idle, |t| t.port.character = 256),
        damage("idle port, output buffer not empty", idle, |t| t.output.append(65)),
        damage(
            "port gone idle over a buffer that is not empty",
            |t| !idle(t) && !t.output.is_empty(),
            |t| t.port = Default::default(),
        ),
        damage(
            "port gone idle with its character kept",
            |t| !idle(t) && t.output.is_empty() && t.port.character != 0,
            |t| t.port.busy = 0,
        ),
    ]
}

fn flags() -> Vec<Damage> {
    vec![
        damage("cc 3", |_| true, |t| t.flags.cc = 3),
        damage("error 7", |t| t.flags.pending == 0, |t| t.flags.error = 7),
        damage("pending 5", |t| t.status == 0 && !has_error(t), |t| t.flags.pending = 5),
        damage("pending right only mod 8", |t| !has_error(t), |t| t.flags.pending += 8),
        damage("highest bit of the flags", |t| !has_error(t), |t| t.flags.pending += 1024),
        damage("ready with error and pending", |t| t.status == status::READY && has_error(t), |t| t.flags.pending = 1),
        damage(
            "ready with pending and error",
            |t| t.status == status::READY && t.flags.pending != 0,
            |t| t.flags.error = 6,
        ),
        damage("waiting with error", |t| (1..=4).contains(&t.status), |t| t.flags.error = 1),
        damage("stopped with pending", is(status::STOPPED), |t| t.flags.pending = 4),
    ]
}

fn statuses() -> Vec<Damage> {
    vec![
        damage("status 6", is(status::STOPPED), |t| t.status = 6),
        damage("status 65535", is(status::STOPPED), |t| t.status = 65535),
        damage("status right only mod 8", |_| true, |t| t.status += 8),
        damage("status right only mod 256", |_| true, |t| t.status += 256),
        damage("stopped without error", is(status::STOPPED), |t| t.flags.error = 0),
        damage("stopped task called ready", is(status::STOPPED), |t| t.status = status::READY),
        damage(
            "ready task called stopped",
            |t| t.status == status::READY && has_error(t),
            |t| t.status = status::STOPPED,
        ),
        damage("waits for output, R3 256", is(status::WAITS_FOR_OUTPUT), |t| {
            t.registers[3] = 256;
        }),
        damage("waits for output, R3 65535", is(status::WAITS_FOR_OUTPUT), |t| {
            t.registers[3] = 65535;
        }),
    ]
}

/// Each waiting status with each pending that is not its own.
fn pendings() -> Vec<Damage> {
    let mut list = Vec::new();
    for waiting in 1..=4 {
        for pending in (0..=4).filter(|&pending| pending != waiting) {
            let name = format!("status {waiting}, pending {pending}");
            list.push(damage(name, is(waiting), move |t| t.flags.pending = pending));
        }
    }
    list
}

/// Peers that are no tasks, that R2 does not name, or that nobody waits for.
fn peers() -> Vec<Damage> {
    let mut list = Vec::new();
    for waiting in [status::WAITS_TO_SEND, status::WAITS_TO_RECEIVE] {
        let named = |fault: &str| format!("status {waiting}, {fault}");
        list.push(damage(named("R2 not the peer"), is(waiting), |t| t.registers[2] ^= 1));
        list.push(damage(named("R2 the peer only mod 256"), is(waiting), |t| {
            t.registers[2] += 256;
        }));
        list.push(damage(named("peer not R2"), is(waiting), |t| t.peer ^= 1));
        list.push(damage(named("R2 and peer 65535"), is(waiting), |t| name_peer(t, 65535)));
        list.push(Damage::new(named("R2 and peer N"), OTHER_RULE, move |rng, kernel| {
            let n = word(kernel.tasks.len());
            with_task(rng, kernel, is(waiting), |task| name_peer(task, n))
        }));
    }
    for other in [0, 3, 4, 5] {
        let name = format!("status {other} with a peer");
        list.push(damage(name, is(other), |t| t.peer = 1));
        let name = format!("status {other} with a peer that R2 names");
        list.push(damage(name, is(other), |t| name_peer(t, 1)));
    }
    list
}

fn name_peer(task: &mut Task, peer: u16) {
    task.registers[2] = peer;
    task.peer = peer;
}

/// Waits for a buffer that no longer gives a reason to wait.
const BUFFERS: [Row; 4] = [
    ("waits to send, buffer not full", |rng, kernel| {
        let me = choose(rng, kernel, is(status::WAITS_TO_SEND))?;
        let peer = usize::from(kernel.tasks[me].peer);
        with_kernel(kernel, |kernel| {
            kernel.messages[me][peer].take();
        })
    }),
    ("waits to receive, buffer not empty", |rng, kernel| {
        let me = choose(rng, kernel, is(status::WAITS_TO_RECEIVE))?;
        let peer = usize::from(kernel.tasks[me].peer);
        with_kernel(kernel, |kernel| kernel.messages[peer][me].append(0))
    }),
    ("waits for input, buffer not empty", |rng, kernel| {
        with_task(rng, kernel, is(status::WAITS_FOR_INPUT), |task| task.input.append(0))
    }),
    ("waits for output, buffer not full", |rng, kernel| {
        with_task(rng, kernel, is(status::WAITS_FOR_OUTPUT), |task| {
            task.output.take();
        })
    }),
];
