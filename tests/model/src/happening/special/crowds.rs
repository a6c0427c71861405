//! Sixteen tasks, with buffers that are full.

use super::cell::Cell::{Character, Clock, Flags, Message, Output, Peer, Ready, Status, R};
use super::cell::{Cell, HEAD, LENGTH, SLOT, TAIL};
use super::Special;
use crate::events::answer::{ERROR_STOP, IDLE, ORDER_DONE, SERVICE_DONE, SERVICE_FAULTED, SERVICE_WAITS};
use crate::events::Event;
use crate::happening::scene::Scene;
use crate::image::service::{RECEIVE, SEND};
use crate::layout::{word, Frame, LARGEST_TASKS};
use crate::numbers::{INPUT_FULL, PORT_IDLE};

const LAST: usize = LARGEST_TASKS - 1;
/// Adds R4 to R2, receives, and begins again.
const COLLECTS: [u16; 4] = [0x0524, 0x1220, 0x0E00, 0];
/// A buffer of one slot that is full.
const FULL: [u16; 5] = [0, 0, 1, 1, 65];

/// Sixteen tasks.
pub fn all() -> Vec<Special> {
    [vec![all_wait_to_send(), all_are_woken(), inputs(), outputs()], peers()].concat()
}

/// Sixteen tasks, S of 65535, buffers of one slot.
fn crowd() -> Scene {
    let frame = Frame { tasks: LARGEST_TASKS, slice: 65535, input: 1, output: 1, message: 1 };
    Scene::framed(frame, &COLLECTS)
}

/// The same with every message buffer full.
fn full_messages() -> Scene {
    let pairs = (0..LARGEST_TASKS).flat_map(|from| (0..LARGEST_TASKS).map(move |to| (from, to)));
    pairs.fold(crowd(), |scene, (from, to)| scene.message(from, to, &FULL))
}

/// Each task sends to the next, finds the buffer full, and waits.
fn all_wait_to_send() -> Special {
    let next = |task: usize| word((task + 1) % LARGEST_TASKS);
    let asking = (0..LARGEST_TASKS).fold(full_messages(), |scene, task| scene.asks(task, SEND, next(task), 7));
    let mut special = Special::on(asking);
    for task in 0..LAST {
        let left = [
            (Ready(HEAD), word(task + 1)),
            (Ready(LENGTH), word(LAST - task)),
            (Status(task), 1),
            (Peer(task), next(task)),
        ];
        let cleared = (task != 0).then_some((Ready(SLOT + task), 0));
        let changes: Vec<(Cell, u16)> = left.into_iter().chain(cleared).collect();
        special = special.tick(SERVICE_WAITS, word(task), &changes);
    }
    let last = [(Clock, 0), (Ready(HEAD), 0), (Ready(LENGTH), 0), (Ready(SLOT + LAST), 0), (Status(LAST), 1)];
    special.tick(SERVICE_WAITS, word(LAST), &last).tick(IDLE, 0, &[])
}

/// All others wait to send to the last task, which receives from one after
/// another until all are ready; then from itself, which wakes nobody, and
/// then from task 16, which there is not. Between two receives are three
/// orders, so the clock falls by four from one to the next.
fn all_are_woken() -> Special {
    let waiting = (0..LAST).fold(full_messages(), |scene, task| scene.waits_to_send(task, word(LAST)));
    let ready = [&[15, 0, 1, 16][..], &[0; 15], &[15]].concat();
    let first = waiting.asks(LAST, RECEIVE, 0, 9).register(LAST, 0, 2).register(LAST, 4, 1);
    let mut special = Special::on(first.ready(&ready).clock(100));
    for source in 0..=LAST {
        let taken = [
            (Clock, word(99 - 4 * source)),
            (Flags(LAST), 0),
            (Message(source, LAST, LENGTH), 0),
            (Message(source, LAST, SLOT), 0),
        ];
        let r3 = (source == 0).then_some((R(LAST, 3), 65));
        let woken = woken_source(source);
        let changes: Vec<(Cell, u16)> = taken.into_iter().chain(r3).chain(woken).collect();
        special = special.tick(SERVICE_DONE, word(LAST), &changes);
        special = next_source(special);
    }
    let faulted = [(Clock, 35), (Flags(LAST), 4 * 5)];
    let sent = [(Clock, 65534), (Flags(0), 0), (Message(0, LAST, LENGTH), 1)];
    special.tick(SERVICE_FAULTED, word(LAST), &faulted).answers(ERROR_STOP, word(LAST)).tick(SERVICE_DONE, 0, &sent)
}

/// What a receive of the last task changes by waking its source, which goes
/// to the slot of its own number. Itself it does not wake.
fn woken_source(source: usize) -> Vec<(Cell, u16)> {
    if source == LAST {
        return Vec::new();
    }
    let woken =
        [(Ready(TAIL), word(source + 1)), (Ready(LENGTH), word(source + 2)), (Status(source), 0), (Peer(source), 0)];
    woken.into_iter().chain(stored(source, source)).collect()
}

/// What a woken task changes in the slot that it goes to, which held 0.
fn stored(slot: usize, task: usize) -> Option<(Cell, u16)> {
    (task != 0).then_some((Ready(SLOT + slot), word(task)))
}

/// The three orders that go back, name the next source and ask for it.
fn next_source(special: Special) -> Special {
    (0..3).fold(special, |special, _| special.answers(ORDER_DONE, word(LAST)))
}

/// Task 15 is a peer, and 16 is none.
fn peers() -> Vec<Special> {
    let sent = [(Clock, 65534), (Flags(0), 0), (Message(0, LAST, LENGTH), 1), (Message(0, LAST, SLOT), 7)];
    let faulted = [(Clock, 65534), (Flags(0), 4 * 5)];
    vec![
        Special::on(crowd().asks(0, SEND, 15, 7)).tick(SERVICE_DONE, 0, &sent),
        Special::on(crowd().asks(0, SEND, 16, 7)).tick(SERVICE_FAULTED, 0, &faulted),
        Special::on(crowd().asks(0, RECEIVE, 16, 7)).tick(SERVICE_FAULTED, 0, &faulted),
    ]
}

/// Every input buffer is full, and every port idle.
fn inputs() -> Special {
    let scene = (0..LARGEST_TASKS).fold(crowd(), |scene, task| scene.input(task, &FULL));
    let mut special = Special::on(scene);
    for device in 0..word(LARGEST_TASKS) {
        special = special
            .refused(Event::Input { device, character: 66 }.words(), INPUT_FULL)
            .refused(Event::OutputDone { device }.words(), PORT_IDLE);
    }
    special
}

/// All tasks wait for output, and come back from the last to the first.
fn outputs() -> Special {
    let scene =
        (0..LARGEST_TASKS).fold(crowd(), |scene, task| scene.waits_for_output(task, 66).output(task, 64, &FULL));
    let mut special = Special::on(scene);
    for woken in 0..LARGEST_TASKS {
        let task = LAST - woken;
        let mut changes = vec![
            (Ready(TAIL), word((woken + 1) % LARGEST_TASKS)),
            (Ready(LENGTH), word(woken + 1)),
            (Status(task), 0),
            (Output(task, LENGTH), 0),
            (Output(task, SLOT), 0),
            (Character(task), 65),
        ];
        changes.extend(stored(woken, task));
        if woken == 0 {
            changes.push((Clock, 65535));
        }
        special = special.output_done(word(task), &changes);
    }
    special.answers(SERVICE_DONE, word(LAST))
}
