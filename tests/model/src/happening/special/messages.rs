//! Sends and receives: done, waiting and faulted.

use super::cell::Cell::{Clock, Flags, Message, Peer, Ready, Status, R};
use super::cell::{Cell, HEAD, LENGTH, SLOT, TAIL};
use super::{Special, EMPTY, FULL, SINGLE};
use crate::events::answer::{ERROR_STOP, IDLE, ORDER_DONE, SERVICE_DONE, SERVICE_FAULTED, SERVICE_WAITS, TURN_PASSED};
use crate::happening::scene::Scene;
use crate::image::service::{RECEIVE, SEND};
use crate::layout::Frame;

/// Sends and receives.
pub fn all() -> Vec<Special> {
    [sends(), receives(), waits(), faults(), to_itself(), passed_on()].concat()
}

/// A pending send of task 0 to task 1 that is done, with its buffer's words
/// before and what changes in the buffer.
fn sent(buffer: &[u16], word: u16, changes: &[(usize, u16)]) -> Special {
    let scene = Scene::of(2).asks(0, SEND, 1, word).message(0, 1, buffer);
    let in_buffer = changes.iter().map(|&(k, new)| (Message(0, 1, k), new));
    let changes: Vec<(Cell, u16)> = in_buffer.chain([(Clock, 4), (Flags(0), 0)]).collect();
    Special::on(scene).tick(SERVICE_DONE, 0, &changes)
}

/// A send puts any word at the tail, which may step to 0.
fn sends() -> Vec<Special> {
    let mut list = vec![
        sent(&SINGLE, 7, &[(TAIL, 0), (LENGTH, 2), (SLOT + 1, 7)]),
        sent(&[1, 1, 0, 2, 0, 0], 7, &[(TAIL, 0), (LENGTH, 1), (SLOT + 1, 7)]),
        sent(&[1, 0, 1, 2, 0, 31], 7, &[(TAIL, 1), (LENGTH, 2), (SLOT, 7)]),
        sent(&EMPTY, 0, &[(TAIL, 1), (LENGTH, 1)]),
    ];
    for word in [1, 255, 256, 32768, 65535] {
        list.push(sent(&EMPTY, word, &[(TAIL, 1), (LENGTH, 1), (SLOT, word)]));
    }
    let scene = Scene::narrow(2).asks(0, SEND, 1, 7);
    let changes = [(Clock, 4), (Flags(0), 0), (Message(0, 1, LENGTH), 1), (Message(0, 1, SLOT), 7)];
    list.push(Special::on(scene).tick(SERVICE_DONE, 0, &changes));
    let stopped = Scene::of(2).stopped(1, 4).asks(0, SEND, 1, 7);
    let stored = [(Message(0, 1, TAIL), 1), (Message(0, 1, LENGTH), 1), (Message(0, 1, SLOT), 7)];
    let changes = [&stored[..], &[(Clock, 4), (Flags(0), 0)]].concat();
    list.push(Special::on(stopped).tick(SERVICE_DONE, 0, &changes));
    list
}

/// A pending receive of task 0 from task 1 that is done with R3 9 before, the
/// buffer's words before, what changes in the buffer, and the word in R3. The
/// buffer of the other direction is full and has no part in it.
fn received(buffer: &[u16], changes: &[(usize, u16)], word: u16) -> Special {
    let scene = Scene::of(2).asks(0, RECEIVE, 1, 9).message(0, 1, &FULL).message(1, 0, buffer);
    let in_buffer = changes.iter().map(|&(k, new)| (Message(1, 0, k), new));
    let changes: Vec<(Cell, u16)> = in_buffer.chain([(Clock, 4), (Flags(0), 0), (R(0, 3), word)]).collect();
    Special::on(scene).tick(SERVICE_DONE, 0, &changes)
}

/// A receive takes any word from the head, which may step to 0. A zero is a
/// word like any other.
fn receives() -> Vec<Special> {
    let mut list = vec![
        received(&FULL, &[(HEAD, 1), (LENGTH, 1), (SLOT, 0)], 65),
        received(&[1, 1, 2, 2, 31, 32], &[(HEAD, 0), (LENGTH, 1), (SLOT + 1, 0)], 32),
        received(&[1, 0, 1, 2, 0, 32], &[(HEAD, 0), (LENGTH, 0), (SLOT + 1, 0)], 32),
        received(&[0, 1, 1, 2, 0, 0], &[(HEAD, 1), (LENGTH, 0)], 0),
    ];
    for word in [1, 255, 256, 65535] {
        list.push(received(&[0, 1, 1, 2, word, 0], &[(HEAD, 1), (LENGTH, 0), (SLOT, 0)], word));
    }
    let scene = Scene::narrow(2).asks(0, RECEIVE, 1, 9);
    let changes = [(Clock, 4), (Flags(0), 0), (R(0, 3), 0), (Message(1, 0, LENGTH), 0)];
    list.push(Special::on(scene.message(1, 0, &[0, 0, 1, 1, 0])).tick(SERVICE_DONE, 0, &changes));
    list
}

/// Sends into full and receives from empty buffers. Registers and pending
/// stay, and the buffer of the other direction has no part in it.
fn waits() -> Vec<Special> {
    let left = [(Clock, 5), (Ready(HEAD), 1), (Ready(LENGTH), 1), (Peer(0), 1)];
    let waits = |status| [&left[..], &[(Status(0), status)]].concat();
    let full = |head| [head, head, 2, 2, 31, 32];
    let empty = |head| [head, head, 0, 2, 0, 0];
    let mut list = Vec::new();
    for head in [0, 1] {
        let sends = Scene::of(2).asks(0, SEND, 1, 7).message(0, 1, &full(head)).clock(2);
        list.push(Special::on(sends).tick(SERVICE_WAITS, 0, &waits(1)));
        let receives = Scene::of(2).asks(0, RECEIVE, 1, 7).message(0, 1, &full(head)).clock(2);
        let receives = receives.message(1, 0, &empty(head));
        list.push(Special::on(receives).tick(SERVICE_WAITS, 0, &waits(2)));
    }
    let last = [(Clock, 0), (Ready(HEAD), 1), (Ready(LENGTH), 0), (Peer(0), 1)];
    let others_wait = Scene::of(2).waits_for_input(1).clock(2);
    let sends = others_wait.clone().asks(0, SEND, 1, 7).message(0, 1, &FULL);
    let waits_to_send = [&last[..], &[(Status(0), 1)]].concat();
    list.push(Special::on(sends).tick(SERVICE_WAITS, 0, &waits_to_send).tick(IDLE, 0, &[]));
    let receives = others_wait.asks(0, RECEIVE, 1, 7);
    let waits_to_receive = [&last[..], &[(Status(0), 2)]].concat();
    list.push(Special::on(receives).tick(SERVICE_WAITS, 0, &waits_to_receive).tick(IDLE, 0, &[]));
    list
}

/// The number of no task is error 5 and takes pending's place, whatever the
/// buffers hold. Of two tasks 1 is the last, and of three 2.
fn faults() -> Vec<Special> {
    let mut list = Vec::new();
    for service in [SEND, RECEIVE] {
        for (tasks, number) in [(1, 1), (1, 2), (2, 2), (3, 3), (2, 16), (2, 256), (2, 65535)] {
            let scene = Scene::of(tasks).asks(0, service, number, 7).clock(2);
            list.push(Special::on(scene).tick(SERVICE_FAULTED, 0, &[(Clock, 1), (Flags(0), 4 * 5)]));
        }
        let alone = Scene::of(1).asks(0, service, 65535, 7).flags(0, 2, 0, service).clock(2);
        let stop = [(Clock, 0), (Ready(LENGTH), 0), (Status(0), 5)];
        list.push(
            Special::on(alone.message(0, 0, &FULL))
                .tick(SERVICE_FAULTED, 0, &[(Clock, 1), (Flags(0), 2 + 4 * 5)])
                .tick(ERROR_STOP, 0, &stop),
        );
    }
    list
}

/// A task that is its own peer: it sends and receives, and waits for itself
/// for ever on a full or an empty buffer.
fn to_itself() -> Vec<Special> {
    let program = [0x1210, 0x1220, 0x1220, 0];
    let there_and_back = Special::on(Scene::running(1, &program).register(0, 3, 65535).clock(5))
        .tick(ORDER_DONE, 0, &[(Clock, 4), (R(0, 0), 1), (Flags(0), 32)])
        .tick(
            SERVICE_DONE,
            0,
            &[
                (Clock, 3),
                (Flags(0), 0),
                (Message(0, 0, TAIL), 1),
                (Message(0, 0, LENGTH), 1),
                (Message(0, 0, SLOT), 65535),
            ],
        )
        .tick(ORDER_DONE, 0, &[(Clock, 2), (R(0, 0), 2), (Flags(0), 64)])
        .tick(
            SERVICE_DONE,
            0,
            &[
                (Clock, 1),
                (Flags(0), 0),
                (Message(0, 0, HEAD), 1),
                (Message(0, 0, LENGTH), 0),
                (Message(0, 0, SLOT), 0),
            ],
        )
        .tick(ORDER_DONE, 0, &[(Clock, 0), (R(0, 0), 3), (Flags(0), 64)])
        .tick(TURN_PASSED, 0, &[(Clock, 5)])
        .tick(SERVICE_WAITS, 0, &[(Clock, 0), (Ready(LENGTH), 0), (Status(0), 2)])
        .tick(IDLE, 0, &[]);
    let full = Scene::of(2).asks(1, SEND, 1, 7).message(1, 1, &FULL);
    let full = Special::on(full.ready(&[1, 1, 2, 2, 0, 1]).clock(2)).tick(
        SERVICE_WAITS,
        1,
        &[(Clock, 5), (Ready(HEAD), 0), (Ready(LENGTH), 1), (Ready(SLOT + 1), 0), (Status(1), 1), (Peer(1), 1)],
    );
    vec![there_and_back, full]
}

/// Two tasks over a buffer of two words: a zero and a 9 arrive in their
/// order, and then the receiver waits with what it has in R3.
fn passed_on() -> Vec<Special> {
    let frame = Frame { tasks: 2, slice: 65535, input: 1, output: 1, message: 2 };
    let sends = [0x1210, 0x0130, 9, 0x1210, 0x1220];
    let receives = [0x1220, 0x1220, 0x1220, 0, 0];
    let pairs = [5, 5, 5, 5];
    let plan = [&frame.words()[..], &pairs, &sends, &receives].concat();
    let taken = |clock, word, (head, length)| {
        let buffer = [(Message(0, 1, HEAD), head), (Message(0, 1, LENGTH), length)];
        [&buffer[..], &[(Clock, clock), (Flags(1), 0), (R(1, 3), word)]].concat()
    };
    let waits = [(Clock, 0), (Ready(HEAD), 0), (Ready(LENGTH), 0), (Ready(SLOT + 1), 0), (Status(1), 2)];
    let script = Special::on(Scene::planned(&plan).register(0, 2, 1).register(1, 3, 77))
        .answers(ORDER_DONE, 0)
        .answers(SERVICE_DONE, 0)
        .answers(ORDER_DONE, 0)
        .answers(ORDER_DONE, 0)
        .answers(SERVICE_DONE, 0)
        .answers(ORDER_DONE, 0)
        .answers(SERVICE_WAITS, 0)
        .answers(ORDER_DONE, 1)
        .tick(SERVICE_DONE, 1, &taken(65533, 0, (1, 1)))
        .answers(ORDER_DONE, 1)
        .tick(SERVICE_DONE, 1, &[&taken(65531, 9, (0, 0))[..], &[(Message(0, 1, SLOT + 1), 0)]].concat())
        .answers(ORDER_DONE, 1)
        .tick(SERVICE_WAITS, 1, &waits)
        .tick(IDLE, 0, &[]);
    vec![script]
}
