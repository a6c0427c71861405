//! Input and output: the services, the ports and the devices' events.

use super::cell::Cell::{Busy, Character, Clock, Flags, Input, Output, Ready, Status, R};
use super::cell::{Cell, HEAD, LENGTH, SLOT, TAIL};
use super::{Special, EMPTY, FULL, SINGLE};
use crate::events::answer::{SERVICE_DONE, SERVICE_FAULTED, SERVICE_WAITS};
use crate::events::Event;
use crate::happening::scene::Scene;
use crate::image::service::{INPUT, OUTPUT};
use crate::numbers::{INPUT_FULL, PORT_IDLE};

/// Input and output.
pub fn all() -> Vec<Special> {
    [
        input_services(),
        inputs(),
        inputs_that_wake(),
        inputs_that_do_not_wake(),
        output_services(),
        outputs_that_wait_or_fault(),
        outputs_done(),
        outputs_done_that_wake(),
        outputs_done_that_do_not_wake(),
    ]
    .concat()
}

/// An input delivers a character or waits, and does not look at R2.
fn input_services() -> Vec<Special> {
    let mut list = Vec::new();
    let rows = [
        (SINGLE, 65, vec![(HEAD, 1), (LENGTH, 0), (SLOT, 0)]),
        ([1, 0, 1, 2, 0, 0], 0, vec![(HEAD, 0), (LENGTH, 0)]),
        ([1, 0, 1, 2, 0, 255], 255, vec![(HEAD, 0), (LENGTH, 0), (SLOT + 1, 0)]),
        ([1, 1, 2, 2, 65, 66], 66, vec![(HEAD, 0), (LENGTH, 1), (SLOT + 1, 0)]),
    ];
    for (buffer, character, taken) in rows {
        let scene = Scene::of(2).asks(0, INPUT, 65535, 9).input(0, &buffer);
        let taken = taken.into_iter().map(|(k, new)| (Input(0, k), new));
        let changes: Vec<(Cell, u16)> = taken.chain([(Clock, 4), (Flags(0), 0), (R(0, 3), character)]).collect();
        list.push(Special::on(scene).tick(SERVICE_DONE, 0, &changes));
    }
    let empty = Scene::of(2).asks(0, INPUT, 65535, 9).input(0, &EMPTY).clock(2);
    let left = [(Clock, 5), (Ready(HEAD), 1), (Ready(LENGTH), 1), (Status(0), 3)];
    list.push(Special::on(empty.input(1, &FULL)).tick(SERVICE_WAITS, 0, &left));
    list
}

/// Inputs until the buffer is full, of a ready task and of others.
fn inputs() -> Vec<Special> {
    let refused = |device| Event::Input { device, character: 1 }.words();
    let mut list = Vec::new();
    for character in [0, 1, 255] {
        let slot = (character != 0).then_some((Input(1, SLOT), character));
        let stored: Vec<(Cell, u16)> = [(Input(1, TAIL), 1), (Input(1, LENGTH), 1)].into_iter().chain(slot).collect();
        let special = Special::on(Scene::of(2).input(1, &EMPTY).clock(2))
            .input(1, character, &stored)
            .input(1, 67, &[(Input(1, TAIL), 0), (Input(1, LENGTH), 2), (Input(1, SLOT + 1), 67)])
            .refused(refused(1), INPUT_FULL)
            .input(0, 68, &[(Input(0, TAIL), 1), (Input(0, LENGTH), 1), (Input(0, SLOT), 68)]);
        list.push(special);
    }
    let wrapping = Scene::of(2).input(1, &[1, 0, 1, 2, 0, 65]);
    list.push(
        Special::on(wrapping)
            .input(1, 67, &[(Input(1, TAIL), 1), (Input(1, LENGTH), 2), (Input(1, SLOT), 67)])
            .refused(refused(1), INPUT_FULL),
    );
    list.push(
        Special::on(Scene::narrow(1))
            .input(0, 67, &[(Input(0, LENGTH), 1), (Input(0, SLOT), 67)])
            .refused(refused(0), INPUT_FULL),
    );
    list
}

/// The owner waits for input: it goes to the tail of the others, or the ready
/// queue was empty and the clock becomes S. Its R3 stays until its turn.
fn inputs_that_wake() -> Vec<Special> {
    let stored = [(Input(0, TAIL), 1), (Input(0, LENGTH), 1), (Input(0, SLOT), 65), (Status(0), 0)];
    let behind = [(Ready(TAIL), 0), (Ready(LENGTH), 3)];
    let of_three = Special::on(Scene::of(3).waits_for_input(0).clock(2)).input(0, 65, &[&stored[..], &behind].concat());
    let all_wait = Scene::of(2).waits_for_input(0).waits_for_input(1).register(0, 3, 9);
    let first = [(Clock, 5), (Ready(TAIL), 1), (Ready(LENGTH), 1)];
    let second = [
        (Ready(TAIL), 0),
        (Ready(LENGTH), 2),
        (Ready(SLOT + 1), 1),
        (Status(1), 0),
        (Input(1, TAIL), 1),
        (Input(1, LENGTH), 1),
        (Input(1, SLOT), 66),
    ];
    let taken = [(Input(0, HEAD), 1), (Input(0, LENGTH), 0), (Input(0, SLOT), 0)];
    let served = [&taken[..], &[(Clock, 4), (Flags(0), 0), (R(0, 3), 65)]].concat();
    let one_by_one = Special::on(all_wait).input(0, 65, &[&stored[..], &first].concat()).input(1, 66, &second).tick(
        SERVICE_DONE,
        0,
        &served,
    );
    vec![of_three, one_by_one]
}

/// An owner that waits for something else, or has stopped, is not woken, and
/// nor is another task that waits for input.
fn inputs_that_do_not_wake() -> Vec<Special> {
    let scenes = [
        Scene::of(2).waits_to_send(0, 1).message(0, 1, &FULL),
        Scene::of(2).waits_to_receive(0, 1),
        Scene::of(2).waits_for_output(0, 65).output(0, 64, &FULL),
        Scene::of(2).stopped(0, 2),
        Scene::of(2).waits_for_input(1),
        Scene::of(2).waits_to_receive(0, 0).waits_for_input(1),
    ];
    let stored = [(Input(0, TAIL), 1), (Input(0, LENGTH), 1), (Input(0, SLOT), 65)];
    scenes.map(|scene| Special::on(scene).input(0, 65, &stored)).to_vec()
}

/// A pending output of task 0 that is done, and what it changes beside its
/// flags and the clock. R2 is not looked at.
fn printed(scene: Scene, character: u16, changes: &[(Cell, u16)]) -> Special {
    let changes = [changes, &[(Clock, 4), (Flags(0), 0)]].concat();
    Special::on(scene.asks(0, OUTPUT, 65535, character)).tick(SERVICE_DONE, 0, &changes)
}

/// To an idle port the character goes through the buffer, whose slot is 0 as
/// before; to a busy one it stays there.
fn output_services() -> Vec<Special> {
    let mut list = Vec::new();
    for character in [1, 255] {
        let through = [(Output(0, HEAD), 1), (Output(0, TAIL), 1)];
        let port = [(Busy(0), 1), (Character(0), character)];
        let idle = Scene::of(2).idle_output(0, &EMPTY);
        list.push(printed(idle, character, &[&through[..], &port].concat()));
        let busy = [(Output(0, TAIL), 1), (Output(0, LENGTH), 1), (Output(0, SLOT), character)];
        list.push(printed(Scene::of(2).output(0, 0, &EMPTY), character, &busy));
    }
    let zero = [(Output(0, HEAD), 1), (Output(0, TAIL), 1), (Busy(0), 1)];
    list.push(printed(Scene::of(2).idle_output(0, &EMPTY), 0, &zero));
    let last_slot = Scene::of(2).idle_output(0, &[1, 1, 0, 2, 0, 0]);
    let wrapped = [(Output(0, HEAD), 0), (Output(0, TAIL), 0), (Busy(0), 1), (Character(0), 67)];
    list.push(printed(last_slot, 67, &wrapped));
    let last_room = [(Output(0, TAIL), 0), (Output(0, LENGTH), 2), (Output(0, SLOT + 1), 67)];
    list.push(printed(Scene::of(2).output(0, 64, &SINGLE), 67, &last_room));
    list.push(printed(Scene::narrow(1), 67, &[(Busy(0), 1), (Character(0), 67)]));
    list
}

/// On a full buffer an output waits. Over 255 it faults with 6, whatever the
/// buffer holds.
fn outputs_that_wait_or_fault() -> Vec<Special> {
    let left = [(Clock, 5), (Ready(HEAD), 1), (Ready(LENGTH), 1), (Status(0), 4)];
    let mut list = Vec::new();
    for character in [0, 255] {
        let scene = Scene::of(2).asks(0, OUTPUT, 65535, character).output(0, 64, &FULL).clock(2);
        list.push(Special::on(scene).tick(SERVICE_WAITS, 0, &left));
    }
    for character in [256, 257, 32768, 65535] {
        let asks = Scene::of(2).asks(0, OUTPUT, 0, character).flags(0, 1, 0, OUTPUT).clock(2);
        let scenes = [asks.clone(), asks.clone().output(0, 64, &EMPTY), asks.output(0, 64, &FULL)];
        let faulted = [(Clock, 1), (Flags(0), 1 + 4 * 6)];
        list.extend(scenes.map(|scene| Special::on(scene).tick(SERVICE_FAULTED, 0, &faulted)));
    }
    list
}

/// The port takes one character after another, a zero among them, then goes
/// idle, and then no output is done there.
fn outputs_done() -> Vec<Special> {
    let idle = |device| Event::OutputDone { device }.words();
    let to_the_end = Special::on(Scene::of(2).output(1, 64, &[1, 1, 2, 2, 0, 64]))
        .output_done(1, &[(Output(1, HEAD), 0), (Output(1, LENGTH), 1), (Output(1, SLOT + 1), 0)])
        .output_done(1, &[(Output(1, HEAD), 1), (Output(1, LENGTH), 0), (Character(1), 0)])
        .output_done(1, &[(Busy(1), 0)])
        .refused(idle(1), PORT_IDLE)
        .refused(idle(0), PORT_IDLE);
    let both = Special::on(Scene::of(2).output(0, 255, &EMPTY).output(1, 1, &SINGLE))
        .output_done(0, &[(Busy(0), 0), (Character(0), 0)])
        .output_done(1, &[(Output(1, HEAD), 1), (Output(1, LENGTH), 0), (Output(1, SLOT), 0), (Character(1), 65)])
        .refused(idle(0), PORT_IDLE)
        .output_done(1, &[(Busy(1), 0), (Character(1), 0)])
        .refused(idle(1), PORT_IDLE);
    let one_slot = Special::on(Scene::narrow(1).output(0, 64, &[0, 0, 1, 1, 65]))
        .output_done(0, &[(Output(0, LENGTH), 0), (Output(0, SLOT), 0), (Character(0), 65)])
        .output_done(0, &[(Busy(0), 0), (Character(0), 0)]);
    vec![to_the_end, both, one_slot]
}

/// The owner waits for output: it goes to the tail of the others, or the
/// ready queue was empty and the clock becomes S. It prints at its own turn.
fn outputs_done_that_wake() -> Vec<Special> {
    let waits = |tasks| Scene::of(tasks).waits_for_output(0, 67).output(0, 64, &FULL);
    let moved =
        [(Output(0, HEAD), 1), (Output(0, LENGTH), 1), (Output(0, SLOT), 0), (Character(0), 65), (Status(0), 0)];
    let behind = [(Ready(TAIL), 0), (Ready(LENGTH), 3)];
    let of_three = Special::on(waits(3).clock(2)).output_done(0, &[&moved[..], &behind].concat());
    let first = [(Clock, 5), (Ready(LENGTH), 1)];
    let printed = [(Clock, 4), (Flags(0), 0), (Output(0, TAIL), 1), (Output(0, LENGTH), 2), (Output(0, SLOT), 67)];
    let alone = Special::on(waits(1)).output_done(0, &[&moved[..], &first].concat()).tick(SERVICE_DONE, 0, &printed);
    vec![of_three, alone]
}

/// An owner that waits for something else, or has stopped, is not woken, and
/// nor is another task that waits for output.
fn outputs_done_that_do_not_wake() -> Vec<Special> {
    let scenes = [
        Scene::of(2).waits_to_send(0, 1).message(0, 1, &FULL),
        Scene::of(2).waits_to_receive(0, 1),
        Scene::of(2).waits_for_input(0),
        Scene::of(2).stopped(0, 2),
        Scene::of(2).waits_for_output(1, 67).output(1, 64, &FULL),
    ];
    let moved = [(Output(0, HEAD), 1), (Output(0, LENGTH), 1), (Output(0, SLOT), 0), (Character(0), 65)];
    let row = |scene: Scene| Special::on(scene.output(0, 64, &FULL)).output_done(0, &moved);
    scenes.map(row).to_vec()
}
