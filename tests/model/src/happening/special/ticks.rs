//! Ticks by the rule that applies, and what they make of the clock.

use super::cell::Cell::{Clock, Flags, Input, Message, Ready, Status, R};
use super::cell::{Cell, HEAD, LENGTH, SLOT, TAIL};
use super::Special;
use crate::events::answer::{
    ERROR_STOP, IDLE, ORDER_DONE, ORDER_FAULTED, SERVICE_DONE, SERVICE_FAULTED, SERVICE_WAITS, TURN_PASSED,
};
use crate::happening::scene::Scene;
use crate::image::service::{INPUT, OUTPUT, RECEIVE, SEND};

/// Ticks by their rules.
pub fn all() -> Vec<Special> {
    [idle(), stops(), turns(), turns_before_services(), orders(), clocks()].concat()
}

/// Nobody is ready.
fn idle() -> Vec<Special> {
    let scenes = [
        Scene::of(1).stopped(0, 3),
        Scene::of(1).waits_to_receive(0, 0),
        Scene::of(2).waits_for_input(0).stopped(1, 6),
        Scene::of(3).waits_to_receive(0, 1).waits_to_receive(1, 2).waits_for_input(2),
    ];
    scenes.map(|scene| Special::on(scene).tick(IDLE, 0, &[]).tick(IDLE, 0, &[])).to_vec()
}

/// A task with each error, alone, with others, at clock 0 and S, and at the
/// ready queue's last slot.
fn stops() -> Vec<Special> {
    let mut list = Vec::new();
    for error in 1..=6 {
        let of_three = Scene::of(3).flags(0, 2, error, 0).clock(2);
        let left = [(Clock, 5), (Ready(HEAD), 1), (Ready(LENGTH), 2), (Status(0), 5)];
        let next = [(Clock, 4), (R(1, 0), 1)];
        list.push(Special::on(of_three).tick(ERROR_STOP, 0, &left).tick(ORDER_DONE, 1, &next));
        let alone = Scene::of(1).flags(0, 1, error, 0).clock(2);
        let emptied = [(Clock, 0), (Ready(LENGTH), 0), (Status(0), 5)];
        list.push(Special::on(alone).tick(ERROR_STOP, 0, &emptied).tick(IDLE, 0, &[]));
        let out_of_time = Scene::of(2).flags(0, 0, error, 0).clock(0);
        let left = [(Clock, 5), (Ready(HEAD), 1), (Ready(LENGTH), 1), (Status(0), 5)];
        list.push(Special::on(out_of_time).tick(ERROR_STOP, 0, &left));
    }
    let last_slot = Scene::of(3).ready(&[2, 2, 3, 3, 0, 1, 2]).flags(2, 0, 1, 0);
    let wrapped = [(Ready(HEAD), 0), (Ready(LENGTH), 2), (Ready(SLOT + 2), 0), (Status(2), 5)];
    list.push(Special::on(last_slot).tick(ERROR_STOP, 2, &wrapped));
    let both = Scene::of(2).flags(0, 0, 1, 0).flags(1, 0, 2, 0).clock(1);
    let first = [(Clock, 5), (Ready(HEAD), 1), (Ready(LENGTH), 1), (Status(0), 5)];
    let second = [(Clock, 0), (Ready(HEAD), 0), (Ready(LENGTH), 0), (Ready(SLOT + 1), 0), (Status(1), 5)];
    list.push(Special::on(both).tick(ERROR_STOP, 0, &first).tick(ERROR_STOP, 1, &second));
    list
}

/// Turns passed with one task and with several, in full queues and in others,
/// with head and tail at each slot. The slot is cleared before the task is
/// stored, which may be in the same slot.
fn turns() -> Vec<Special> {
    let alone = Special::on(Scene::of(1).clock(0)).tick(TURN_PASSED, 0, &[(Clock, 5)]);
    let last_of_three = Scene::of(3).waits_for_input(0).waits_for_input(2);
    let last_of_three = Special::on(last_of_three.ready(&[2, 0, 1, 3, 0, 0, 1]).clock(0)).tick(
        TURN_PASSED,
        1,
        &[(Clock, 5), (Ready(HEAD), 0), (Ready(TAIL), 1), (Ready(SLOT), 1), (Ready(SLOT + 2), 0)],
    );
    let two_of_three = Special::on(Scene::of(3).waits_for_input(1).clock(0))
        .tick(TURN_PASSED, 0, &[(Clock, 5), (Ready(HEAD), 1), (Ready(TAIL), 0)])
        .tick(ORDER_DONE, 2, &[(Clock, 4), (R(2, 0), 1)]);
    let stored_behind = [(Clock, 5), (Ready(HEAD), 1), (Ready(TAIL), 0), (Ready(SLOT), 0), (Ready(SLOT + 2), 1)];
    let last_two_of_three = Special::on(Scene::of(3).waits_for_input(0).clock(0)).tick(TURN_PASSED, 1, &stored_behind);
    let full = Special::on(Scene::of(3).clock(0))
        .tick(TURN_PASSED, 0, &[(Clock, 5), (Ready(HEAD), 1), (Ready(TAIL), 1)])
        .tick(ORDER_DONE, 1, &[(Clock, 4), (R(1, 0), 1)]);
    let wrapping = Special::on(Scene::of(2).ready(&[1, 1, 2, 2, 1, 0]).clock(0)).tick(
        TURN_PASSED,
        0,
        &[(Clock, 5), (Ready(HEAD), 0), (Ready(TAIL), 0)],
    );
    let same_slot = [(Clock, 5), (Ready(HEAD), 2), (Ready(TAIL), 2)];
    let same_slot = Special::on(Scene::of(3).ready(&[1, 1, 3, 3, 0, 1, 2]).clock(0)).tick(TURN_PASSED, 1, &same_slot);
    vec![alone, last_of_three, two_of_three, last_two_of_three, full, wrapping, same_slot]
}

/// At clock 0 no pending service is served, with room or without.
fn turns_before_services() -> Vec<Special> {
    let mut list = Vec::new();
    for service in SEND..=OUTPUT {
        for wrong in [1, 65535] {
            let scene = Scene::of(2).asks(0, service, wrong, wrong).clock(0);
            let passed = [(Clock, 5), (Ready(HEAD), 1), (Ready(TAIL), 1)];
            let other = [(Clock, 4), (R(1, 0), 1)];
            list.push(Special::on(scene).tick(TURN_PASSED, 0, &passed).tick(ORDER_DONE, 1, &other));
        }
    }
    let alone = Scene::of(1).asks(0, INPUT, 0, 9).input(0, &[0, 1, 1, 2, 65, 0]).clock(0);
    let taken = [(Input(0, HEAD), 1), (Input(0, LENGTH), 0), (Input(0, SLOT), 0)];
    let served = [&taken[..], &[(Clock, 4), (Flags(0), 0), (R(0, 3), 65)]].concat();
    list.push(Special::on(alone).tick(TURN_PASSED, 0, &[(Clock, 5)]).tick(SERVICE_DONE, 0, &served));
    list
}

/// Orders done and faulting, each of which uses the clock. A fault leaves R0
/// and is followed by the stop.
fn orders() -> Vec<Special> {
    let loads = Special::on(Scene::running(1, &[0x0120, 9]).flags(0, 2, 0, 0).clock(3))
        .tick(ORDER_DONE, 0, &[(Clock, 2), (R(0, 0), 2), (R(0, 2), 9)])
        .tick(ORDER_FAULTED, 0, &[(Clock, 1), (Flags(0), 2 + 4)])
        .tick(ERROR_STOP, 0, &[(Clock, 0), (Ready(LENGTH), 0), (Status(0), 5)]);
    let asks = Special::on(Scene::running(1, &[0x1210]).flags(0, 1, 0, 0).clock(2)).tick(
        ORDER_DONE,
        0,
        &[(Clock, 1), (R(0, 0), 1), (Flags(0), 1 + 32)],
    );
    let faults = [(0x0000, 2), (0x1200, 3), (0x0845, 4), (0x0E00, 1)];
    let fault = |(first_word, error): (u16, u16)| {
        let scene = Scene::running(2, &[first_word]).clock(1);
        Special::on(scene)
            .tick(ORDER_FAULTED, 0, &[(Clock, 0), (Flags(0), 4 * error)])
            .tick(ERROR_STOP, 0, &[(Clock, 5), (Ready(HEAD), 1), (Ready(LENGTH), 1), (Status(0), 5)])
            .tick(ORDER_FAULTED, 1, &[(Clock, 4), (Flags(1), 4 * error)])
    };
    [vec![loads, asks], faults.map(fault).to_vec()].concat()
}

/// Services use the clock as orders do, and at 0 the turn passes.
fn clocks() -> Vec<Special> {
    [ends_of_slices(), whole_slices(), faults_at_clock_1(), waits_at_any_clock()].concat()
}

/// From clock 1 with a send pending the turn passes with the second tick,
/// whatever S is.
fn ends_of_slices() -> Vec<Special> {
    let of_slice = |slice: u16| {
        let scene = Scene::of(2).slice(slice).asks(0, SEND, 1, 7).clock(1);
        Special::on(scene)
            .tick(SERVICE_DONE, 0, &[&sent(7)[..], &[(Clock, 0)]].concat())
            .tick(TURN_PASSED, 0, &[(Clock, slice), (Ready(HEAD), 1), (Ready(TAIL), 1)])
            .tick(ORDER_DONE, 1, &[(Clock, slice - 1), (R(1, 0), 1)])
    };
    [1, 2, 32768, 65535].map(of_slice).to_vec()
}

/// The words, but for the clock, that a first send of task 0 to task 1
/// changes.
fn sent(word: u16) -> [(Cell, u16); 4] {
    [(Flags(0), 0), (Message(0, 1, TAIL), 1), (Message(0, 1, LENGTH), 1), (Message(0, 1, SLOT), word)]
}

/// A slice of 2 and of 3 used up by orders and sends, with the send that is
/// asked for by the last order left for the next turn.
fn whole_slices() -> Vec<Special> {
    let asks = |clock, r0| [(Clock, clock), (R(0, 0), r0), (Flags(0), 32)];
    let turned = |slice| [(Clock, slice), (Ready(HEAD), 1), (Ready(TAIL), 1)];
    let scene = |slice| Scene::running(2, &[0x1210, 0x1210]).slice(slice).register(0, 2, 1).register(0, 3, 7);
    let two = Special::on(scene(2))
        .tick(ORDER_DONE, 0, &asks(1, 1))
        .tick(SERVICE_DONE, 0, &[&sent(7)[..], &[(Clock, 0)]].concat())
        .tick(TURN_PASSED, 0, &turned(2))
        .answers(ORDER_DONE, 1);
    let three = Special::on(scene(3))
        .tick(ORDER_DONE, 0, &asks(2, 1))
        .tick(SERVICE_DONE, 0, &[&sent(7)[..], &[(Clock, 1)]].concat())
        .tick(ORDER_DONE, 0, &asks(0, 2))
        .tick(TURN_PASSED, 0, &turned(3))
        .answers(ORDER_DONE, 1);
    vec![two, three]
}

/// A service that faults uses the clock too; the stop comes before the turn
/// would pass, and sets the clock.
fn faults_at_clock_1() -> Vec<Special> {
    let rows = [(SEND, 2, 7, 5), (RECEIVE, 2, 7, 5), (OUTPUT, 0, 256, 6)];
    let fault = |(service, peer, word, error): (u16, u16, u16, u16)| {
        Special::on(Scene::of(2).asks(0, service, peer, word).clock(1))
            .tick(SERVICE_FAULTED, 0, &[(Clock, 0), (Flags(0), 4 * error)])
            .tick(ERROR_STOP, 0, &[(Clock, 5), (Ready(HEAD), 1), (Ready(LENGTH), 1), (Status(0), 5)])
            .tick(ORDER_DONE, 1, &[(Clock, 4), (R(1, 0), 1)])
    };
    rows.map(fault).to_vec()
}

/// Whatever is left on the clock, a service that waits leaves S to the next
/// task, and 0 where there is none.
fn waits_at_any_clock() -> Vec<Special> {
    let mut list = Vec::new();
    for clock in 1..=5 {
        let left = [(Ready(HEAD), 1), (Ready(LENGTH), 1), (Status(0), 3)];
        let risen = (clock < 5).then_some((Clock, 5));
        let changes: Vec<(Cell, u16)> = left.into_iter().chain(risen).collect();
        let others = Scene::of(2).asks(0, INPUT, 0, 9).clock(clock);
        let next = [(Clock, 4), (R(1, 0), 1)];
        list.push(Special::on(others).tick(SERVICE_WAITS, 0, &changes).tick(ORDER_DONE, 1, &next));
        let alone = Scene::of(1).asks(0, INPUT, 0, 9).clock(clock);
        let gone = [(Clock, 0), (Ready(LENGTH), 0), (Status(0), 3)];
        list.push(Special::on(alone).tick(SERVICE_WAITS, 0, &gone).tick(IDLE, 0, &[]));
    }
    list
}
