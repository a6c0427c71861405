//! Whom sends and receives wake, and whom they do not.

use super::cell::Cell::{Clock, Flags, Message, Peer, Ready, Status, R};
use super::cell::{HEAD, LENGTH, SLOT, TAIL};
use super::{Special, FULL, SINGLE};
use crate::events::answer::{ORDER_DONE, SERVICE_DONE, TURN_PASSED};
use crate::happening::scene::Scene;
use crate::image::service::{RECEIVE, SEND};

/// Peers and sources that wait.
pub fn all() -> Vec<Special> {
    let woken = vec![receiver_behind_another(), receiver_with_its_zero(), sender_with_room()];
    [woken, receivers_not_woken(), senders_not_woken()].concat()
}

/// The receiver waits for this sender: it goes to the tail, behind a third
/// task, which comes before it.
fn receiver_behind_another() -> Special {
    let scene = Scene::of(3).waits_to_receive(0, 1).asks(1, SEND, 0, 7).clock(1);
    Special::on(scene)
        .tick(
            SERVICE_DONE,
            1,
            &[
                (Clock, 0),
                (Flags(1), 0),
                (Ready(TAIL), 0),
                (Ready(LENGTH), 3),
                (Status(0), 0),
                (Peer(0), 0),
                (Message(1, 0, TAIL), 1),
                (Message(1, 0, LENGTH), 1),
                (Message(1, 0, SLOT), 7),
            ],
        )
        .tick(TURN_PASSED, 1, &[(Clock, 5), (Ready(HEAD), 1), (Ready(TAIL), 1)])
        .tick(ORDER_DONE, 2, &[(Clock, 4), (R(2, 0), 1)])
}

/// The receiver waits for this sender, and a zero arrives at its turn.
fn receiver_with_its_zero() -> Special {
    let scene = Scene::of(2).waits_to_receive(1, 0).asks(0, SEND, 1, 0).register(1, 3, 9);
    Special::on(scene.clock(1).message(0, 1, &[1, 1, 0, 2, 0, 0]))
        .tick(
            SERVICE_DONE,
            0,
            &[
                (Clock, 0),
                (Flags(0), 0),
                (Ready(TAIL), 0),
                (Ready(LENGTH), 2),
                (Ready(SLOT + 1), 1),
                (Status(1), 0),
                (Message(0, 1, TAIL), 0),
                (Message(0, 1, LENGTH), 1),
            ],
        )
        .tick(TURN_PASSED, 0, &[(Clock, 5), (Ready(HEAD), 1), (Ready(TAIL), 1)])
        .tick(
            SERVICE_DONE,
            1,
            &[(Clock, 4), (Flags(1), 0), (R(1, 3), 0), (Message(0, 1, HEAD), 0), (Message(0, 1, LENGTH), 0)],
        )
}

/// A receiver that waits for another sender, or not to receive, stays where
/// it is, also where its peer field is the sender's number.
fn receivers_not_woken() -> Vec<Special> {
    let scenes = [
        Scene::of(3).waits_to_receive(2, 1),
        Scene::of(3).waits_to_receive(2, 2),
        Scene::of(3).waits_to_send(2, 0).message(2, 0, &FULL),
        Scene::of(3).waits_to_send(2, 1).message(2, 1, &FULL),
        Scene::of(3).waits_for_input(2),
        Scene::of(3).waits_for_output(2, 65).output(2, 64, &FULL),
        Scene::of(3).stopped(2, 1),
        Scene::of(3).waits_to_receive(1, 0),
    ];
    let stored = [(Message(0, 2, TAIL), 1), (Message(0, 2, LENGTH), 1), (Message(0, 2, SLOT), 7)];
    let changes = [&stored[..], &[(Clock, 4), (Flags(0), 0)]].concat();
    let row = |scene: Scene| Special::on(scene.asks(0, SEND, 2, 7)).tick(SERVICE_DONE, 0, &changes);
    scenes.map(row).to_vec()
}

/// The sender waits for this receiver: it goes to the tail and sends at its
/// own turn.
fn sender_with_room() -> Special {
    let scene = Scene::of(2).waits_to_send(0, 1).register(0, 3, 33).message(0, 1, &FULL);
    Special::on(scene.asks(1, RECEIVE, 0, 9).clock(1))
        .tick(
            SERVICE_DONE,
            1,
            &[
                (Clock, 0),
                (Flags(1), 0),
                (R(1, 3), 65),
                (Ready(TAIL), 0),
                (Ready(LENGTH), 2),
                (Status(0), 0),
                (Peer(0), 0),
                (Message(0, 1, HEAD), 1),
                (Message(0, 1, LENGTH), 1),
                (Message(0, 1, SLOT), 0),
            ],
        )
        .tick(TURN_PASSED, 1, &[(Clock, 5), (Ready(HEAD), 1), (Ready(TAIL), 1)])
        .tick(
            SERVICE_DONE,
            0,
            &[
                (Clock, 4),
                (Flags(0), 0),
                (Message(0, 1, TAIL), 1),
                (Message(0, 1, LENGTH), 2),
                (Message(0, 1, SLOT), 33),
            ],
        )
}

/// A source that waits to send to another, or not to send, stays where it is,
/// also where its peer field is the receiver's number.
fn senders_not_woken() -> Vec<Special> {
    let scenes = [
        Scene::of(3).waits_to_send(2, 1).message(2, 1, &FULL),
        Scene::of(3).waits_to_send(2, 2).message(2, 2, &FULL),
        Scene::of(3).waits_to_receive(2, 0),
        Scene::of(3).waits_to_receive(2, 1),
        Scene::of(3).waits_for_input(2),
        Scene::of(3).waits_for_output(2, 65).output(2, 64, &FULL),
        Scene::of(3).stopped(2, 1),
        Scene::of(3).waits_to_send(1, 0).message(1, 0, &FULL),
    ];
    let taken = [(Message(2, 0, HEAD), 1), (Message(2, 0, LENGTH), 0), (Message(2, 0, SLOT), 0)];
    let changes = [&taken[..], &[(Clock, 4), (Flags(0), 0), (R(0, 3), 65)]].concat();
    let row = |scene: Scene| {
        let scene = scene.asks(0, RECEIVE, 2, 9).message(2, 0, &SINGLE);
        Special::on(scene).tick(SERVICE_DONE, 0, &changes)
    };
    scenes.map(row).to_vec()
}
