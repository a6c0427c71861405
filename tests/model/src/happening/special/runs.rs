//! Longer runs: the paper's, and tasks that wait for one another.

use super::cell::Cell::{Clock, Flags, Input, Ready, Status, R};
use super::cell::{HEAD, LENGTH, SLOT, TAIL};
use super::{Expected, Special};
use crate::events::answer::{ERROR_STOP, IDLE, ORDER_DONE, ORDER_FAULTED, SERVICE_DONE, SERVICE_WAITS, TURN_PASSED};
use crate::events::Answer;
use crate::happening::scene::Scene;
use crate::image::service::{INPUT, RECEIVE};
use crate::layout::{word, LARGEST_TASKS};

/// Runs, the paper's first.
pub fn all() -> Vec<Special> {
    vec![
        papers_run(),
        emptied_and_filled_again(),
        behind_the_others(),
        ring(2),
        ring(3),
        ring(LARGEST_TASKS),
        round_robin(),
    ]
}

/// An event, and the answer's kind and task or the number of its refusal.
type Line = ([u16; 3], Result<(u16, u16), u16>);

/// The paper's plan and its eleven events with its eleven lines.
fn papers_run() -> Special {
    const TICK: [u16; 3] = [0, 0, 0];
    let lines: [Line; 11] = [
        (TICK, Ok((6, 0))),
        (TICK, Ok((4, 0))),
        (TICK, Ok((0, 0))),
        ([1, 0, 65], Ok((8, 0))),
        (TICK, Ok((3, 0))),
        (TICK, Ok((6, 0))),
        (TICK, Ok((2, 0))),
        (TICK, Ok((3, 0))),
        (TICK, Ok((7, 0))),
        ([2, 0, 0], Ok((9, 0))),
        ([2, 0, 0], Err(9)),
    ];
    let mut special = Special::on(Scene::planned(&[1, 2, 1, 1, 1, 4, 2, 4656, 4672]));
    for (event, line) in lines {
        let outcome = line.map(|(kind, task)| Answer { kind, task });
        special.steps.push(Expected { event, outcome, changes: None });
    }
    special
}

/// The only task waits for input, comes back with a whole slice, and waits
/// again. Its number is 0, as is the slot that it leaves.
fn emptied_and_filled_again() -> Special {
    let program = [0x1230, 0x1230];
    let gone = [(Clock, 0), (Ready(LENGTH), 0), (Status(0), 3)];
    let back = [(Clock, 5), (Ready(LENGTH), 1), (Status(0), 0)];
    let came = [(Input(0, TAIL), 1), (Input(0, LENGTH), 1), (Input(0, SLOT), 65)];
    let taken = [(Input(0, HEAD), 1), (Input(0, LENGTH), 0), (Input(0, SLOT), 0)];
    let served = [&taken[..], &[(Clock, 4), (Flags(0), 0), (R(0, 3), 65)]].concat();
    Special::on(Scene::running(1, &program).clock(2))
        .tick(ORDER_DONE, 0, &[(Clock, 1), (R(0, 0), 1), (Flags(0), 96)])
        .tick(SERVICE_WAITS, 0, &gone)
        .tick(IDLE, 0, &[])
        .input(0, 65, &[&back[..], &came].concat())
        .tick(SERVICE_DONE, 0, &served)
        .tick(ORDER_DONE, 0, &[(Clock, 3), (R(0, 0), 2), (Flags(0), 96)])
        .tick(SERVICE_WAITS, 0, &gone)
        .tick(IDLE, 0, &[])
}

/// Task 0 waits and is woken behind tasks 1 and 2, which have their turns
/// before it.
fn behind_the_others() -> Special {
    let scene = Scene::of(3).asks(0, INPUT, 0, 0).clock(1);
    let came = [(Input(0, TAIL), 1), (Input(0, LENGTH), 1), (Input(0, SLOT), 65)];
    let back = [(Ready(TAIL), 1), (Ready(LENGTH), 3), (Status(0), 0)];
    let mut special = Special::on(scene)
        .tick(SERVICE_WAITS, 0, &[(Clock, 5), (Ready(HEAD), 1), (Ready(LENGTH), 2), (Status(0), 3)])
        .input(0, 65, &[&came[..], &back].concat());
    for task in [1, 2] {
        special = special
            .answers(ORDER_DONE, task)
            .answers(ORDER_DONE, task)
            .answers(ORDER_FAULTED, task)
            .answers(ERROR_STOP, task);
    }
    special.answers(SERVICE_DONE, 0)
}

/// Each task receives from the next, the last from the first, and all wait.
/// An input is taken and wakes none of them.
fn ring(tasks: usize) -> Special {
    let next = |task| word((task + 1) % tasks);
    let asking = (0..tasks).fold(Scene::of(tasks), |scene, task| scene.asks(task, RECEIVE, next(task), 9));
    let waiting = (0..tasks).fold(Special::on(asking), |special, task| special.answers(SERVICE_WAITS, word(task)));
    waiting.tick(IDLE, 0, &[]).input(1, 65, &[(Input(1, TAIL), 1), (Input(1, LENGTH), 1), (Input(1, SLOT), 65)]).tick(
        IDLE,
        0,
        &[],
    )
}

/// Three tasks with S 2, each of which has two orders at a turn.
fn round_robin() -> Special {
    let mut special = Special::on(Scene::running(3, &[0x0245; 6]).slice(2));
    for turn in 0..6 {
        let task = turn % 3;
        special = special.answers(ORDER_DONE, task).answers(ORDER_DONE, task).answers(TURN_PASSED, task);
    }
    special.answers(ORDER_DONE, 0)
}
