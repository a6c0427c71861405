//! Runs chosen by hand, each with what it must come to.

use super::Course;
use crate::changes::Change;
use crate::happening::scene::Scene;
use crate::image::service::{INPUT, OUTPUT};

const TICK: [u16; 3] = [0, 0, 0];
const LETTER: [u16; 3] = [1, 0, 65];
const DONE: [u16; 3] = [2, 0, 0];
/// A tick is not of a device.
const MALFORMED: [u16; 3] = [0, 1, 0];

/// Jumps to itself, for ever.
const ROUND: [u16; 2] = [0x0E00, 0];

/// A list, taken and number by hand, and the changes where they are written.
type Row = (Vec<u16>, usize, u16, Option<Vec<Change>>);

/// Every run chosen by hand, the paper's first.
pub fn all() -> Vec<Course> {
    let chosen = vec![papers_run(), one_by_one(), refusals(), lengths(), nobody_ready(), many_events()];
    chosen.into_iter().chain(last_services()).collect()
}

/// Runs on a scene's image, whose outcomes the model must give.
fn course(scene: Scene, rows: Vec<Row>) -> Course {
    let mut course = Course::on(scene.kernel().encode());
    for (list, taken, number, changes) in rows {
        let case = course.judge(list);
        assert_eq!((case.taken, case.number), (taken, number), "the run of {:?}", case.list);
        if let Some(by_hand) = changes {
            assert_eq!(case.changes, by_hand, "the run of {:?}", case.list);
        }
    }
    course
}

/// The paper's plan. Its tables are at 18 27 32 34 39 44 49 51, its segment at
/// 53.
fn papers() -> Scene {
    Scene::planned(&[1, 2, 1, 1, 1, 4, 2, 4656, 4672])
}

/// The paper's eleven events in one list, and once more from where they led.
fn papers_run() -> Course {
    let list = [TICK, TICK, TICK, LETTER, TICK, TICK, TICK, TICK, TICK, DONE, DONE].concat();
    let changes = vec![(17, 0), (18, 2), (21, 65), (26, 8)];
    let again = vec![(29, 0), (32, 5), (36, 1), (38, 65)];
    course(
        papers(),
        vec![
            (list.clone(), 10, 9, Some(changes)),
            (list.clone(), 9, 9, Some(again)),
            (list[..9].to_vec(), 3, 0, Some(vec![])),
            (list, 3, 8, Some(vec![])),
        ],
    )
}

/// The paper's events in lists of none, one and some.
fn one_by_one() -> Course {
    course(
        papers(),
        vec![
            (vec![], 0, 0, Some(vec![])),
            (TICK.to_vec(), 1, 0, Some(vec![(17, 1), (18, 1), (26, 96)])),
            (vec![], 0, 0, Some(vec![])),
            ([TICK, TICK].concat(), 2, 0, Some(vec![(17, 0), (29, 0), (32, 3)])),
            (LETTER.to_vec(), 1, 0, Some(vec![(17, 2), (29, 1), (32, 0), (36, 1), (38, 65)])),
            ([TICK, TICK, TICK].concat(), 3, 0, Some(vec![(18, 2), (21, 65), (26, 128), (36, 0), (38, 0)])),
            ([TICK, TICK].concat(), 2, 0, Some(vec![(17, 0), (26, 8), (49, 1), (50, 65)])),
            ([DONE, DONE].concat(), 1, 9, Some(vec![(49, 0), (50, 0)])),
            (DONE.to_vec(), 0, 9, Some(vec![])),
            ([TICK, TICK].concat(), 2, 0, Some(vec![(29, 0), (32, 5)])),
        ],
    )
}

/// The first refused event stops a run, whatever follows it.
fn refusals() -> Course {
    course(
        papers(),
        vec![
            (MALFORMED.to_vec(), 0, 7, Some(vec![])),
            ([MALFORMED, TICK].concat(), 0, 7, Some(vec![])),
            ([DONE, MALFORMED, TICK].concat(), 0, 9, Some(vec![])),
            ([LETTER, LETTER, MALFORMED].concat(), 1, 8, Some(vec![(36, 1), (38, 65)])),
            ([TICK, LETTER, DONE].concat(), 1, 8, Some(vec![(17, 1), (18, 1), (26, 96)])),
            ([TICK, DONE, LETTER].concat(), 1, 9, Some(vec![(17, 0), (21, 65), (26, 0), (36, 0), (38, 0)])),
            ([TICK, TICK, MALFORMED, DONE].concat(), 2, 7, Some(vec![(17, 1), (18, 2), (26, 128)])),
        ],
    )
}

/// Lists of no multiple of three words take nothing, good events first or
/// refused ones.
fn lengths() -> Course {
    let ticks = [0; 65539];
    let refused = [DONE, MALFORMED].concat();
    let good = [1, 2, 4, 5, 31, 32].map(|words| ticks[..words].to_vec());
    let bad = [4, 5].map(|words| refused[..words].to_vec());
    let right_only_mod_65536 = ticks.to_vec();
    let lists = good.into_iter().chain(bad).chain([right_only_mod_65536]);
    course(papers(), lists.map(|list| (list, 0, 7, Some(vec![]))).collect())
}

/// Idle ticks are taken.
fn nobody_ready() -> Course {
    let scene = Scene::of(2).waits_for_input(0).stopped(1, 4);
    let idle = [TICK; 200].concat();
    let then_refused = [idle.clone(), DONE.to_vec(), idle.clone()].concat();
    course(scene, vec![(idle, 200, 0, Some(vec![])), (then_refused, 200, 9, Some(vec![]))])
}

/// Runs whose last event is a service show the clock that it leaves: one less
/// where it is done or faults, and what dispatch sets where it waits. Of two
/// tasks the ready queue is at 36, the status table at 42, the output buffers
/// at 58 and the ports at 94.
fn last_services() -> Vec<Course> {
    let asks = |service, word| Scene::of(2).asks(0, service, 0, word).clock(2);
    let tick = |changes| (TICK.to_vec(), 1, 0, Some(changes));
    let done = vec![(17, 1), (26, 0), (58, 1), (59, 1), (94, 1), (95, 65)];
    let faulted = vec![(17, 1), (26, 24)];
    let stopped = vec![(17, 5), (36, 1), (38, 1), (42, 5)];
    let waits = vec![(17, 5), (36, 1), (38, 1), (42, 3)];
    vec![
        course(asks(OUTPUT, 65), vec![tick(done)]),
        course(asks(OUTPUT, 256), vec![tick(faulted), tick(stopped)]),
        course(asks(INPUT, 0), vec![tick(waits)]),
    ]
}

/// More events than a word can count. S is 5, so there are five orders and
/// then the turn is passed; the last tick passes none, and the clock stays 0.
fn many_events() -> Course {
    let ticks = 6 * 10923 - 1;
    assert!(ticks > 65535);
    let list = vec![0; 3 * ticks];
    course(Scene::running(1, &ROUND), vec![(list, ticks, 0, Some(vec![(17, 0)]))])
}
