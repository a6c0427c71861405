//! Reports chosen by hand, each with what it must come to.

use super::{Growth, Night, TICK};
use crate::happening::scene::Scene;
use crate::reports::{COUNTS, MOST};

const LETTER: [u16; 3] = [1, 0, 65];
const DONE: [u16; 3] = [2, 0, 0];
/// A tick is not of a device.
const MALFORMED: [u16; 3] = [0, 1, 0];

/// Jumps to itself, for ever.
const ROUND: [u16; 2] = [0x0E00, 0];

/// The paper's eleven events: of task 0 two orders, two services, a wait, a
/// fault and a passed turn, and an idle tick. The last is refused.
const PAPERS: [[u16; 3]; 11] = [TICK, TICK, TICK, LETTER, TICK, TICK, TICK, TICK, TICK, DONE, DONE];

/// The places of task 0's counts, and of the idle ticks.
const ORDERS: usize = 0;
const SERVICES: usize = 1;
const WAITS: usize = 2;
const FAULTS: usize = 3;
const ERROR_STOPS: usize = 4;
const PASSED_TURNS: usize = 5;
const IDLE: usize = 96;

/// A list, and by hand how many events are taken, the number, and the counts
/// that grow.
type Row = (Vec<u16>, usize, u16, Vec<Growth>);

/// Every report chosen by hand, the paper's first.
pub fn all() -> Vec<Night> {
    let mut nights = vec![papers_run(), over_images(), tested_last(), full_input()];
    nights.extend([row_of_orders(), row_of_idle_ticks(), faults()]);
    nights.extend(at_the_end());
    nights
}

/// 97 counts of which these are not 0.
fn counts(of: &[(usize, u32)]) -> Vec<u32> {
    let mut counts = vec![0; COUNTS];
    of.iter().for_each(|&(place, count)| counts[place] = count);
    counts
}

/// Reports on a scene's image, whose outcomes the model must give.
fn then(night: Night, scene: Scene, rows: Vec<Row>) -> Night {
    let mut night = night.on(scene.kernel().encode());
    for (list, taken, number, grown) in rows {
        let case = night.judge(list);
        assert_eq!((case.taken, case.number, &case.grown), (taken, number, &grown), "the list {:?}", case.list);
    }
    night
}

fn papers() -> Scene {
    Scene::planned(&[1, 2, 1, 1, 1, 4, 2, 4656, 4672])
}

/// The paper's run from no counts; then the task, which has an error, stops, two
/// ticks are idle, and the rest goes on as in the file of runs.
fn papers_run() -> Night {
    let list = PAPERS.concat();
    let first = vec![(0, 2), (1, 2), (2, 1), (3, 1), (5, 1), (96, 1)];
    let again = vec![(4, 1), (96, 8)];
    then(
        Night::from(counts(&[])),
        papers(),
        vec![(list.clone(), 10, 9, first), (list, 9, 9, again), (vec![], 0, 0, vec![])],
    )
}

/// The same counts over an image of one task, one of two and the first again.
fn over_images() -> Night {
    let list = PAPERS.concat();
    let night = Night::from(counts(&[(6, 100), (95, MOST)]));
    let night =
        then(night, papers(), vec![(list.clone(), 10, 9, vec![(0, 2), (1, 2), (2, 1), (3, 1), (5, 1), (96, 1)])]);
    // S 5 and two tasks: five orders and a passed turn of task 0, three orders of task 1.
    let night = then(night, Scene::running(2, &ROUND), vec![(TICK.repeat(9), 9, 0, vec![(0, 7), (5, 2), (6, 103)])]);
    then(night, papers(), vec![(list, 10, 9, vec![(0, 9), (1, 4), (2, 2), (3, 2), (5, 3), (96, 2)])])
}

/// Each count of the paper's run at its end, or one or two before it.
fn at_the_end() -> Vec<Night> {
    let ends = [
        (ORDERS, 0, 0, 17),
        (ORDERS, 1, 5, 17),
        (ORDERS, 2, 10, 9),
        (SERVICES, 0, 4, 17),
        (SERVICES, 1, 7, 17),
        (SERVICES, 2, 10, 9),
        (WAITS, 0, 1, 17),
        (WAITS, 1, 10, 9),
        (FAULTS, 0, 8, 17),
        (FAULTS, 1, 10, 9),
        (ERROR_STOPS, 0, 10, 9),
        (PASSED_TURNS, 0, 6, 17),
        (PASSED_TURNS, 1, 10, 9),
        (IDLE, 0, 2, 17),
        (IDLE, 1, 10, 9),
    ];
    let night = |(place, left, taken, number): (usize, u32, usize, u16)| {
        let mut night = Night::from(counts(&[(place, MOST - left)])).on(papers().kernel().encode());
        let case = night.judge(PAPERS.concat());
        assert_eq!((case.taken, case.number), (taken, number));
        night
    };
    ends.map(night).into()
}

/// With all counts at their end ticks are refused with 17, and all other events
/// as ever; those of devices are taken.
fn tested_last() -> Night {
    then(
        Night::from(vec![MOST; COUNTS]),
        papers(),
        vec![
            (vec![], 0, 0, vec![]),
            (TICK.to_vec(), 0, 17, vec![]),
            (MALFORMED.to_vec(), 0, 7, vec![]),
            ([DONE, TICK].concat(), 0, 9, vec![]),
            ([LETTER, LETTER, TICK].concat(), 1, 8, vec![]),
            ([TICK, MALFORMED].concat(), 0, 17, vec![]),
            (vec![0; 4], 0, 7, vec![]),
        ],
    )
}

/// Letters for a full buffer: the ticks before them are counted.
fn full_input() -> Night {
    then(
        Night::from(counts(&[])),
        papers(),
        vec![
            ([LETTER, LETTER, TICK].concat(), 1, 8, vec![]),
            ([LETTER, TICK].concat(), 0, 8, vec![]),
            ([TICK, LETTER].concat(), 1, 8, vec![(0, 1)]),
            // The input is done, which makes room for one letter.
            ([TICK, LETTER, LETTER].concat(), 2, 8, vec![(1, 1)]),
            ([TICK, TICK, LETTER, TICK].concat(), 2, 8, vec![(0, 2), (5, 1)]),
            ([TICK, LETTER].concat(), 1, 8, vec![(1, 2)]),
            ([TICK, TICK, LETTER].concat(), 2, 8, vec![(3, 1), (5, 2)]),
        ],
    )
}

/// A row of orders that meets the end of its count inside, at its last order and
/// after it. S is large, so no turn is passed.
fn row_of_orders() -> Night {
    let list = TICK.repeat(60);
    then(
        Night::from(counts(&[(ORDERS, MOST - 157)])),
        Scene::running(1, &ROUND).slice(65535),
        vec![
            (list.clone(), 60, 0, vec![(0, MOST - 97)]),
            (list.clone(), 60, 0, vec![(0, MOST - 37)]),
            (list.clone(), 37, 17, vec![(0, MOST)]),
            (list.clone(), 0, 17, vec![]),
            ([LETTER.to_vec(), list].concat(), 1, 17, vec![]),
        ],
    )
}

/// The same with ticks that nobody takes.
fn row_of_idle_ticks() -> Night {
    let list = TICK.repeat(40);
    then(
        Night::from(counts(&[(IDLE, MOST - 90), (0, 7)])),
        Scene::of(2).waits_for_input(0).stopped(1, 4),
        vec![
            (list.clone(), 40, 0, vec![(96, MOST - 50)]),
            (list[..30].to_vec(), 10, 0, vec![(96, MOST - 40)]),
            (list.clone(), 40, 0, vec![(96, MOST)]),
            (list, 0, 17, vec![]),
            // The input wakes task 0: its service is done, and an order.
            ([LETTER, TICK, TICK].concat(), 3, 0, vec![(0, 8), (1, 1)]),
        ],
    )
}

/// A faulted service and a faulted order are under one heading. Load R2 with 7,
/// ask to send, the service faults as there is no task 7, and the task stops.
fn faults() -> Night {
    let night = then(
        Night::from(counts(&[(FAULTS, MOST - 2)])),
        Scene::running(1, &[0x0120, 7, 0x1210]),
        vec![(TICK.repeat(5), 5, 0, vec![(0, 2), (3, MOST - 1), (4, 1), (96, 1)])],
    );
    let night = then(night, Scene::running(1, &[0, 0]), vec![(TICK.repeat(2), 2, 0, vec![(3, MOST), (4, 2)])]);
    then(night, Scene::running(1, &[0, 0]), vec![(TICK.repeat(2), 0, 17, vec![])])
}
