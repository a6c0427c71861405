//! Random nights: images one after another with lists of events, and counts
//! that are often just under their end.

use super::{Night, TICK};
use crate::cases::CROWD;
use crate::check::accept;
use crate::good;
use crate::happening::scene::Scene;
use crate::image::Kernel;
use crate::layout::{word, Frame};
use crate::lively;
use crate::reports::{report, COUNTS, MOST};
use crate::rng::Rng;
use crate::running;

/// The most reports of a night beside the first, and in how many of a hundred
/// cases one is on another image.
const MOST_MORE: usize = 3;
const ANOTHER_IMAGE: usize = 40;

/// The events of a list.
const FEWEST_EVENTS: usize = 10;
const MOST_EVENTS: usize = 120;
/// The rows of ticks in a list, and their length.
const MOST_ROWS: usize = 4;
const LONGEST_ROW: usize = 45;
/// The most events of devices between two rows.
const MOST_BETWEEN: usize = 2;

/// The most that a count has left beside what a list takes.
const SPARE: usize = 3;

/// First words of orders, in hexadecimal: op, then a, then b. An order that
/// counts R4 up by R5, a jump, services, and what is no order.
const ADD: u16 = 0x0545;
const JUMP: u16 = 0x0E00;
const INPUT: u16 = 0x1230;
const OUTPUT: u16 = 0x1240;
const UNKNOWN: u16 = 0;
/// The most orders of a loop before its last.
const LONGEST_LOOP: usize = 12;

/// The random nights of a seed.
pub fn all(seed: u64, count: usize) -> Vec<Night> {
    let mut rng = Rng::new(seed);
    (0..count).map(|_| night(&mut rng)).collect()
}

/// Some reports, the first from counts that are chosen for it.
fn night(rng: &mut Rng) -> Night {
    let first = kernel(rng);
    let list = list(rng, &first);
    let mut night = Night::from(counts(rng, &first.encode(), &list)).on(first.encode());
    night.judge(list);
    for _ in 0..rng.below(MOST_MORE + 1) {
        if rng.percent(ANOTHER_IMAGE) {
            night = night.on(kernel(rng).encode());
        }
        let kernel = accept(night.standing()).expect("a good image");
        night.judge(self::list(rng, &kernel));
    }
    night
}

/// A good kernel: of tasks that go on with services, of loops of orders, of the
/// most tasks, or with nobody ready.
pub fn kernel(rng: &mut Rng) -> Kernel {
    match rng.below(20) {
        0..=9 => {
            let frame = good::frame(rng);
            lively::kernel(rng, frame)
        }
        10..=16 => loops(rng),
        17 => lively::kernel(rng, CROWD),
        _ => nobody_ready(rng),
    }
}

/// Tasks that have long rows of orders.
fn loops(rng: &mut Rng) -> Kernel {
    let mut program = vec![ADD; rng.below(LONGEST_LOOP + 1)];
    program.extend(*rng.pick(&[None, None, Some(INPUT), Some(OUTPUT), Some(UNKNOWN)]));
    program.extend([JUMP, 0]);
    let slice = *rng.pick(&[1, 2, 7, 30, 100, 65535]);
    let frame = Frame { tasks: rng.between(1, 4), slice, input: 1, output: 2, message: 1 };
    let any = word(rng.below(usize::from(slice) + 1));
    let clock = *rng.pick(&[0, 1, slice, any]);
    Scene::framed(frame, &program).clock(clock).kernel()
}

/// A kernel whose next tick is idle.
fn nobody_ready(rng: &mut Rng) -> Kernel {
    loop {
        let kernel = good::kernel(rng);
        if kernel.ready.is_empty() {
            return kernel;
        }
    }
}

/// A list for a kernel: any events, some of them refused, or the last cut; ticks
/// alone; or rows of ticks with events of devices between them.
pub fn list(rng: &mut Rng, kernel: &Kernel) -> Vec<u16> {
    let count = rng.between(FEWEST_EVENTS, MOST_EVENTS);
    match rng.below(5) {
        0..=1 => running::list(rng, kernel, count),
        2 => TICK.repeat(count),
        _ => rows(rng, kernel),
    }
}

/// Rows of ticks, each after some events that are taken, most often of devices.
fn rows(rng: &mut Rng, kernel: &Kernel) -> Vec<u16> {
    let mut stands = kernel.clone();
    let mut list = Vec::new();
    for _ in 0..rng.between(1, MOST_ROWS) {
        let between = rng.below(MOST_BETWEEN + 1);
        let mut part = running::events(rng, &stands, between);
        part.extend(TICK.repeat(rng.between(1, LONGEST_ROW)));
        stands = running::after(&stands, &part);
        list.extend(part);
    }
    list
}

/// Counts before the report of a list: none, any, or just under the end in one
/// place, in several or in all, so that the list meets it.
pub fn counts(rng: &mut Rng, image: &[u16], list: &[u16]) -> Vec<u32> {
    let growth = report(image, list, &[0; COUNTS]).counts;
    match rng.below(20) {
        0..=1 => vec![0; COUNTS],
        2..=4 => (0..COUNTS).map(|_| any(rng)).collect(),
        5..=10 => near_in(rng, &growth, 1),
        11..=14 => {
            let places = rng.between(2, 6);
            near_in(rng, &growth, places)
        }
        15 => vec![MOST; COUNTS],
        _ => near_in_all(rng, &growth),
    }
}

/// Any counts of which so many, most often those that a list comes to, are near
/// their end.
fn near_in(rng: &mut Rng, growth: &[u32], places: usize) -> Vec<u32> {
    let mut counts: Vec<u32> = (0..COUNTS).map(|_| any(rng) / 2).collect();
    for _ in 0..places {
        let place = met(rng, growth);
        counts[place] = near(rng, growth[place]);
    }
    counts
}

/// All counts near their end: most have room for the list, and often one has
/// not.
fn near_in_all(rng: &mut Rng, growth: &[u32]) -> Vec<u32> {
    let mut counts: Vec<u32> = growth.iter().map(|&grown| MOST - grown - spare(rng)).collect();
    if rng.percent(70) {
        let place = met(rng, growth);
        counts[place] = near(rng, growth[place]);
    }
    counts
}

/// A place that a list comes to, or any where it comes to none.
fn met(rng: &mut Rng, growth: &[u32]) -> usize {
    let met: Vec<usize> = (0..COUNTS).filter(|&place| growth[place] > 0).collect();
    if met.is_empty() || rng.percent(5) {
        rng.below(COUNTS)
    } else {
        *rng.pick(&met)
    }
}

/// A count with too little left for what a list takes of it, or just enough.
fn near(rng: &mut Rng, grown: u32) -> u32 {
    let any = rng.below(grown as usize + 1) as u32;
    MOST - *rng.pick(&[0, 1, 2, any, any, any, grown.saturating_sub(1), grown, grown + 1])
}

/// What a count may have left beside.
fn spare(rng: &mut Rng) -> u32 {
    rng.below(SPARE) as u32
}

/// A count in which small and large ones are common.
pub fn any(rng: &mut Rng) -> u32 {
    let [low, high] = [(); 2].map(|()| u32::from(rng.any_word()));
    *rng.pick(&[0, 1, low % 100, low, low, high << 16 | low, high << 8])
}
