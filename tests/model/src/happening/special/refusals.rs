//! Malformed events, and refusals in their order.

use super::{Special, FULL};
use crate::events::kind::{INPUT, OUTPUT_DONE, TICK};
use crate::happening::scene::Scene;
use crate::layout::{word, LARGEST_TASKS};
use crate::numbers::EVENT;

/// Kinds that are no kind of event; the low bytes of some are.
const UNKNOWN: [u16; 9] = [3, 4, 255, 256, 257, 258, 32768, 32769, 65535];
const NOT_ZERO: [u16; 5] = [1, 255, 256, 32768, 65535];
const OVER_A_CHARACTER: [u16; 5] = [256, 257, 511, 32768, 65535];

/// Every malformed event on images of one, two and 16 tasks. In the second
/// input buffers are full, and in all ports are idle, so that 7 comes before 8
/// and 9.
pub fn all() -> Vec<Special> {
    let full = Scene::of(2).input(0, &FULL).input(1, &FULL);
    let rows = [(Scene::of(1), 1), (full, 2), (Scene::of(LARGEST_TASKS), LARGEST_TASKS)];
    rows.map(|(scene, tasks)| refused(scene, word(tasks))).to_vec()
}

/// Every malformed event, one after another.
fn refused(scene: Scene, tasks: u16) -> Special {
    let events = [ticks(), inputs(tasks), outputs(tasks), unknown()].concat();
    events.into_iter().fold(Special::on(scene), |special, event| special.refused(event, EVENT))
}

/// Ticks with a device or a character.
fn ticks() -> Vec<[u16; 3]> {
    NOT_ZERO.iter().flat_map(|&some| [[TICK, some, 0], [TICK, 0, some], [TICK, some, some]]).collect()
}

/// Inputs of no device, of no character, and of neither.
fn inputs(tasks: u16) -> Vec<[u16; 3]> {
    let of_no_device = no_device(tasks).map(|device| [INPUT, device, 65]);
    let of_no_character = OVER_A_CHARACTER.map(|character| [INPUT, tasks - 1, character]);
    [&of_no_device[..], &of_no_character, &[[INPUT, tasks, 256], [INPUT, 65535, 65535]]].concat()
}

/// Outputs done of no device, with a character, and both.
fn outputs(tasks: u16) -> Vec<[u16; 3]> {
    let of_no_device = no_device(tasks).map(|device| [OUTPUT_DONE, device, 0]);
    let with_character = NOT_ZERO.map(|some| [OUTPUT_DONE, tasks - 1, some]);
    [&of_no_device[..], &with_character, &[[OUTPUT_DONE, tasks, 1]]].concat()
}

fn unknown() -> Vec<[u16; 3]> {
    UNKNOWN.iter().flat_map(|&kind| [[kind, 0, 0], [kind, 0, 65], [kind, 65535, 65535]]).collect()
}

/// Numbers of no device; the low bytes of some are 0.
fn no_device(tasks: u16) -> [u16; 5] {
    [tasks, tasks + 1, 256, 32768, 65535]
}
