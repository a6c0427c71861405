//! Long runs of several tasks, chosen by a seed.

use super::{buffers, bytes, Case};
use crate::layout::{Frame, LARGEST_TASKS};
use crate::lively;
use crate::plan;
use crate::rng::Rng;
use crate::running::events;

/// A run of which the runner reads its events in many parts.
const EVENTS: usize = 8 * buffers::EVENTS + 232;
const SEVERAL: Frame = Frame { tasks: 5, slice: 4, input: 2, output: 3, message: 2 };
const SEVERAL_SEED: u64 = 1984;

/// A shorter one with task numbers of two digits, which is refused at its end.
const EVENTS_OF_CROWD: usize = 1500;
const CROWD: Frame = Frame { tasks: LARGEST_TASKS, slice: 3, input: 1, output: 1, message: 1 };
const CROWD_SEED: u64 = 1985;

/// The kinds of answer that must be often in a long run: turns, services done
/// and waiting, orders, inputs and outputs.
const OFTEN: [u16; 6] = [2, 3, 4, 6, 8, 9];
/// One event in so many must have each of those kinds.
const SHARE: usize = 50;

/// Long runs.
pub fn all() -> Vec<Case> {
    vec![long_run("long_run", SEVERAL_SEED, SEVERAL, EVENTS, &[]), refused_at_its_end()]
}

/// A long run of 16 tasks with a malformed event after it, and ticks that are
/// not reached.
fn refused_at_its_end() -> Case {
    let end = [0, 0, 256, 0, 0, 0, 0, 0, 0];
    long_run("sixteen_tasks", CROWD_SEED, CROWD, EVENTS_OF_CROWD, &end)
}

/// The first run of a seed in which much happens: so many events that are
/// taken, then those of the end.
fn long_run(name: &str, seed: u64, frame: Frame, count: usize, end: &[u16]) -> Case {
    let mut rng = Rng::new(seed);
    loop {
        let plan = lively::plan(&mut rng, frame);
        let kernel = plan::accept(&plan).expect("the plan is good");
        let list = [events(&mut rng, &kernel, count), end.to_vec()].concat();
        let case = Case::judged(name, Some(bytes(&plan)), Some(bytes(&list)));
        if is_busy(&case.lines, count / SHARE) {
            return case;
        }
    }
}

/// Whether each kind that must be often in a run stands in so many lines.
fn is_busy(lines: &str, often: usize) -> bool {
    let kind = |line: &str| line.split(' ').nth(1).map(str::to_string);
    let of_kind = |wanted: u16| {
        let wanted = Some(wanted.to_string());
        lines.lines().filter(|line| kind(line) == wanted).count()
    };
    OFTEN.into_iter().all(|wanted| of_kind(wanted) >= often)
}
