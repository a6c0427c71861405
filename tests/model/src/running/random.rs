//! Random images, each with runs of hundreds of events.

use super::Course;
use crate::cases::{LARGEST, PAIR};
use crate::check::accept;
use crate::events::{happen, Event};
use crate::good;
use crate::happening::{event, malformed};
use crate::image::Kernel;
use crate::layout::{word, LARGEST_TOTAL};
use crate::lively;
use crate::rng::Rng;
use crate::runs::EVENT_WORDS;

const FEWEST_EVENTS: usize = 100;
const MOST_EVENTS: usize = 600;
/// The most runs that follow one another.
const MOST_RUNS: usize = 3;

/// In how many of a hundred cases a list has a refused event, and in how many
/// it is no multiple of three words.
const REFUSED: usize = 55;
const CUT: usize = 8;

/// The courses of a seed: on large images, and on `count` others.
pub fn all(seed: u64, count: usize) -> Vec<Course> {
    let mut rng = Rng::new(seed);
    let largest = lively::kernel(&mut rng, LARGEST);
    let longest = lively::with_total(&mut rng, PAIR, LARGEST_TOTAL);
    let mut courses = vec![course(&mut rng, &largest), course(&mut rng, &longest)];
    courses.extend((0..count).map(|_| {
        let frame = good::frame(&mut rng);
        let kernel = lively::kernel(&mut rng, frame);
        course(&mut rng, &kernel)
    }));
    courses
}

/// Some runs on a kernel, each on the image that the one before it left.
fn course(rng: &mut Rng, kernel: &Kernel) -> Course {
    let mut course = Course::on(kernel.encode());
    for _ in 0..rng.between(1, MOST_RUNS) {
        let kernel = accept(&course.stands).expect("a good image");
        let count = rng.between(FEWEST_EVENTS, MOST_EVENTS);
        let list = list(rng, &kernel, count);
        course.judge(list);
    }
    course
}

/// A list of so many events, at least one, for a kernel: all are taken, or one
/// at any distance is refused and any follow it, or the last is cut.
pub fn list(rng: &mut Rng, kernel: &Kernel, count: usize) -> Vec<u16> {
    let mut list = if rng.percent(REFUSED) { with_refusal(rng, kernel, count) } else { events(rng, kernel, count) };
    if rng.percent(CUT) {
        list.truncate(list.len() - rng.between(1, 2));
    }
    list
}

/// The words of so many events, one of which is the first that is refused.
fn with_refusal(rng: &mut Rng, kernel: &Kernel, count: usize) -> Vec<u16> {
    let any = rng.below(count);
    let taken = *rng.pick(&[0, 1, count - 1, any, any, any, any, any]);
    let mut list = events(rng, kernel, taken);
    let stands = after(kernel, &list);
    list.extend(refused(rng, &stands));
    list.extend((taken + 1..count).flat_map(|_| event(rng, &stands)));
    list
}

/// The words of so many events that are taken one after another.
pub fn events(rng: &mut Rng, kernel: &Kernel, count: usize) -> Vec<u16> {
    let mut stands = kernel.clone();
    (0..count).flat_map(|_| taken(rng, &mut stands)).collect()
}

/// An event that is taken, carried out.
fn taken(rng: &mut Rng, kernel: &mut Kernel) -> [u16; EVENT_WORDS] {
    loop {
        let words = event(rng, kernel);
        if happen(kernel, words).is_ok() {
            return words;
        }
    }
}

/// The kernel after the events of a list that are all taken.
pub fn after(kernel: &Kernel, list: &[u16]) -> Kernel {
    let mut stands = kernel.clone();
    for words in list.chunks_exact(EVENT_WORDS) {
        happen(&mut stands, [words[0], words[1], words[2]]).expect("the event is taken");
    }
    stands
}

/// An event that is refused: malformed, or an input or an output done that
/// the kernel cannot take.
fn refused(rng: &mut Rng, kernel: &Kernel) -> [u16; EVENT_WORDS] {
    let malformed = malformed(rng, kernel.tasks.len());
    let full = kernel.tasks.iter().position(|task| task.input.is_full());
    let idle = kernel.tasks.iter().position(|task| task.port.is_idle());
    let input = full.map(|i| Event::Input { device: word(i), character: rng.character() }.words());
    let done = idle.map(|i| Event::OutputDone { device: word(i) }.words());
    *rng.pick(&[malformed, input.unwrap_or(malformed), done.unwrap_or(malformed)])
}
