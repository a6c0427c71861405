//! Runs that count, one after another with the same counts, and shares by the counts that stand.

use crate::call::Call;
use model::cases::family;
use model::check::accept;
use model::damage::Damage;
use model::happening::many;
use model::image::Kernel;
use model::layout::LARGEST_TASKS;
use model::reporting::random::{any, counts, kernel, list};
use model::reporting::shares::group;
use model::reports::{report, COUNTS, MOST};
use model::rng::Rng;
use model::running;

/// The most reports that follow one another.
const MOST_REPORTS: usize = 5;
/// In how many of a hundred cases the next report is on another image.
const ANOTHER_IMAGE: usize = 40;
/// Of so many batches one is on images that may be bad, and one has counts of other lengths.
const BATCHES_TO_A_BAD_ONE: usize = 12;
const BATCHES_TO_ANOTHER_LENGTH: usize = 20;
/// The most counts of another length.
const MOST_COUNTS: usize = 200;
/// The most events of a list for an image that may be bad.
const FEW_EVENTS: usize = 8;
/// More ticks than a word can count.
const MANY_TICKS: usize = 66_000;

/// Reports and shares that belong together.
pub fn calls(rng: &mut Rng, damages: &[Damage]) -> Vec<Call> {
    if rng.below(BATCHES_TO_A_BAD_ONE) == 0 {
        return on_any(rng, damages);
    }
    if rng.below(BATCHES_TO_ANOTHER_LENGTH) == 0 {
        return of_other_length(rng);
    }
    night(rng)
}

/// Reports that follow one another with the same counts, over one image or several, and shares by the counts that stand.
fn night(rng: &mut Rng) -> Vec<Call> {
    let mut image = some_kernel(rng).encode();
    let mut events = list(rng, &good(&image));
    let mut stands = counts(rng, &image, &events);
    let mut calls = Vec::new();
    for _ in 0..rng.between(1, MOST_REPORTS) {
        let reported = report(&image, &events, &stands);
        calls.push(Call::Report { image, events, counts: stands });
        stands = reported.counts;
        calls.push(share(rng, stands.clone()));
        image = if rng.percent(ANOTHER_IMAGE) { some_kernel(rng).encode() } else { reported.image };
        events = list(rng, &good(&image));
    }
    calls
}

/// A kernel of a night, or one that may be large.
fn some_kernel(rng: &mut Rng) -> Kernel {
    if rng.percent(20) {
        many::kernel(rng).0
    } else {
        kernel(rng)
    }
}

fn good(image: &[u16]) -> Kernel {
    accept(image).expect("a good image")
}

/// A short list on a good image and on damaged ones made from it.
fn on_any(rng: &mut Rng, damages: &[Damage]) -> Vec<Call> {
    let kernel = some_kernel(rng);
    family(rng, &kernel, damages).into_iter().map(|image| short(rng, &kernel, image)).collect()
}

/// A report of a short list, made for a kernel, on an image that may be bad.
pub fn short(rng: &mut Rng, kernel: &Kernel, image: Vec<u16>) -> Call {
    let count = rng.between(1, FEW_EVENTS);
    let events = running::list(rng, kernel, count);
    let counts = counts(rng, &kernel.encode(), &events);
    Call::Report { image, events, counts }
}

/// A report with counts of another length, and a share by them.
fn of_other_length(rng: &mut Rng) -> Vec<Call> {
    let kernel = some_kernel(rng);
    let any_length = rng.below(MOST_COUNTS);
    let length = *rng.pick(&[0, 1, 6, COUNTS - 1, COUNTS + 1, 2 * COUNTS, any_length]);
    let counts: Vec<u32> = (0..length).map(|_| any(rng)).collect();
    let events = list(rng, &kernel);
    vec![Call::Report { image: kernel.encode(), events, counts: counts.clone() }, share(rng, counts)]
}

/// A report of more ticks than a word can count, some of which most often find their count at its end.
pub fn long(rng: &mut Rng) -> Call {
    let image = kernel(rng).encode();
    let events = vec![0; 3 * MANY_TICKS];
    let counts = counts(rng, &image, &events);
    Call::Report { image, events, counts }
}

/// Shares by random counts.
pub fn shares(rng: &mut Rng) -> Vec<Call> {
    let group = group(rng);
    let mut calls: Vec<Call> = group.cases.iter().map(|case| of_task(rng, group.counts.clone(), case.task)).collect();
    calls.push(share(rng, vec![MOST; COUNTS]));
    calls
}

/// The share of any task by these counts.
fn share(rng: &mut Rng, counts: Vec<u32>) -> Call {
    let there = rng.below(LARGEST_TASKS) as u16;
    let task = *rng.pick(&[0, there, there, there, 15, 16, 65535]);
    of_task(rng, counts, task)
}

/// The share of a task, with anything in its place before.
fn of_task(rng: &mut Rng, counts: Vec<u32>, task: u16) -> Call {
    let [high, low] = [(); 2].map(|()| u64::from(any(rng)));
    Call::Share { counts, task, bits: high << 32 | low }
}
