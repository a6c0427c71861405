//! The random calls of a seed, in a mix.

mod images;
mod looks;
mod plans;
mod prints;
mod reports;
mod texts;

use crate::call::Call;
use model::building::faults::{self, Fault};
use model::cases::family;
use model::check::accept;
use model::damage::{self, Damage};
use model::events::happen;
use model::good;
use model::happening::{self, many};
use model::image::Kernel;
use model::junk;
use model::looking::Damages;
use model::numbers;
use model::rng::Rng;
use model::running;
use model::runs::run;
use model::texts::faults as text_faults;

/// Of so many batches one is near the largest image; each other kind of call has more of them.
const BATCHES: usize = 170;

/// With so many of a hundred of these comes a report of a long list.
const LONG_REPORTS: usize = 20;

/// The most events, or runs, that follow one another from an image.
const MOST_STEPS: usize = 20;
const MOST_RUNS: usize = 3;
/// The most events of a list for a good image, and of one for an image that may be bad.
const MOST_EVENTS: usize = 400;
const FEW_EVENTS: usize = 8;

/// Calls without end. The same seed always gives the same ones.
pub struct Source {
    rng: Rng,
    damages: Vec<Damage>,
    /// The damages that give number 6.
    of_rules: Damages,
    faults: Vec<Fault>,
    /// The faults that give number 11.
    of_plan: Vec<Fault>,
    /// The faults of texts, and those that give numbers 14 and 15.
    text_faults: Vec<text_faults::Fault>,
    later_faults: Vec<text_faults::Fault>,
    /// Calls that are made and not yet given.
    waiting: Vec<Call>,
}

impl Iterator for Source {
    type Item = Call;

    fn next(&mut self) -> Option<Call> {
        while self.waiting.is_empty() {
            self.waiting = self.batch();
        }
        self.waiting.pop()
    }
}

impl Source {
    pub fn new(seed: u64) -> Source {
        Source {
            rng: Rng::new(seed),
            damages: damage::all(),
            of_rules: Damages::named(),
            faults: faults::all(),
            of_plan: faults::of_number(numbers::PLAN),
            text_faults: text_faults::all(),
            later_faults: text_faults::past_the_grammar(),
            waiting: Vec::new(),
        }
    }

    /// Some calls that belong together.
    fn batch(&mut self) -> Vec<Call> {
        match self.rng.below(BATCHES) {
            0 => self.large(),
            1..=19 => self.checks(),
            20..=34 => plans::calls(&mut self.rng, &self.faults, &self.of_plan),
            35..=64 => events(&mut self.rng),
            65..=74 => self.events_on_any(),
            75..=94 => runs(&mut self.rng),
            95..=99 => self.runs_on_any(),
            100..=119 => texts::calls(&mut self.rng, &self.text_faults, &self.later_faults),
            120..=129 => prints::calls(&mut self.rng),
            130..=139 => looks::calls(&mut self.rng, &self.damages),
            140..=149 => looks::broken(&mut self.rng, &self.of_rules),
            150..=164 => reports::calls(&mut self.rng, &self.damages),
            _ => reports::shares(&mut self.rng),
        }
    }

    /// Checks of a good image, of damaged ones made from it, and of random lists.
    fn checks(&mut self) -> Vec<Call> {
        let rng = &mut self.rng;
        let kernel = good::kernel(rng);
        let mut images = family(rng, &kernel, &self.damages);
        images.extend(junk::DEGREES.map(|degree| junk::list(rng, degree)));
        images.into_iter().map(|image| Call::Check { image }).collect()
    }

    /// An event on a good image and on damaged ones made from it.
    fn events_on_any(&mut self) -> Vec<Call> {
        let rng = &mut self.rng;
        let kernel = good::kernel(rng);
        let images = family(rng, &kernel, &self.damages);
        images.into_iter().map(|image| Call::Event { image, event: event(rng, &kernel) }).collect()
    }

    /// A short list on a good image and on damaged ones made from it.
    fn runs_on_any(&mut self) -> Vec<Call> {
        let rng = &mut self.rng;
        let (kernel, _) = many::kernel(rng);
        let images = family(rng, &kernel, &self.damages);
        images.into_iter().map(|image| short_run(rng, &kernel, image)).collect()
    }

    /// Each call on images and plans near the largest.
    fn large(&mut self) -> Vec<Call> {
        let rng = &mut self.rng;
        let mut calls = plans::large(rng);
        let (kernel, images) = images::large(rng);
        for image in images {
            calls.push(Call::Event { image: image.clone(), event: event(rng, &kernel) });
            calls.push(short_run(rng, &kernel, image.clone()));
            calls.extend(looks::into(rng, &kernel, &image));
            calls.push(reports::short(rng, &kernel, image.clone()));
            calls.push(Call::Check { image });
        }
        if rng.percent(LONG_REPORTS) {
            calls.push(reports::long(rng));
        }
        calls
    }
}

/// Events that follow one another from a good image, as long as somebody can be ready again.
fn events(rng: &mut Rng) -> Vec<Call> {
    let mut kernel = images::kernel(rng);
    let mut calls = Vec::new();
    for _ in 0..rng.between(1, MOST_STEPS) {
        let event = event(rng, &kernel);
        calls.push(Call::Event { image: kernel.encode(), event });
        // A refused event changes nothing, and the next one comes to the same image.
        let _ = happen(&mut kernel, event);
        if happening::is_dead(&kernel) {
            break;
        }
    }
    calls
}

/// Runs that follow one another from a good image.
fn runs(rng: &mut Rng) -> Vec<Call> {
    let (mut kernel, _) = many::kernel(rng);
    let mut calls = Vec::new();
    for _ in 0..rng.between(1, MOST_RUNS) {
        let any = rng.below(MOST_EVENTS + 1);
        let count = *rng.pick(&[0, 1, any % FEW_EVENTS, any, any, any]);
        let (image, events) = (kernel.encode(), list(rng, &kernel, count));
        kernel = accept(&run(&image, &events).image).expect("a run keeps a good image good");
        calls.push(Call::Run { image, events });
    }
    calls
}

/// A run of a short list, made for a kernel, on an image that may be bad.
fn short_run(rng: &mut Rng, kernel: &Kernel, image: Vec<u16>) -> Call {
    let count = rng.below(FEW_EVENTS + 1);
    Call::Run { image, events: list(rng, kernel, count) }
}

/// A list of so many events, in some of which one is refused or the last is cut.
fn list(rng: &mut Rng, kernel: &Kernel, count: usize) -> Vec<u16> {
    match count {
        0 if rng.percent(20) => vec![0; rng.between(1, 2)],
        0 => Vec::new(),
        _ => running::list(rng, kernel, count),
    }
}

/// An event: most often one that the kernel can take, else malformed, or any three words.
fn event(rng: &mut Rng, kernel: &Kernel) -> [u16; 3] {
    match rng.below(20) {
        0 => happening::malformed(rng, kernel.tasks.len()),
        1 => [(); 3].map(|()| rng.word()),
        _ => happening::event(rng, kernel),
    }
}
