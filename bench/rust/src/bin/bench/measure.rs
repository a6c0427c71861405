//! Measures every kernel on a workload, in turns.

use crate::kernels::{Kernel, OnTexts};
use crate::texts::Texts;
use crate::vectors::same_units;
use crate::workloads::{Work, Workload};
use std::hint::black_box;
use std::time::Instant;

/// Rounds of a workload; in each every kernel is timed once.
pub const ROUNDS: usize = 41;

/// The bytes of a text that nothing is printed to.
const UNWRITTEN: u8 = 255;

/// The least nanoseconds a unit of each kernel, over all rounds. Fails where
/// the kernels do not leave the same image and come back with the same.
pub fn measure(kernels: &[Kernel], workload: &Workload) -> Result<Vec<f64>, String> {
    let mut least = vec![f64::MAX; kernels.len()];
    for round in 0..ROUNDS {
        let mut outcomes = Vec::new();
        for turn in 0..kernels.len() {
            let which = (round + turn) % kernels.len();
            let (nanoseconds, outcome) = timed(&kernels[which], workload);
            least[which] = least[which].min(nanoseconds);
            outcomes.push(outcome);
        }
        outcomes
            .windows(2)
            .try_for_each(|pair| same_outcome(&pair[0], &pair[1]))
            .map_err(|what| format!("{}: {what}", workload.name))?;
    }
    Ok(least)
}

/// The image and the text after the work, and the sum of what the calls gave
/// back.
struct Outcome {
    image: Vec<u16>,
    text: Vec<u8>,
    sum: u64,
}

/// Nanoseconds a unit, and what the work came to.
fn timed(kernel: &Kernel, workload: &Workload) -> (f64, Outcome) {
    let mut image = workload.image.clone();
    let mut text = vec![UNWRITTEN; workload.work.text_bytes()];
    let start = Instant::now();
    let sum = work(kernel, &workload.work, &mut image, &mut text);
    let nanoseconds = start.elapsed().as_nanos() as f64;
    (nanoseconds / workload.work.units() as f64, Outcome { image, text, sum })
}

fn work(kernel: &Kernel, work: &Work, image: &mut [u16], text: &mut [u8]) -> u64 {
    match work {
        Work::Run(list) => {
            let ran = (kernel.run)(image, list);
            assert_eq!((ran.taken, ran.number), (list.len() as u64 / 3, 0), "{} takes the list", kernel.name);
            ran.taken
        }
        Work::Checks(count) => (0..*count).map(|_| u64::from((kernel.check)(black_box(image)))).sum(),
        Work::Builds(count, plan) => (0..*count).map(|_| u64::from((kernel.build)(plan, black_box(image)))).sum(),
        Work::Translations(all) => {
            let parts = image.chunks_exact_mut(image.len() / all.len());
            all.iter().zip(parts).map(|(texts, part)| translated(kernel, texts, part)).sum()
        }
        Work::Print(program) => printed(kernel, &program.words, text),
        Work::Ticks(count) => (0..*count).map(|_| answer((kernel.event)(image, [0, 0, 0]))).sum(),
    }
}

/// Translates to a target. Gives how many words there are.
fn translated(kernel: &Kernel, texts: &Texts, target: &mut [u16]) -> u64 {
    let told = (on_texts(kernel).translate)(texts.names.as_bytes(), texts.script.as_bytes(), target);
    assert_eq!(told.number, 0, "{} takes the texts", kernel.name);
    told.words
}

/// Prints to a buffer. Gives how many bytes there are.
fn printed(kernel: &Kernel, words: &[u16], text: &mut [u8]) -> u64 {
    let told = (on_texts(kernel).print)(words, text);
    assert_eq!(told.number, 0, "{} prints the words", kernel.name);
    told.bytes
}

fn on_texts(kernel: &Kernel) -> OnTexts {
    kernel.texts.expect("a kernel with calls on texts")
}

fn answer(told: baseline::Told) -> u64 {
    assert_eq!(told.number, 0, "a tick is accepted");
    64 * u64::from(told.kind) + u64::from(told.task)
}

fn same_outcome(one: &Outcome, other: &Outcome) -> Result<(), String> {
    if one.sum != other.sum {
        return Err("the kernels answer differently".into());
    }
    same_units("word", &one.image, &other.image)?;
    same_units("byte", &one.text, &other.text)
}
