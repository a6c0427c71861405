//! Random calls of the library, each compared with the model: the answer, every word of every buffer, every count, and
//! a share bit for bit.

mod call;
mod expected;
mod lent;
mod library;
mod looks;
mod package;
mod package_looks;
mod reports;
mod source;
mod tally;

use call::{Answer, Call};
use expected::Outcome;
use lent::{Difference, Rooms};
use model::rng::Rng;
use source::Source;
use std::fmt::Display;
use std::process::ExitCode;
use tally::Tally;

const USAGE: &str = "usage: differential SEED COUNT";

/// How a call is made, by name.
type Way = (&'static str, fn(&Call, &mut Rooms) -> Option<Answer>);

/// Each case is a call of the C library itself, and then of the Rust package where that can be asked.
const WAYS: [Way; 2] =
    [("C library", |call, lent| Some(library::answer(call, lent))), ("Rust package", package::answer)];

fn main() -> ExitCode {
    match arguments().ok_or(USAGE.into()).and_then(|(seed, count)| compare(seed, count)) {
        Ok(()) => ExitCode::SUCCESS,
        Err(message) => {
            eprintln!("differential: {message}");
            ExitCode::FAILURE
        }
    }
}

/// The seed and the count of cases.
fn arguments() -> Option<(u64, usize)> {
    let words: Vec<String> = std::env::args().skip(1).collect();
    match &words[..] {
        [seed, count] => Some((seed.parse().ok()?, count.parse().ok()?)),
        _ => None,
    }
}

/// Compares so many cases of a seed, up to the first difference.
fn compare(seed: u64, count: usize) -> Result<(), String> {
    println!("seed {seed}, {count} cases");
    let mut guards = Rng::new(!seed);
    let mut tally = Tally::default();
    for (case, call) in (1..=count).zip(Source::new(seed)) {
        let outcome = expected::outcome(&call);
        for way in WAYS {
            let told = differences(&mut guards, &call, &outcome, way);
            require(told.is_empty(), || format!("seed {seed}, case {case}: {}\n{}", call.title(), told.join("\n")))?;
        }
        tally.count(&call, &outcome);
    }
    tally.print();
    tally.missing().map_or(Ok(()), Err)?;
    println!("differential: ok, {count} cases, 0 differ");
    Ok(())
}

/// Makes a call in one way, and says what differs from the model's outcome: the answer, the first word of each buffer and
/// byte of each text, the first count, and the share.
fn differences(rng: &mut Rng, call: &Call, outcome: &Outcome, (way, make): Way) -> Vec<String> {
    let mut lent = Rooms::new(rng, call);
    let mut told = Vec::new();
    let Some(answer) = make(call, &mut lent) else { return told };
    if answer != outcome.answer {
        told.push(format!("{way}: the answer is {answer:?}, the model's {:?}", outcome.answer));
    }
    for (((name, _), room), expected) in call.buffers().iter().zip(&lent.words).zip(&outcome.buffers) {
        told.extend(room.difference(expected).map(|word| told_of(way, "word", name, word)));
    }
    for ((name, before), room) in call.texts().iter().zip(&lent.texts) {
        let expected = outcome.printed.as_deref().unwrap_or(before);
        told.extend(room.difference(expected).map(|byte| told_of(way, "byte", name, byte)));
    }
    for ((name, before), room) in call.counts().iter().zip(&lent.counts) {
        let expected = outcome.counts.as_deref().unwrap_or(before);
        told.extend(room.difference(expected).map(|count| told_of(way, "count", name, count)));
    }
    for ((name, before), room) in call.shares().iter().zip(&lent.shares) {
        let expected = outcome.share.as_ref().map_or(*before, std::slice::from_ref);
        told.extend(room.difference(expected).map(|share| told_of(way, "place", name, share)));
    }
    told
}

/// What is said of a word or byte that differs.
fn told_of<T: Display>(way: &str, what: &str, name: &str, unit: Difference<T>) -> String {
    let Difference { place, found, expected } = unit;
    format!("{way}: {what} {place} of the {name} is {found}, the model's {expected}")
}

/// Fails with a message where a condition does not hold.
fn require(holds: bool, message: impl FnOnce() -> String) -> Result<(), String> {
    if holds {
        Ok(())
    } else {
        Err(message())
    }
}
