//! What counting costs: the product's run and its run that counts, on the same
//! lists.

use crate::kernels::{report, PRODUCT};
use crate::measure::ROUNDS;
use crate::vectors::same_units;
use crate::workloads::{Work, Workload};
use baseline::Ran;
use kernel::COUNTS;
use std::time::Instant;

/// The first word of a tick.
const TICK: u16 = 0;

/// The least nanoseconds an event of a run, and of the same run that counts.
pub struct Pair {
    pub name: String,
    pub run: f64,
    pub report: f64,
}

impl Pair {
    /// How many times a run's time it takes when it counts.
    pub fn ratio(&self) -> f64 {
        self.report / self.run
    }

    pub fn line(&self) -> String {
        format!("{:<44}{:>13.2}{:>13.2}{:>9.2}", self.name, self.run, self.report, self.ratio())
    }
}

/// The heading of the table.
pub fn heading() -> String {
    format!("{:<44}{:>13}{:>13}{:>9}", "workload", "run ns", "report ns", "ratio")
}

/// Measures a workload that is a run, in turns. Fails where the two do not come
/// to the same, or the counts are not those of the list's ticks.
pub fn measure(workload: &Workload) -> Option<Result<Pair, String>> {
    let Work::Run(list) = &workload.work else { return None };
    let mut least = [f64::MAX; 2];
    for round in 0..ROUNDS {
        if let Err(what) = one_round(&workload.image, list, round, &mut least) {
            return Some(Err(format!("{}: {what}", workload.name)));
        }
    }
    let [run, report] = least.map(|nanoseconds| nanoseconds / workload.work.units() as f64);
    Some(Ok(Pair { name: workload.name.clone(), run, report }))
}

/// Times both once; which comes first goes round.
fn one_round(image: &[u16], list: &[u16], round: usize, least: &mut [f64; 2]) -> Result<(), String> {
    let mut images = [image.to_vec(), image.to_vec()];
    let mut counts = [0; COUNTS];
    let mut ran = [Ran { taken: 0, number: 0 }; 2];
    for turn in 0..2 {
        let which = (round + turn) % 2;
        let start = Instant::now();
        ran[which] = match which {
            0 => (PRODUCT.run)(&mut images[0], list),
            _ => report(&mut images[1], list, &mut counts),
        };
        least[which] = least[which].min(start.elapsed().as_nanos() as f64);
    }
    if ran[0] != ran[1] {
        return Err(format!("a run gives {:?}, one that counts {:?}", ran[0], ran[1]));
    }
    let ticks = list.chunks_exact(3).filter(|event| event[0] == TICK).count() as u64;
    let sum: u64 = counts.iter().map(|count| u64::from(*count)).sum();
    if sum != ticks {
        return Err(format!("{ticks} ticks, {sum} counted"));
    }
    same_units("word", &images[0], &images[1])
}
