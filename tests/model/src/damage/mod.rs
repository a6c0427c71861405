//! Damaged images made from good ones, each breaking one rule by name, and
//! mixtures of them.

mod free;
mod header;
mod mixed;
mod queues;
mod ready;
mod segments;
mod tasks;

pub use header::sweep;
pub use mixed::{guess, noise, repeated, scattered, several};
pub use segments::{every_cut, fit_only_mod_65536, lengthened, total_over_the_largest};

use crate::check::check;
use crate::good;
use crate::image::{Kernel, Task};
use crate::rng::Rng;

type Make = dyn Fn(&mut Rng, &Kernel) -> Option<Vec<u16>>;

/// A row of a constant table of damages.
type Row = (&'static str, fn(&mut Rng, &Kernel) -> Option<Vec<u16>>);

/// One way to break one rule, and the number it must give.
pub struct Damage {
    pub name: String,
    pub expected: u16,
    make: Box<Make>,
}

impl Damage {
    fn new(
        name: impl Into<String>,
        expected: u16,
        make: impl Fn(&mut Rng, &Kernel) -> Option<Vec<u16>> + 'static,
    ) -> Damage {
        Damage { name: name.into(), expected, make: Box::new(make) }
    }

    /// The damages of a constant table, which all give one number.
    fn of_rows(expected: u16, rows: &'static [Row]) -> Vec<Damage> {
        rows.iter().map(|&(name, make)| Damage::new(name, expected, make)).collect()
    }

    /// The damaged words of a good kernel, or nothing where this kernel has
    /// nothing to be damaged in this way.
    pub fn apply(&self, rng: &mut Rng, kernel: &Kernel) -> Option<Vec<u16>> {
        let words = (self.make)(rng, kernel)?;
        assert_eq!(check(&words), self.expected, "damage \"{}\" of {words:?}", self.name);
        Some(words)
    }

    /// The first random good kernel to which it applies, and the damaged words.
    fn on_some_kernel(&self, rng: &mut Rng) -> (Kernel, Vec<u16>) {
        loop {
            let kernel = good::kernel(rng);
            if let Some(words) = self.apply(rng, &kernel) {
                return (kernel, words);
            }
        }
    }

    /// The damaged words of some good kernel.
    pub fn applied(&self, rng: &mut Rng) -> Vec<u16> {
        self.on_some_kernel(rng).1
    }
}

/// Every damage that breaks a single rule.
pub fn all() -> Vec<Damage> {
    let header = [header::damages(), segments::damages()];
    let rules = [queues::damages(), free::damages(), ready::damages(), tasks::damages()];
    header.into_iter().chain(rules).flatten().collect()
}

/// Every damage that breaks a single rule and gives this number.
pub fn of_number(number: u16) -> Vec<Damage> {
    all().into_iter().filter(|damage| damage.expected == number).collect()
}

/// One damage of the list that applies to this kernel, carried out.
pub fn any(rng: &mut Rng, kernel: &Kernel, damages: &[Damage]) -> Vec<u16> {
    loop {
        if let Some(words) = rng.pick(damages).apply(rng, kernel) {
            return words;
        }
    }
}

/// The image with a change to the kernel.
fn with_kernel(kernel: &Kernel, change: impl FnOnce(&mut Kernel)) -> Option<Vec<u16>> {
    let mut changed = kernel.clone();
    change(&mut changed);
    Some(changed.encode())
}

/// The image with a change to a random task among those that fit.
fn with_task(
    rng: &mut Rng,
    kernel: &Kernel,
    fits: impl Fn(&Task) -> bool,
    change: impl FnOnce(&mut Task),
) -> Option<Vec<u16>> {
    let task = choose(rng, kernel, fits)?;
    with_kernel(kernel, |kernel| change(&mut kernel.tasks[task]))
}

/// The image with a change to its words.
fn with_words(kernel: &Kernel, change: impl FnOnce(&mut Vec<u16>)) -> Option<Vec<u16>> {
    let mut words = kernel.encode();
    change(&mut words);
    Some(words)
}

/// The number of a random task among those that fit.
fn choose(rng: &mut Rng, kernel: &Kernel, fits: impl Fn(&Task) -> bool) -> Option<usize> {
    let fitting: Vec<usize> = (0..kernel.tasks.len()).filter(|&task| fits(&kernel.tasks[task])).collect();
    (!fitting.is_empty()).then(|| *rng.pick(&fitting))
}

#[cfg(test)]
mod tests {
    use super::*;

    #[test]
    fn every_damage_applies_to_some_image_and_gives_its_number() {
        let mut rng = Rng::new(2);
        let kernels: Vec<Kernel> = (0..300).map(|_| good::kernel(&mut rng)).collect();
        for damage in all() {
            let applied = kernels.iter().filter(|k| damage.apply(&mut rng, k).is_some());
            assert!(applied.count() > 0, "damage \"{}\" never applies", damage.name);
        }
    }
}
