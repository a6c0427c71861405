//! Damages to free slots: old words, which none of them may hold.

use super::queues::{of_sort, SORTS};
use super::{with_words, Damage};
use crate::image::Kernel;
use crate::layout::word;
use crate::numbers::OTHER_RULE;
use crate::queue::Queue;
use crate::rng::Rng;
use crate::which::Which;

/// Leaves old words in free slots, or gives nothing where a queue has none for
/// them.
type Leave = fn(&mut Rng, &mut Queue) -> Option<()>;

/// Old words that a test of other slots, of their count or of their sum would
/// not find.
const WAYS: [(&str, Leave); 10] = [
    ("in the first free slot", |rng, queue| leave(queue, 0, old(rng))),
    ("in the last free slot", |rng, queue| leave(queue, last(queue)?, old(rng))),
    ("in a free slot between others", |rng, queue| {
        let last = last(queue).filter(|&last| last >= 2)?;
        leave(queue, rng.between(1, last - 1), old(rng))
    }),
    ("in a free slot past the ring's end", |rng, queue| {
        let before = queue.capacity() - (queue.head + queue.held.len()) % queue.capacity();
        let last = last(queue).filter(|&last| before <= last)?;
        leave(queue, rng.between(before, last), old(rng))
    }),
    ("in every free slot", |rng, queue| {
        last(queue)?;
        queue.free.iter_mut().for_each(|slot| *slot = old(rng));
        Some(())
    }),
    ("as many as it holds zeros", |rng, queue| {
        let zeros = queue.held.iter().filter(|&&held| held == 0).count();
        (1..=zeros).try_for_each(|slot| leave(queue, slot - 1, old(rng))).filter(|()| zeros > 0)
    }),
    ("where it holds zeros alone", |rng, queue| {
        let zeros = !queue.is_empty() && queue.held.iter().all(|&held| held == 0);
        zeros.then(|| leave(queue, last(queue)?, old(rng)))?
    }),
    ("a word that it holds", |rng, queue| {
        let held = *queue.held.iter().find(|&&held| held != 0)?;
        leave(queue, any_slot(rng, queue)?, held)
    }),
    ("its capacity", |rng, queue| {
        let capacity = word(queue.capacity());
        leave(queue, any_slot(rng, queue)?, capacity)
    }),
    ("a sum of 65536", |rng, queue| {
        let last = last(queue).filter(|&last| last > 0)?;
        let part = *rng.pick(&[1, 32768, 65535]);
        leave(queue, 0, part)?;
        leave(queue, last, part.wrapping_neg())
    }),
];

pub fn damages() -> Vec<Damage> {
    let mut list = vec![Damage::new("old words in two queues, a sum of 65536", OTHER_RULE, in_two_queues)];
    for (queue, sort) in SORTS {
        for (name, way) in WAYS {
            list.push(Damage::new(format!("{queue}, old words, {name}"), OTHER_RULE, move |rng, kernel| {
                of_sort(rng, kernel, sort).into_iter().find_map(|which| {
                    let mut queue = which.of(kernel).clone();
                    way(rng, &mut queue)?;
                    with_queues(kernel, &[(which, queue)])
                })
            }));
        }
    }
    list
}

/// The image with 1 in a free slot of one queue, and 65535 in one of another.
fn in_two_queues(rng: &mut Rng, kernel: &Kernel) -> Option<Vec<u16>> {
    let mut all = Which::all(kernel.tasks.len());
    rng.shuffle(&mut all);
    let with_room = all.into_iter().filter(|which| !which.of(kernel).is_full());
    let changed = with_room.zip([1, 65535]).map(|(which, word)| {
        let mut queue = which.of(kernel).clone();
        let slot = any_slot(rng, &queue)?;
        leave(&mut queue, slot, word)?;
        Some((which, queue))
    });
    let changed = changed.collect::<Option<Vec<_>>>()?;
    (changed.len() == 2).then(|| with_queues(kernel, &changed))?
}

/// The image with other queues in their places.
fn with_queues(kernel: &Kernel, changed: &[(Which, Queue)]) -> Option<Vec<u16>> {
    with_words(kernel, |image| {
        for (which, queue) in changed {
            let (place, words) = (which.place(&kernel.layout()), queue.encode());
            image[place..place + words.len()].copy_from_slice(&words);
        }
    })
}

/// Leaves an old word in a free slot, counted from the first one on.
fn leave(queue: &mut Queue, slot: usize, old: u16) -> Option<()> {
    *queue.free.get_mut(slot)? = old;
    Some(())
}

/// The last free slot.
fn last(queue: &Queue) -> Option<usize> {
    queue.free.len().checked_sub(1)
}

fn any_slot(rng: &mut Rng, queue: &Queue) -> Option<usize> {
    Some(rng.between(0, last(queue)?))
}

/// Any word but 0.
fn old(rng: &mut Rng) -> u16 {
    rng.word().max(1)
}

#[cfg(test)]
mod tests {
    use super::*;
    use crate::breaches::broken_rule;
    use crate::cases;
    use crate::check::lay_out;
    use crate::layout::QUEUE_LEAD;

    /// The rule that old words break, by its number.
    const FREE_SLOTS: u16 = 21;
    /// The seed and count of the stored set of the check.
    const STORED: (u64, usize) = (1984, 130);

    #[test]
    fn old_words_break_no_other_rule() {
        let mut rng = Rng::new(6);
        for damage in damages() {
            let [_, rule, ..] = broken_rule(&damage.applied(&mut rng));
            assert_eq!(rule, FREE_SLOTS, "{}", damage.name);
        }
    }

    /// Whether a queue is clear, by a test that is wrong.
    type Test = fn(&Queue) -> bool;

    /// Tests that look at some slots alone, at others, at a count, a sum, or at
    /// a part of a word.
    const WRONG: [Test; 13] = [
        |queue| queue.free.front().is_none_or(|&word| word == 0),
        |queue| queue.free.back().is_none_or(|&word| word == 0),
        |queue| !queue.is_empty() || queue.is_clear(),
        |queue| queue.is_empty() || queue.is_clear(),
        |queue| slots(queue).iter().skip(tail(queue)).take(queue.free.len()).all(|&word| word == 0),
        |queue| slots(queue).iter().skip(queue.held.len()).all(|&word| word == 0),
        |queue| queue.held.iter().chain(&queue.free).take(queue.free.len()).all(|&word| word == 0),
        |queue| slots(queue).iter().filter(|&&word| word != 0).count() <= queue.held.len(),
        |queue| queue.free.iter().fold(0_u16, |sum, &word| sum.wrapping_add(word)) == 0,
        |queue| queue.free.iter().fold(0, |bits, word| bits ^ word) == 0,
        |queue| queue.free.iter().all(|word| word % 256 == 0),
        |queue| queue.free.iter().all(|word| word / 256 == 0),
        |queue| queue.free.iter().all(|word| *word == 0 || queue.held.contains(word)),
    ];

    fn slots(queue: &Queue) -> Vec<u16> {
        queue.encode().split_off(QUEUE_LEAD)
    }

    fn tail(queue: &Queue) -> usize {
        usize::from(queue.encode()[1])
    }

    /// The kernels of the stored set that are good but for old words.
    fn with_old_words() -> Vec<Kernel> {
        let cases = cases::collect(STORED.0, STORED.1);
        let words = cases.into_iter().map(|case| case.words).filter(|words| broken_rule(words)[1] == FREE_SLOTS);
        words.map(|words| Kernel::decode(&words, &lay_out(&words).expect("a layout")).expect("sound queues")).collect()
    }

    /// Whether a test of each queue passes one of the kernels.
    fn passes_one(kernels: &[Kernel], test: impl Fn(Which, &Queue) -> bool) -> bool {
        let passes =
            |kernel: &Kernel| Which::all(kernel.tasks.len()).iter().all(|which| test(*which, which.of(kernel)));
        kernels.iter().any(passes)
    }

    #[test]
    fn a_wrong_test_of_free_slots_passes_an_image_of_the_stored_set() {
        let kernels = with_old_words();
        for (number, wrong) in WRONG.into_iter().enumerate() {
            assert!(passes_one(&kernels, |_, queue| wrong(queue)), "test {number} of queues");
        }
        for (name, sort) in SORTS {
            let but_of_sort = |which: Which, queue: &Queue| which.words()[0] == sort || queue.is_clear();
            assert!(passes_one(&kernels, but_of_sort), "all but {name}");
        }
    }

    #[test]
    fn a_sum_over_all_queues_passes_an_image_of_the_stored_set() {
        let free_words = |kernel: &Kernel| {
            let queues = Which::all(kernel.tasks.len());
            queues.iter().flat_map(|which| which.of(kernel).free.clone()).collect::<Vec<u16>>()
        };
        let sum = |kernel: &Kernel| free_words(kernel).into_iter().fold(0, u16::wrapping_add);
        assert!(with_old_words().iter().any(|kernel| sum(kernel) == 0));
    }
}
