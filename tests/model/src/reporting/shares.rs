//! The cases of shares: which counts and tasks the file of shares holds.

use super::random::any;
use crate::layout::{word, LARGEST_TASKS};
use crate::reports::{share, COUNTS, HEADINGS, IDLE, MOST};
use crate::rng::Rng;

/// Counts of any length, and tasks with their shares.
pub struct Group {
    pub counts: Vec<u32>,
    pub cases: Vec<Case>,
}

/// A task, and its share where there is one.
#[derive(Clone, Copy, Debug, PartialEq)]
pub struct Case {
    pub task: u16,
    pub share: Option<f64>,
}

/// How many tasks that there may be are asked for.
const TASKS: usize = 3;
/// Lengths of lists of counts, none of them 97.
const LENGTHS: [usize; 7] = [0, 1, 6, 91, 96, 98, 194];
/// The powers of two that a sum of counts is made to be, by their exponents, and
/// a limit of all counts in it but the idle ticks together.
const POWERS: [u32; 3] = [32, 31, 30];
const SMALL: u32 = 1 << 24;

impl Group {
    /// The shares of these tasks, as the model gives them.
    pub fn judged(counts: Vec<u32>, tasks: Vec<u16>) -> Group {
        let cases = tasks.into_iter().map(|task| Case { task, share: share(&counts, task) }).collect();
        Group { counts, cases }
    }
}

/// All cases of a seed: those chosen by hand, and `count` random ones.
pub fn collect(seed: u64, count: usize) -> Vec<Group> {
    let mut rng = Rng::new(seed);
    let mut groups = special();
    for length in LENGTHS {
        let counts = (0..length).map(|_| any(&mut rng)).collect();
        groups.push(Group::judged(counts, tasks(&mut rng)));
    }
    groups.extend((0..count).map(|_| group(&mut rng)));
    groups
}

/// Counts that are not 0 by their places, a task, and its share by hand.
type Row<'a> = (&'a [(usize, u32)], u16, Option<f64>);

/// Counts chosen by hand, with the share of a task.
fn special() -> Vec<Group> {
    let rows: [Row; 12] = [
        (&[], 0, None),
        (&[], 15, None),
        (&[], 16, None),
        (&[(0, 2), (1, 2), (2, 1), (3, 1), (5, 1), (96, 1)], 0, Some(0.875)),
        (&[(96, 1)], 0, Some(0.0)),
        (&[(96, MOST)], 16, Some(0.0)),
        (&[(95, 1)], 15, Some(1.0)),
        (&[(95, 1)], 65535, Some(0.0)),
        (&[(6, 1), (12, 3)], 1, Some(0.25)),
        (&[(6, MOST), (11, 1)], 1, Some(1.0)),
        (&[(0, MOST), (96, 1)], 0, Some(4294967295.0 / 4294967296.0)),
        (&[(0, 1), (96, 2)], 0, Some(f64::from_bits(0x3FD5_5555_5555_5555))),
    ];
    let group = |(of, task, by_hand): Row| {
        let mut counts = vec![0; COUNTS];
        of.iter().for_each(|&(place, count)| counts[place] = count);
        let group = Group::judged(counts, vec![task]);
        assert_eq!(group.cases[0].share.map(f64::to_bits), by_hand.map(f64::to_bits), "the share of {of:?}");
        group
    };
    rows.map(group).into()
}

/// Random counts with tasks that there may be and with others.
pub fn group(rng: &mut Rng) -> Group {
    let counts = counts(rng);
    let tasks = tasks(rng);
    Group::judged(counts, tasks)
}

/// Some tasks, and one that no image has.
fn tasks(rng: &mut Rng) -> Vec<u16> {
    let mut tasks: Vec<u16> = (0..TASKS).map(|_| word(rng.below(LARGEST_TASKS))).collect();
    tasks.push(*rng.pick(&[16, 17, 256, 32768, 65535]));
    tasks
}

/// Counts: none, in one place, of one task and idle, any, the largest, or those
/// whose sum is a power of two.
fn counts(rng: &mut Rng) -> Vec<u32> {
    let mut counts = vec![0; COUNTS];
    match rng.below(12) {
        0 => {}
        1 => counts[rng.below(COUNTS)] = any(rng),
        2 => {
            let first = HEADINGS * rng.below(LARGEST_TASKS);
            counts[first..first + HEADINGS].fill_with(|| any(rng));
            counts[IDLE] = any(rng);
        }
        3 => counts.fill_with(|| MOST - rng.below(3) as u32),
        4..=6 => return power_of_two(rng),
        _ => counts.fill_with(|| any(rng)),
    }
    counts
}

/// Counts whose sum is a power of two: the idle ticks are the rest.
fn power_of_two(rng: &mut Rng) -> Vec<u32> {
    let mut counts: Vec<u32> = (0..COUNTS).map(|_| any(rng) % (SMALL / COUNTS as u32)).collect();
    counts[0] = counts[0].max(1);
    let others = u64::from(counts[..IDLE].iter().sum::<u32>());
    let rest = (1u64 << rng.pick(&POWERS)) - others;
    counts[IDLE] = u32::try_from(rest).expect("the others are not 0");
    counts
}

#[cfg(test)]
mod tests {
    use super::*;

    /// The seed and count of the stored set, and the least that it has of each
    /// thing.
    const STORED: (u64, usize) = (1984, 150);
    const OFTEN: usize = 40;

    fn sums(counts: &[u32], task: u16) -> [u64; 2] {
        let sum = |counts: &[u32]| counts.iter().map(|&count| u64::from(count)).sum();
        let first = HEADINGS * usize::from(task);
        [sum(&counts[first..first + HEADINGS]), sum(counts)]
    }

    /// The shares of tasks that there may be, each with its two sums.
    fn stored() -> Vec<([u64; 2], f64)> {
        let groups = collect(STORED.0, STORED.1);
        let of_group = |group: &Group| {
            let there = group.cases.iter().filter(|case| usize::from(case.task) < LARGEST_TASKS);
            let told = there.filter_map(|case| case.share.map(|share| (sums(&group.counts, case.task), share)));
            told.collect::<Vec<_>>()
        };
        groups.iter().flat_map(of_group).collect()
    }

    #[test]
    fn other_ways_to_divide_are_often_seen_in_the_stored_set() {
        let differ = |way: fn(f64, f64) -> f64| {
            let stored = stored();
            let ways = stored.iter().map(|([own, all], share)| (way(*own as f64, *all as f64), share));
            ways.filter(|(other, share)| other.to_bits() != share.to_bits()).count()
        };
        assert!(differ(|own, all| own * (1.0 / all)) >= OFTEN);
        assert!(differ(|own, all| f64::from((own / all) as f32)) >= OFTEN);
        assert!(differ(|own, all| f64::from(own as f32 / all as f32)) >= OFTEN);
        assert!(differ(|own, all| own / 100.0 / (all / 100.0)) >= OFTEN);
    }

    #[test]
    fn totals_that_are_a_power_of_two_are_often_in_the_stored_set_and_exact() {
        let mut powers = 0;
        for ([own, all], share) in stored() {
            if all.is_power_of_two() && own > 0 {
                powers += 1;
                assert_eq!((share * all as f64) as u64, own);
            }
        }
        assert!(powers >= OFTEN, "{powers}");
    }

    #[test]
    fn shares_and_none_are_often_in_the_stored_set() {
        let groups = collect(STORED.0, STORED.1);
        let shares: Vec<Option<f64>> = groups.iter().flat_map(|group| &group.cases).map(|case| case.share).collect();
        let none = shares.iter().filter(|share| share.is_none()).count();
        assert!(none >= OFTEN && shares.len() - none >= OFTEN, "{none} of {}", shares.len());
        assert!(shares.iter().flatten().all(|share| (0.0..=1.0).contains(share)));
    }

    #[test]
    fn the_same_seed_gives_the_same_cases() {
        let rows = |seed| collect(seed, 9).into_iter().map(|g| (g.counts, g.cases)).collect::<Vec<_>>();
        assert!(rows(7) == rows(7));
        assert!(rows(7) != rows(8));
    }
}
