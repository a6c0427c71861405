//! Plans chosen by hand, each with a target and the number that it must give.

use super::draft::{any_words, Draft};
use crate::layout::{Frame, Layout, LARGEST_TASKS};
use crate::numbers::{GOOD, OUT_OF_RANGE, PLAN, TARGET};
use crate::plan;
use crate::rng::Rng;

/// A plan, the count of its target's words, and the number by hand.
pub type Special = (Vec<u16>, usize, u16);

/// A frame, its pairs (L, P), and T as a plain number by hand.
type Totalled<'a> = (Frame, &'a [(u16, u16)], usize);

const PAPERS: [u16; 9] = [1, 2, 1, 1, 1, 4, 2, 4656, 4672];
const PAPERS_TOTAL: usize = 57;
const TWO_TASKS: [u16; 13] = [2, 9, 1, 2, 3, 2, 1, 3, 3, 10, 20, 21, 22];
const TWO_TASKS_TOTAL: usize = 109;
const SMALLEST: [u16; 7] = [1, 1, 1, 1, 1, 1, 0];
const SMALLEST_TOTAL: usize = 54;

/// Its first segment is at 53.
const ONE: Frame = Frame { tasks: 1, slice: 1, input: 1, output: 1, message: 1 };
/// Its first segment is at 94.
const PAIR: Frame = Frame { tasks: 2, slice: 7, input: 1, output: 1, message: 1 };
/// Its first segment is at 10646.
const WIDEST: Frame = Frame { tasks: LARGEST_TASKS, slice: 65535, input: 32, output: 32, message: 32 };

/// Every plan chosen by hand.
pub fn all(rng: &mut Rng) -> Vec<Special> {
    [targets(), cuts(), ranges(), programs(rng), largest(rng), over(rng), long(rng), orders()].concat()
}

/// Good plans with targets of every kind of count; one target is over 65535.
fn targets() -> Vec<Special> {
    let judged =
        |plan: &[u16], total: usize, words: usize| (plan.to_vec(), words, if words == total { GOOD } else { TARGET });
    let counts = [0, 1, 17, 18, 52, 53, 54, 55, 56, 57, 58, 108, 109, 110, 114, 32768];
    let mut list = vec![(PAPERS.to_vec(), PAPERS_TOTAL + 65536, TARGET)];
    for words in counts {
        list.push(judged(&PAPERS, PAPERS_TOTAL, words));
        list.push(judged(&SMALLEST, SMALLEST_TOTAL, words));
        list.push(judged(&TWO_TASKS, TWO_TASKS_TOTAL, words));
    }
    list
}

/// Good plans cut to each count of words below their own.
fn cuts() -> Vec<Special> {
    let cut = |plan: &'static [u16], total| (0..plan.len()).map(move |count| (plan[..count].to_vec(), total, PLAN));
    cut(&PAPERS, PAPERS_TOTAL).chain(cut(&TWO_TASKS, TWO_TASKS_TOTAL)).collect()
}

/// Each number of the frame at the ends of its range, just outside them and
/// far outside, once with pairs for each task and once without any.
fn ranges() -> Vec<Special> {
    let tasks = [0, 1, 2, 15, 16, 17, 257, 65535].map(|n| (0, n, (1..=16).contains(&n)));
    let slices = [0, 1, 2, 256, 32768, 65534, 65535].map(|s| (1, s, s > 0));
    let mut values = [tasks.to_vec(), slices.to_vec()].concat();
    for place in 2..5 {
        let capacities = [0, 1, 2, 31, 32, 33, 257, 65535];
        values.extend(capacities.map(|c| (place, c, (1..=32).contains(&c))));
    }
    let mut list = Vec::new();
    for (place, value, in_range) in values {
        let mut frame = [1; 5];
        frame[place] = value;
        let pairs = [1, 0].repeat(usize::from(frame[0]).min(17));
        let plan = [frame.to_vec(), pairs].concat();
        let total = plan::size(&plan).unwrap_or(SMALLEST_TOTAL);
        list.push((plan, total, if in_range { GOOD } else { OUT_OF_RANGE }));
        list.push((frame.to_vec(), total, if in_range { PLAN } else { OUT_OF_RANGE }));
    }
    list
}

/// P from 0 to one more than L, with all its words and with one too few or
/// too many; and L = 0.
fn programs(rng: &mut Rng) -> Vec<Special> {
    let mut list = Vec::new();
    for (length, program) in [(1, 0), (1, 1), (1, 2), (9, 0), (9, 8), (9, 9), (9, 10), (0, 0)] {
        let fits = length > 0 && program <= length;
        let total = 53 + usize::from(length);
        let words = Draft::new(rng, ONE, &[(length, program)]).words();
        let longer = [words.clone(), vec![0]].concat();
        let shorter = words[..words.len() - 1].to_vec();
        list.push((words, total, if fits { GOOD } else { PLAN }));
        list.push((longer, total, PLAN));
        list.push((shorter, total, PLAN));
        let second = Draft::new(rng, PAIR, &[(3, 2), (length, program)]).words();
        list.push((second, 97 + usize::from(length), if fits { GOOD } else { PLAN }));
    }
    list
}

/// T exactly 32768, with and without a program and in 16 segments, and the
/// largest offset of the first segment.
fn largest(rng: &mut Rng) -> Vec<Special> {
    let mut sixteen = [(1382, 3); LARGEST_TASKS];
    sixteen[LARGEST_TASKS - 1] = (1392, 0);
    let spread = Draft::new(rng, WIDEST, &sixteen).words();
    let empty = Draft::new(rng, ONE, &[(32715, 0)]).words();
    vec![
        (Draft::new(rng, WIDEST, &[(1, 1); LARGEST_TASKS]).words(), 10662, GOOD),
        (Draft::new(rng, WIDEST, &[(1, 0); LARGEST_TASKS]).words(), 10646, TARGET),
        (Draft::new(rng, ONE, &[(32715, 32715)]).words(), 32768, GOOD),
        (empty.clone(), 32768, GOOD),
        (empty.clone(), 32767, TARGET),
        (empty, 32769, TARGET),
        (spread.clone(), 32768, GOOD),
        (spread, 0, TARGET),
    ]
}

/// T from 32769 up, as a plain number, with targets of T mod 65536 words, of
/// the largest T and of none; and programs with all their words mod 65536.
fn over(rng: &mut Rng) -> Vec<Special> {
    let mut sixteen = [(1382, 3); LARGEST_TASKS];
    sixteen[LARGEST_TASKS - 1] = (1393, 0);
    let plans: [Totalled; 13] = [
        (ONE, &[(32716, 0)], 32769),
        (ONE, &[(32716, 5)], 32769),
        (PAIR, &[(32674, 0), (1, 1)], 32769),
        (WIDEST, &sixteen, 32769),
        (ONE, &[(65482, 0)], 65535),
        (ONE, &[(65483, 0)], 65536),
        (ONE, &[(65484, 1)], 65537),
        (ONE, &[(65535, 0)], 65588),
        (PAIR, &[(65535, 0), (1, 0)], 65630),
        (PAIR, &[(1, 1), (65535, 2)], 65630),
        (WIDEST, &[(4096, 0); LARGEST_TASKS], 76182),
        (PAIR, &[(65535, 0), (65535, 0)], 131164),
        (WIDEST, &[(65535, 0); LARGEST_TASKS], 1059206),
    ];
    let mut list = Vec::new();
    for (frame, pairs, total) in plans {
        let lengths: usize = pairs.iter().map(|&(length, _)| usize::from(length)).sum();
        assert_eq!(Layout::new(frame).first_segment + lengths, total);
        let plan = Draft::new(rng, frame, pairs).words();
        list.extend([total % 65536, 32768, 0].map(|words| (plan.clone(), words, PLAN)));
    }
    list.push(([&PAIR.words()[..], &[65535, 65535, 3, 3, 8, 9]].concat(), 96, PLAN));
    list
}

/// A plan whose count of words is right only mod 65536.
fn long(rng: &mut Rng) -> Vec<Special> {
    vec![([PAPERS.to_vec(), any_words(rng, 65536)].concat(), PAPERS_TOTAL, PLAN)]
}

/// Two faults at once: the one that is tested first gives the number.
fn orders() -> Vec<Special> {
    let rows: [(&[u16], usize, u16); 30] = [
        (&[], 0, PLAN),
        (&[], 54, PLAN),
        (&[0], 0, PLAN),
        (&[17], 54, PLAN),
        (&[1, 0], 54, PLAN),
        (&[1, 1, 33], 54, PLAN),
        (&[0, 0, 0, 0], 54, PLAN),
        (&[65535, 0, 33, 0], 0, PLAN),
        (&[0, 0, 0, 0, 0], 54, OUT_OF_RANGE),
        (&[65535, 65535, 65535, 65535, 65535], 0, OUT_OF_RANGE),
        (&[17, 1, 1, 1, 1], 0, OUT_OF_RANGE),
        (&[17, 1, 1, 1, 1, 1, 0], 53, OUT_OF_RANGE),
        (&[1, 0, 1, 1, 1, 1], 54, OUT_OF_RANGE),
        (&[1, 1, 33, 1, 1, 1, 1], 54, OUT_OF_RANGE),
        (&[1, 1, 1, 0, 1, 0, 0], 53, OUT_OF_RANGE),
        (&[1, 1, 1, 1, 33, 1, 2, 7, 7], 54, OUT_OF_RANGE),
        (&[1, 0, 1, 1, 1, 1, 0, 9], 54, OUT_OF_RANGE),
        (&[1, 0, 1, 1, 1, 65535, 0], 52, OUT_OF_RANGE),
        (&[1, 0, 1, 1, 1, 1, 0], 0, OUT_OF_RANGE),
        (&[1, 1, 1, 1, 0, 1, 0], 53, OUT_OF_RANGE),
        (&[1, 1, 1, 1, 1], 0, PLAN),
        (&[1, 1, 1, 1, 1, 1], 53, PLAN),
        (&[1, 1, 1, 1, 1, 1, 1], 53, PLAN),
        (&[1, 1, 1, 1, 1, 1, 2, 7, 7], 53, PLAN),
        (&[1, 1, 1, 1, 1, 1, 2, 7, 7], 0, PLAN),
        (&[1, 1, 1, 1, 1, 0, 0], 54, PLAN),
        (&[1, 1, 1, 1, 1, 1, 0, 9], 55, PLAN),
        (&[1, 1, 1, 1, 1, 65535, 0], 0, PLAN),
        (&[2, 1, 1, 1, 1, 1, 0, 0, 0], 0, PLAN),
        (&[1, 1, 1, 1, 1, 1, 0], 0, TARGET),
    ];
    rows.map(|(plan, words, number)| (plan.to_vec(), words, number)).to_vec()
}
