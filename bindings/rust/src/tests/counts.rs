//! Runs that count, and shares, on the paper's example and on counts near their end. The counts of the example are those
//! of the lines in examples/expected, each under its heading.

use super::{fresh, CROWD, CROWD_WORDS};
use crate::{c, event, report, run, share, size};
use crate::{Counts, Heading, Refusal, Stopped, AT_IDLE_COUNT, COUNTS, HEADINGS, INPUT, OUTPUT_DONE, TICK};

/// The example's events, of which the last is refused with 9.
const EVENTS: [[u16; 3]; 11] = [
    [TICK, 0, 0],
    [TICK, 0, 0],
    [TICK, 0, 0],
    [INPUT, 0, 65],
    [TICK, 0, 0],
    [TICK, 0, 0],
    [TICK, 0, 0],
    [TICK, 0, 0],
    [TICK, 0, 0],
    [OUTPUT_DONE, 0, 0],
    [OUTPUT_DONE, 0, 0],
];

/// What they count of task 0, by the headings' numbers, and how often the machine is idle.
const ROW: [u32; HEADINGS] = [2, 2, 1, 1, 0, 1];
const IDLE: u32 = 1;

/// What they add to each count.
fn grown() -> [u32; COUNTS] {
    let mut numbers = [0; COUNTS];
    numbers[..HEADINGS].copy_from_slice(&ROW);
    numbers[AT_IDLE_COUNT] = IDLE;
    numbers
}

/// Counts of which each is another number.
fn counts_apart() -> [u32; COUNTS] {
    std::array::from_fn(|k| 1000 + k as u32)
}

#[test]
fn the_example_is_counted_under_its_headings() {
    let (mut by_report, mut by_run, mut counts) = (fresh(), fresh(), Counts::new());
    let stopped = Err(Stopped { taken: 10, refusal: Refusal::PortIdle });
    assert_eq!(report(&mut by_report, &EVENTS.concat(), &mut counts), stopped);
    assert_eq!(run(&mut by_run, &EVENTS.concat()), stopped);
    assert_eq!(by_report, by_run);
    assert_eq!(*counts.numbers(), grown());
    let named = Heading::ALL.iter().map(|heading| counts.of(0, *heading)).collect::<Option<Vec<_>>>();
    assert_eq!(named, Some(ROW.to_vec()));
    assert_eq!(counts.idle(), IDLE);
    assert_eq!(share(&counts, 0), Some(0.875));
}

#[test]
fn runs_add_to_counts_that_are_there() {
    let mut counts = Counts::with_numbers(counts_apart());
    for _ in 0..2 {
        assert_eq!(report(&mut fresh(), &EVENTS[..10].concat(), &mut counts), Ok(10));
    }
    let (before, more) = (counts_apart(), grown());
    assert_eq!(*counts.numbers(), std::array::from_fn(|k| before[k] + 2 * more[k]));
}

#[test]
fn a_count_at_its_end_is_17_and_stops_the_run_before_the_tick() {
    // The second tick waits.
    let mut numbers = counts_apart();
    numbers[2] = u32::MAX;
    let (mut image, mut counts) = (fresh(), Counts::with_numbers(numbers));
    let stopped = Stopped { taken: 1, refusal: Refusal::CountFull };
    assert_eq!(report(&mut image, &EVENTS.concat(), &mut counts), Err(stopped));
    numbers[0] += 1;
    assert_eq!(*counts.numbers(), numbers);
    let mut once = fresh();
    assert!(event(&mut once, TICK, 0, 0).is_ok());
    assert_eq!(image, once);
    assert_eq!(stopped.to_string(), "events taken: 1, the next refused: a count of ticks is at its end");
}

#[test]
fn an_event_of_a_device_is_not_counted_and_9_is_tested_before_17() {
    let full = [u32::MAX; COUNTS];
    let (mut image, mut counts) = (fresh(), Counts::with_numbers(full));
    let stopped = |taken, refusal| Err(Stopped { taken, refusal });
    let list = [[INPUT, 0, 65], [OUTPUT_DONE, 0, 0], [TICK, 0, 0]];
    assert_eq!(report(&mut image, &list.concat(), &mut counts), stopped(1, Refusal::PortIdle));
    assert_eq!(report(&mut image, &list[2], &mut counts), stopped(0, Refusal::CountFull));
    assert_eq!(*counts.numbers(), full);
}

#[test]
fn a_refused_image_or_list_counts_nothing() {
    let (mut image, mut counts) = (fresh(), Counts::new());
    let stopped = |refusal| Err(Stopped { taken: 0, refusal });
    assert_eq!(report(&mut [], &[TICK, 0, 0], &mut counts), stopped(Refusal::TooShort));
    assert_eq!(report(&mut image[1..], &[TICK, 0, 0], &mut counts), stopped(Refusal::NotMarked));
    assert_eq!(report(&mut image, &[TICK, 0, 0, TICK], &mut counts), stopped(Refusal::MalformedEvent));
    assert_eq!(report(&mut image, &[], &mut counts), Ok(0));
    assert_eq!((image, counts), (fresh(), Counts::default()));
}

#[test]
fn a_share_is_the_quotient_of_two_sums_and_none_without_ticks() {
    assert_eq!((share(&Counts::new(), 0), share(&Counts::new(), 16)), (None, None));
    let mut numbers = [0; COUNTS];
    numbers[HEADINGS..2 * HEADINGS].copy_from_slice(&[1, 2, 4, 8, 16, 32]);
    numbers[AT_IDLE_COUNT] = 65;
    numbers[AT_IDLE_COUNT - 1] = 128;
    let counts = Counts::with_numbers(numbers);
    assert_eq!(share(&counts, 1), Some(63.0 / 256.0));
    assert_eq!(share(&counts, 15), Some(0.5));
    assert!([0, 2, 14, 16, u16::MAX].iter().all(|task| share(&counts, *task) == Some(0.0)));
    assert_eq!((counts.of(15, Heading::PassedTurns), counts.of(16, Heading::Orders)), (Some(128), None));
    assert_eq!(share(&Counts::with_numbers([u32::MAX; COUNTS]), 7), Some(6.0 / 97.0));
    numbers = [0; COUNTS];
    numbers[AT_IDLE_COUNT] = 1;
    assert_eq!(share(&Counts::with_numbers(numbers), 0), Some(0.0));
}

// The archive's own functions, safe as in tests.rs: no two arguments of a call are the same.

#[test]
fn each_argument_of_a_report_and_a_share_stands_where_it_is_declared() {
    let (mut image, mut counts, mut cell) = ([0; CROWD_WORDS], counts_apart(), -1.0);
    let list = [TICK, 0, 0, TICK, 0, 0, INPUT, 1, 66, OUTPUT_DONE, 2, 0];
    assert_eq!(size(&CROWD), Ok(CROWD_WORDS));
    unsafe {
        assert_eq!(c::kernel_build(CROWD.as_ptr(), CROWD.len(), image.as_mut_ptr(), CROWD_WORDS), 0);
        let (at, events, to) = (image.as_mut_ptr(), list.as_ptr(), counts.as_mut_ptr());
        for entries in [0, COUNTS - 1] {
            let ran = c::kernel_report(at, CROWD_WORDS, events, list.len(), to, entries);
            assert_eq!(ran, c::Ran { taken: 0, number: 12 });
            assert_eq!(c::kernel_share(to, entries, 1, &mut cell), c::NOT_TOLD);
        }
        let ran = c::kernel_report(at, CROWD_WORDS, events, list.len(), to, COUNTS);
        assert_eq!(ran, c::Ran { taken: 3, number: 9 });
    }
    let mut more = counts_apart();
    // Task 0 asks for input, and waits for it.
    more[0] += 1;
    more[2] += 1;
    assert_eq!((counts, cell), (more, -1.0));
    unsafe {
        assert_eq!(c::kernel_share([0; COUNTS].as_ptr(), COUNTS, 1, &mut cell), c::NOT_TOLD);
        assert_eq!(cell, -1.0);
        assert_eq!(c::kernel_share(counts.as_ptr(), COUNTS, 1, &mut cell), c::TOLD);
    }
    // The sum of 1006 to 1011, over 97 * 1000 + the sum of 0 to 96 + the two ticks.
    assert_eq!(cell, 6051.0 / 101658.0);
}
