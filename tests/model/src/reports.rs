//! Who used the machine: a run that counts its ticks, and a task's share of
//! all that were counted.

use crate::events::{answer, happen, Answer};
use crate::image::Kernel;
use crate::layout::LARGEST_TASKS;
use crate::numbers::{self, require};
use crate::runs::{accept, events, EVENT_WORDS};

/// How many headings a task has.
pub const HEADINGS: usize = 6;
/// The place of the idle ticks, and how many counts there are.
pub const IDLE: usize = HEADINGS * LARGEST_TASKS;
pub const COUNTS: usize = IDLE + 1;
/// Where a count ends.
pub const MOST: u32 = 4294967295;

/// The ticks of one task by heading, in the order of their counts.
#[derive(Clone, Copy, Debug, Default, PartialEq, Eq)]
struct Row {
    orders: u32,
    services: u32,
    waits: u32,
    faults: u32,
    error_stops: u32,
    passed_turns: u32,
}

/// All counted ticks: those of each task, and the idle ones.
#[derive(Clone, Debug, PartialEq, Eq)]
struct Counts {
    tasks: [Row; LARGEST_TASKS],
    idle: u32,
}

/// What a run that counts comes back with, and what it leaves.
#[derive(Clone, Debug, PartialEq, Eq)]
pub struct Reported {
    /// How many events were taken.
    pub taken: usize,
    /// The number that refused the run or stopped it, 0 where none did.
    pub number: u16,
    /// The image's words: those before the run with the taken events.
    pub image: Vec<u16>,
    /// The counts before the run and the taken ticks.
    pub counts: Vec<u32>,
}

impl Row {
    fn decode(counts: &[u32; HEADINGS]) -> Row {
        let [orders, services, waits, faults, error_stops, passed_turns] = *counts;
        Row { orders, services, waits, faults, error_stops, passed_turns }
    }

    fn encode(&self) -> [u32; HEADINGS] {
        [self.orders, self.services, self.waits, self.faults, self.error_stops, self.passed_turns]
    }

    fn ticks(&self) -> u64 {
        self.encode().into_iter().map(u64::from).sum()
    }
}

impl Counts {
    /// The counts in a list, which has the row of each of 16 tasks and then the
    /// idle ticks; nothing where it has another length.
    fn decode(list: &[u32]) -> Option<Counts> {
        let list: &[u32; COUNTS] = list.try_into().ok()?;
        let (rows, _) = list[..IDLE].as_chunks();
        let tasks = std::array::from_fn(|i| Row::decode(&rows[i]));
        Some(Counts { tasks, idle: list[IDLE] })
    }

    fn encode(&self) -> Vec<u32> {
        let rows = self.tasks.iter().flat_map(Row::encode);
        rows.chain([self.idle]).collect()
    }

    /// The count that an answer is under, if it is under one: the events of
    /// devices are not.
    fn of(&mut self, Answer { kind, task }: Answer) -> Option<&mut u32> {
        let row = &mut self.tasks[usize::from(task)];
        Some(match kind {
            answer::IDLE => &mut self.idle,
            answer::ERROR_STOP => &mut row.error_stops,
            answer::TURN_PASSED => &mut row.passed_turns,
            answer::SERVICE_DONE => &mut row.services,
            answer::SERVICE_WAITS => &mut row.waits,
            answer::SERVICE_FAULTED | answer::ORDER_FAULTED => &mut row.faults,
            answer::ORDER_DONE => &mut row.orders,
            _ => return None,
        })
    }

    /// Counts an answer once, unless its count is at its end.
    fn add(&mut self, answer: Answer) -> Result<(), u16> {
        if let Some(count) = self.of(answer) {
            require(*count < MOST, numbers::COUNT_FULL)?;
            *count += 1;
        }
        Ok(())
    }

    /// All ticks, the idle ones among them.
    fn ticks(&self) -> u64 {
        self.tasks.iter().map(Row::ticks).sum::<u64>() + u64::from(self.idle)
    }
}

/// Carries out the events of a list, one after another, until one is refused,
/// and counts the ticks. The list of counts is tested first. A refused run
/// takes 0 events, counts nothing and changes nothing.
pub fn report(image: &[u16], list: &[u16], counts: &[u32]) -> Reported {
    match accept_all(image, list, counts) {
        Ok((kernel, counts)) => until_refused(kernel, list, counts),
        Err(number) => Reported { taken: 0, number, image: image.to_vec(), counts: counts.to_vec() },
    }
}

fn accept_all(image: &[u16], list: &[u16], counts: &[u32]) -> Result<(Kernel, Counts), u16> {
    let counts = Counts::decode(counts).ok_or(numbers::TARGET)?;
    Ok((accept(image, list)?, counts))
}

/// Carries out and counts the events up to the first refused one, which changes
/// nothing.
fn until_refused(mut kernel: Kernel, list: &[u16], mut counts: Counts) -> Reported {
    let mut taken = 0;
    let mut number = numbers::GOOD;
    for words in events(list) {
        if let Err(refused) = counted(&mut kernel, &mut counts, words) {
            number = refused;
            break;
        }
        taken += 1;
    }
    Reported { taken, number, image: kernel.encode(), counts: counts.encode() }
}

/// One event, carried out and counted. The test of its count comes last, and a
/// refusal changes neither kernel nor counts.
fn counted(kernel: &mut Kernel, counts: &mut Counts, words: [u16; EVENT_WORDS]) -> Result<(), u16> {
    let mut after = kernel.clone();
    let answer = happen(&mut after, words)?;
    counts.add(answer)?;
    *kernel = after;
    Ok(())
}

/// A task's share of all ticks: nothing where no ticks were counted, or the
/// list of counts has another length. One that no image has has no ticks.
pub fn share(counts: &[u32], task: u16) -> Option<f64> {
    let counts = Counts::decode(counts)?;
    let all = counts.ticks();
    let own = counts.tasks.get(usize::from(task)).map_or(0, Row::ticks);
    (all > 0).then(|| own as f64 / all as f64)
}

#[cfg(test)]
mod tests {
    use super::*;
    use crate::happening::scene::Scene;
    use crate::runs::run;

    const TICK: [u16; 3] = [0, 0, 0];
    const LETTER: [u16; 3] = [1, 0, 65];
    const DONE: [u16; 3] = [2, 0, 0];
    /// A tick is not of a device.
    const MALFORMED: [u16; 3] = [0, 1, 0];

    /// The paper's eleven events. Worked out again with services that use the
    /// clock, S 2, they answer: order, waits, idle, input, service, order, turn
    /// passed, service, order faulted, output done; the last is refused with 9.
    const PAPERS: [[u16; 3]; 11] = [TICK, TICK, TICK, LETTER, TICK, TICK, TICK, TICK, TICK, DONE, DONE];

    /// The places of task 0's counts.
    const ORDERS: usize = 0;
    const SERVICES: usize = 1;
    const WAITS: usize = 2;
    const FAULTS: usize = 3;
    const ERROR_STOPS: usize = 4;
    const PASSED_TURNS: usize = 5;

    fn papers_image() -> Vec<u16> {
        Scene::planned(&[1, 2, 1, 1, 1, 4, 2, 4656, 4672]).kernel().encode()
    }

    /// 97 counts of which these are not 0.
    fn counts(of: &[(usize, u32)]) -> Vec<u32> {
        let mut counts = vec![0; 97];
        of.iter().for_each(|&(place, count)| counts[place] = count);
        counts
    }

    /// Taken, number and counts of a report on the paper's image. Its image must
    /// be the one that a run of the taken events leaves.
    fn on_papers(events: &[[u16; 3]], counts: &[u32]) -> (usize, u16, Vec<u32>) {
        let before = papers_image();
        let Reported { taken, number, image, counts } = report(&before, &events.concat(), counts);
        let ran = run(&before, &events[..taken].concat());
        assert_eq!((ran.taken, ran.number, &ran.image), (taken, 0, &image));
        (taken, number, counts)
    }

    /// The paper's run with some counts before it: how many events are taken,
    /// and the number.
    fn papers_end(of: &[(usize, u32)]) -> (usize, u16) {
        let (taken, number, _) = on_papers(&PAPERS, &counts(of));
        (taken, number)
    }

    #[test]
    fn the_papers_run_is_counted() {
        let by_hand = [(ORDERS, 2), (SERVICES, 2), (WAITS, 1), (FAULTS, 1), (PASSED_TURNS, 1), (96, 1)];
        assert_eq!(on_papers(&PAPERS, &counts(&[])), (10, 9, counts(&by_hand)));
    }

    #[test]
    fn runs_add_to_the_same_counts() {
        let (_, _, first) = on_papers(&PAPERS, &counts(&[]));
        let twice = [(ORDERS, 4), (SERVICES, 4), (WAITS, 2), (FAULTS, 2), (PASSED_TURNS, 2), (96, 2)];
        assert_eq!(on_papers(&PAPERS, &first), (10, 9, counts(&twice)));
        let all_but_this = on_papers(&PAPERS, &[7; 97]).2;
        assert_eq!(all_but_this[..7], [9, 9, 8, 8, 7, 8, 7]);
        assert!(all_but_this[6..96].iter().all(|&count| count == 7));
        assert_eq!(all_but_this[96], 8);
    }

    /// Every task has its own row, whatever N is.
    #[test]
    fn a_tick_is_counted_in_the_row_of_the_first_task() {
        let image = Scene::of(16).ready(&[0, 0, 16, 16, 15, 0, 1, 2, 3, 4, 5, 6, 7, 8, 9, 10, 11, 12, 13, 14]);
        let reported = report(&image.clock(1).kernel().encode(), &[0; 12], &[0; 97]);
        // An order of 15, its turn passed, an order of 0, another.
        assert_eq!((reported.taken, reported.number), (4, 0));
        assert_eq!(reported.counts, counts(&[(90, 1), (95, 1), (0, 2)]));
    }

    /// Load R2 with 7, ask to send, the service faults as there is no task 7,
    /// the task stops, and nobody is ready.
    #[test]
    fn a_faulted_service_is_a_fault_and_then_comes_the_error_stop() {
        let image = Scene::running(1, &[0x0120, 7, 0x1210]).kernel().encode();
        let reported = report(&image, &[0; 18], &[0; 97]);
        assert_eq!(reported.counts, counts(&[(ORDERS, 2), (FAULTS, 1), (ERROR_STOPS, 1), (96, 2)]));
    }

    #[test]
    fn a_run_stops_before_the_tick_whose_count_is_at_its_end() {
        assert_eq!(papers_end(&[(ORDERS, MOST)]), (0, 17));
        assert_eq!(papers_end(&[(ORDERS, MOST - 1)]), (5, 17));
        assert_eq!(papers_end(&[(ORDERS, MOST - 2)]), (10, 9));
        assert_eq!(papers_end(&[(WAITS, MOST)]), (1, 17));
        assert_eq!(papers_end(&[(WAITS, MOST - 1)]), (10, 9));
        assert_eq!(papers_end(&[(96, MOST)]), (2, 17));
        assert_eq!(papers_end(&[(SERVICES, MOST)]), (4, 17));
        assert_eq!(papers_end(&[(SERVICES, MOST - 1)]), (7, 17));
        assert_eq!(papers_end(&[(PASSED_TURNS, MOST)]), (6, 17));
        assert_eq!(papers_end(&[(FAULTS, MOST)]), (8, 17));
        assert_eq!(papers_end(&[(ERROR_STOPS, MOST)]), (10, 9));
        assert_eq!(papers_end(&[(FAULTS, MOST), (96, MOST)]), (2, 17));
    }

    #[test]
    fn what_was_counted_before_17_stays() {
        let before = counts(&[(ORDERS, MOST - 1), (SERVICES, 5), (6, MOST)]);
        let after = counts(&[(ORDERS, MOST), (SERVICES, 6), (WAITS, 1), (96, 1), (6, MOST)]);
        assert_eq!(on_papers(&PAPERS, &before), (5, 17, after));
    }

    #[test]
    fn a_count_that_no_tick_comes_to_stops_nothing() {
        let mut full = vec![MOST; 97];
        for place in [ORDERS, SERVICES, WAITS, FAULTS, PASSED_TURNS, 96] {
            full[place] = 0;
        }
        let (taken, number, counts) = on_papers(&PAPERS, &full);
        assert_eq!((taken, number, &counts[..7]), (10, 9, &[2, 2, 1, 1, MOST, 1, MOST][..]));
    }

    #[test]
    fn an_event_of_a_device_is_under_no_heading_and_is_never_17() {
        let full = vec![MOST; 97];
        assert_eq!(on_papers(&[LETTER], &full), (1, 0, full.clone()));
        assert_eq!(on_papers(&[LETTER, TICK], &full), (1, 17, full.clone()));
        assert_eq!(on_papers(&[LETTER], &counts(&[])), (1, 0, counts(&[])));
    }

    #[test]
    fn the_other_numbers_are_tested_before_17() {
        let full = vec![MOST; 97];
        assert_eq!(on_papers(&[MALFORMED, TICK], &full), (0, 7, full.clone()));
        assert_eq!(on_papers(&[LETTER, LETTER], &full), (1, 8, full.clone()));
        assert_eq!(on_papers(&[DONE, TICK], &full), (0, 9, full.clone()));
        let cut = report(&papers_image(), &[0; 4], &full);
        assert_eq!(cut, Reported { taken: 0, number: 7, image: papers_image(), counts: full });
    }

    #[test]
    fn a_refused_image_or_list_counts_nothing() {
        let image = papers_image();
        for (number, words) in [(1, image[..17].to_vec()), (5, image[..56].to_vec())] {
            let reported = report(&words, &[0; 3], &[5; 97]);
            assert_eq!(reported, Reported { taken: 0, number, image: words, counts: vec![5; 97] });
        }
    }

    #[test]
    fn another_length_of_counts_is_12_before_all_else() {
        for length in [0, 1, 6, 7, 96, 98, 194] {
            for image in [papers_image(), vec![]] {
                for words in [0, 1, 3] {
                    let reported = report(&image, &vec![0; words], &vec![MOST; length]);
                    let by_hand = Reported { taken: 0, number: 12, image: image.clone(), counts: vec![MOST; length] };
                    assert_eq!(reported, by_hand);
                }
            }
        }
    }

    /// The bits of a share.
    fn bits(counts: &[u32], task: u16) -> Option<u64> {
        share(counts, task).map(f64::to_bits)
    }

    /// Seven ticks of task 0 and an idle one: 7/8 is 1.75 halves, exactly.
    #[test]
    fn the_share_of_the_papers_run() {
        let (_, _, counts) = on_papers(&PAPERS, &counts(&[]));
        assert_eq!(bits(&counts, 0), Some(0x3FEC_0000_0000_0000));
        assert_eq!(bits(&counts, 1), Some(0));
    }

    #[test]
    fn no_ticks_have_no_share_for_any_task() {
        assert!([0, 1, 15, 16, 65535].iter().all(|&task| share(&counts(&[]), task).is_none()));
        for length in [0, 1, 96, 98] {
            assert_eq!(share(&vec![1; length], 0), None);
        }
    }

    #[test]
    fn a_task_without_ticks_has_share_0() {
        let counted = counts(&[(6, 3), (96, 1)]);
        for task in [0, 2, 15, 16, 17, 256, 257, 65535] {
            assert_eq!(bits(&counted, task), Some(0));
        }
    }

    /// Thirds in binary are 0101.. and 1010.., a tenth is 1.1001 1001.. sixteenths.
    #[test]
    fn a_share_is_rounded_once_to_the_nearest() {
        let thirds = counts(&[(0, 1), (11, 2)]);
        assert_eq!(bits(&thirds, 0), Some(0x3FD5_5555_5555_5555));
        assert_eq!(bits(&thirds, 1), Some(0x3FE5_5555_5555_5555));
        let tenth = counts(&[(95, 1), (96, 9)]);
        assert_eq!(bits(&tenth, 15), Some(0x3FB9_9999_9999_999A));
    }

    #[test]
    fn a_share_has_all_six_headings_over_all_ticks() {
        let six = counts(&[(6, 1), (7, 2), (8, 4), (9, 8), (10, 16), (11, 32), (12, 1), (96, 64)]);
        assert_eq!(share(&six, 1), Some(63.0 / 128.0));
        assert_eq!(share(&six, 2), Some(1.0 / 128.0));
        assert_eq!(share(&counts(&[(96, 1)]), 0), Some(0.0));
        assert_eq!(share(&counts(&[(3, MOST)]), 0), Some(1.0));
    }

    /// The sums are larger than any count, and no bit of them is lost.
    #[test]
    fn the_largest_counts_have_their_share() {
        assert_eq!(bits(&[MOST; 97], 7), Some((6.0f64 / 97.0).to_bits()));
        assert_eq!(share(&counts(&[(0, MOST), (6, MOST), (96, 2)]), 0), Some(4294967295.0 / 8589934592.0));
    }
}
