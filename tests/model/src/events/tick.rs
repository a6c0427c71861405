//! One tick.

use super::dispatch::{leave, pass_turn};
use super::services::serve;
use super::{answer, Answer};
use crate::image::{status, Kernel};
use crate::orders::order;

/// One tick, by the first rule that applies.
pub fn tick(kernel: &mut Kernel) -> Answer {
    let Some(&first) = kernel.ready.held.front() else {
        return Answer { kind: answer::IDLE, task: 0 };
    };
    let kind = run(kernel, usize::from(first));
    Answer { kind, task: first }
}

/// What happens to the first ready task, as the kind of the answer.
fn run(kernel: &mut Kernel, me: usize) -> u16 {
    let flags = kernel.tasks[me].flags;
    if flags.error != 0 {
        leave(kernel, status::STOPPED);
        answer::ERROR_STOP
    } else if kernel.clock == 0 {
        pass_turn(kernel);
        answer::TURN_PASSED
    } else if flags.pending != 0 {
        kernel.clock -= 1;
        serve(kernel, me)
    } else {
        kernel.clock -= 1;
        match order(&mut kernel.tasks[me]) {
            Ok(()) => answer::ORDER_DONE,
            Err(_) => answer::ORDER_FAULTED,
        }
    }
}

#[cfg(test)]
mod tests {
    use crate::events::happen;
    use crate::events::tests::{after, TICK};
    use crate::good;
    use crate::happening::event;
    use crate::happening::scene::{queue, Scene};
    use crate::image::Kernel;
    use crate::layout::{word, Frame};
    use crate::lively;
    use crate::rng::Rng;

    #[test]
    fn with_nobody_ready_nothing_changes() {
        let before = Scene::of(2).waits_for_input(0).stopped(1, 4).kernel();
        assert_eq!(after(&before, TICK, 0, 0), before);
    }

    #[test]
    fn a_task_with_an_error_stops() {
        let before = Scene::of(2).flags(0, 2, 4, 0).clock(0).kernel();
        let mut expected = before.clone();
        expected.tasks[0].status = 5;
        expected.ready = queue(&[1, 0, 1, 2, 0, 1]);
        expected.clock = 5;
        assert_eq!(after(&before, TICK, 1, 0), expected);
    }

    #[test]
    fn a_task_that_stops_or_waits_leaves_0_in_its_slot() {
        let scene = Scene::of(3).ready(&[2, 2, 3, 3, 0, 1, 2]);
        let stopped = after(&scene.clone().flags(2, 0, 4, 0).kernel(), TICK, 1, 2);
        let waiting = after(&scene.asks(2, 3, 0, 7).kernel(), TICK, 4, 2);
        for left in [stopped, waiting] {
            assert_eq!(left.ready, queue(&[0, 2, 2, 3, 0, 1, 0]));
        }
    }

    #[test]
    fn the_last_task_that_stops_leaves_clock_0() {
        let stopped = after(&Scene::of(1).flags(0, 0, 1, 0).kernel(), TICK, 1, 0);
        assert_eq!((stopped.clock, stopped.ready), (0, queue(&[0, 0, 0, 1, 0])));
    }

    #[test]
    fn at_clock_0_the_turn_passes_before_a_service() {
        let before = Scene::of(3).waits_for_input(1).asks(0, 1, 2, 7).clock(0).kernel();
        assert_eq!(before.ready, queue(&[0, 2, 2, 3, 0, 2, 0]));
        let mut expected = before.clone();
        expected.ready = queue(&[1, 0, 2, 3, 0, 2, 0]);
        expected.clock = 5;
        assert_eq!(after(&before, TICK, 2, 0), expected);
    }

    #[test]
    fn a_passed_turn_clears_the_slot_and_then_stores_at_the_tail() {
        let some = Scene::of(3).waits_for_input(0).clock(0).kernel();
        assert_eq!(some.ready, queue(&[0, 2, 2, 3, 1, 2, 0]));
        let turned = after(&some, TICK, 2, 1);
        assert_eq!(turned.ready, queue(&[1, 0, 2, 3, 0, 2, 1]));
        let all = Scene::of(3).ready(&[1, 1, 3, 3, 0, 1, 2]).clock(0).kernel();
        let turned = after(&all, TICK, 2, 1);
        assert_eq!(turned.ready, queue(&[2, 2, 3, 3, 0, 1, 2]));
    }

    #[test]
    fn a_task_alone_passes_the_turn_to_itself() {
        let before = Scene::of(1).clock(0).kernel();
        let mut expected = before.clone();
        expected.clock = 5;
        assert_eq!(after(&before, TICK, 2, 0), expected);
    }

    #[test]
    fn a_service_done_or_faulting_uses_the_clock() {
        for clock in 1..=5 {
            let done = Scene::of(2).asks(0, 1, 1, 7).clock(clock).kernel();
            assert_eq!(after(&done, TICK, 3, 0).clock, clock - 1);
            let no_task = Scene::of(2).asks(0, 1, 2, 7).clock(clock).kernel();
            assert_eq!(after(&no_task, TICK, 5, 0).clock, clock - 1);
            let no_character = Scene::of(2).asks(0, 4, 0, 256).clock(clock).kernel();
            assert_eq!(after(&no_character, TICK, 5, 0).clock, clock - 1);
        }
    }

    #[test]
    fn a_service_that_waits_leaves_what_dispatch_sets() {
        for clock in 1..=5 {
            let others = Scene::of(2).asks(0, 3, 0, 7).clock(clock).kernel();
            assert_eq!(after(&others, TICK, 4, 0).clock, 5);
            let alone = Scene::of(1).asks(0, 3, 0, 7).clock(clock).kernel();
            assert_eq!(after(&alone, TICK, 4, 0).clock, 0);
        }
    }

    #[test]
    fn a_service_that_wakes_uses_the_clock_and_does_not_dispatch() {
        let before = Scene::of(2).waits_to_receive(1, 0).asks(0, 1, 1, 7).clock(1).kernel();
        let sent = after(&before, TICK, 3, 0);
        assert_eq!((sent.clock, sent.tasks[1].status), (0, 0));
        let turned = after(&sent, TICK, 2, 0);
        assert_eq!(turned.clock, 5);
        assert_eq!(after(&turned, TICK, 3, 1).clock, 4);
    }

    #[test]
    fn a_fault_at_the_end_of_the_slice_stops_before_the_turn_passes() {
        let before = Scene::of(2).asks(0, 2, 2, 7).clock(1).kernel();
        let faulted = after(&before, TICK, 5, 0);
        assert_eq!(faulted.clock, 0);
        let stopped = after(&faulted, TICK, 1, 0);
        assert_eq!((stopped.clock, stopped.tasks[0].status), (5, 5));
    }

    /// Orders and services have the slice together: with S 5 three orders and
    /// two services, and the last order's service comes in the next turn.
    #[test]
    fn a_turn_has_as_many_ticks_as_the_slice() {
        let mut kernel = Scene::running(1, &[0x1210; 6]).kernel();
        for (kind, clock) in [(6, 4), (3, 3), (6, 2), (3, 1), (6, 0), (2, 5), (4, 0)] {
            kernel = after(&kernel, TICK, kind, 0);
            assert_eq!(kernel.clock, clock);
        }
    }

    /// A task with k others ahead, S and c on the clock is first after
    /// (c + 1) + (k - 1)(S + 1) ticks where all use what they have.
    #[test]
    fn the_bound_on_turns_is_reached() {
        for slice in 1..=4 {
            for clock in 0..=slice {
                for k in 1..16 {
                    let pending = |scene: Scene, task| scene.asks(task, 1, 0, 7);
                    let asking = (0..k).fold(Scene::running(k + 1, &[0x0E00, 0]), pending);
                    let mut kernel = asking.slice(slice).clock(clock).kernel();
                    let mut ticks = 0;
                    while kernel.ready.held[0] != k as u16 {
                        happen(&mut kernel, TICK).expect("an accepted tick");
                        ticks += 1;
                    }
                    let (c, s) = (usize::from(clock), usize::from(slice));
                    assert_eq!(ticks, (c + 1) + (k - 1) * (s + 1));
                }
            }
        }
    }

    /// The last ready task of random images, with random events: it is first
    /// in time, some on the last tick, and nothing of its own changes before.
    #[test]
    fn no_turn_comes_later_than_the_bound() {
        let mut rng = Rng::new(2);
        let (mut watched, mut late) = (0, 0);
        while watched < 3000 {
            let frame = Frame { slice: word(rng.between(1, 6)), ..good::frame(&mut rng) };
            let mut kernel = lively::kernel(&mut rng, frame);
            let ready = kernel.ready.held.len();
            if ready < 2 {
                continue;
            }
            let (c, s, k) = (usize::from(kernel.clock), usize::from(kernel.slice), ready - 1);
            let bound = (c + 1) + (k - 1) * (s + 1);
            let last = kernel.ready.held[k];
            let own = |kernel: &Kernel| {
                let task = &kernel.tasks[usize::from(last)];
                (task.registers, task.flags, task.segment.clone())
            };
            let before = own(&kernel);
            let mut ticks = 0;
            while kernel.ready.held[0] != last {
                let words = event(&mut rng, &kernel);
                ticks += usize::from(happen(&mut kernel, words).is_ok() && words == TICK);
                assert!(ticks <= bound);
                assert_eq!(own(&kernel), before);
            }
            watched += 1;
            late += usize::from(ticks == bound);
        }
        assert!(late >= 100, "{late} of {watched}");
    }

    #[test]
    fn an_order_uses_the_clock_also_when_it_faults() {
        let before = Scene::running(1, &[0x0120, 9]).clock(3).kernel();
        let mut expected = before.clone();
        expected.tasks[0].registers = [2, 2, 9, 0, 0, 0, 0, 0];
        expected.clock = 2;
        let done = after(&before, TICK, 6, 0);
        assert_eq!(done, expected);
        expected.tasks[0].flags.error = 1;
        expected.clock = 1;
        assert_eq!(after(&done, TICK, 7, 0), expected);
    }

    #[test]
    fn the_answer_names_the_task_that_was_first() {
        let before = Scene::of(3).ready(&[2, 2, 3, 3, 0, 1, 2]).clock(1).kernel();
        let turned = after(&after(&before, TICK, 6, 2), TICK, 2, 2);
        assert_eq!(turned.ready, queue(&[0, 0, 3, 3, 0, 1, 2]));
        after(&turned, TICK, 6, 0);
    }
}
