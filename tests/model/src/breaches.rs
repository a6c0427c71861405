//! The first broken rule of an image that number 6 refuses: rules 1 to 21, and
//! of a rule the first task or queue that breaks it.

use crate::check::lay_out;
use crate::image::{service, status, Flags, Kernel, Task, LARGEST_CHARACTER};
use crate::layout::{word, Layout, QUEUE_LEAD, TASK_WORDS};
use crate::numbers::{GOOD, NOT_THERE, OTHER_RULE};
use crate::which::Which;

/// What breaks a rule.
enum Subject {
    Clock,
    Task(usize),
    Queue(Which),
}

/// A rule by its number, and what breaks it first.
struct Breach {
    rule: u16,
    subject: Subject,
}

/// The words of an image whose parts stand where they must.
struct Words {
    words: Vec<u16>,
    layout: Layout,
}

/// What a rule is of, and whether something keeps it.
enum Rule<T> {
    Clock(fn(&T) -> bool),
    Task(fn(&T, usize) -> bool),
    Queue(fn(&T, Which) -> bool),
}

/// The rules that stand before a queue can be relied on.
const OF_WORDS: [(u16, Rule<Words>); 7] = [
    (1, Rule::Task(|image, task| in_range(image.flags(task)))),
    (2, Rule::Task(|image, task| image.flags(task).error == 0 || image.flags(task).pending == 0)),
    (3, Rule::Task(|image, task| image.status(task) <= status::STOPPED)),
    (4, Rule::Queue(|image, which| image.lead(which)[3] == which.capacity(&image.layout))),
    (5, Rule::Queue(|image, which| image.lead(which)[..2].iter().all(|&index| index < which.capacity(&image.layout)))),
    (6, Rule::Queue(|image, which| image.lead(which)[2] <= which.capacity(&image.layout))),
    (7, Rule::Queue(leads_to_the_tail)),
];

/// The rules of a kernel whose queues are sound.
const OF_KERNEL: [(u16, Rule<Kernel>); 14] = [
    (8, Rule::Queue(holds_characters)),
    (9, Rule::Queue(holds_tasks)),
    (10, Rule::Task(is_queued_where_ready)),
    (11, Rule::Clock(|kernel| kernel.clock <= kernel.slice)),
    (12, Rule::Clock(|kernel| !kernel.ready.is_empty() || kernel.clock == 0)),
    (13, Rule::Task(|kernel, me| port_in_range(&kernel.tasks[me]))),
    (14, Rule::Task(|kernel, me| !kernel.tasks[me].port.is_idle() || has_nothing_to_print(&kernel.tasks[me]))),
    (15, Rule::Task(|kernel, me| of_status(kernel, me, status::WAITS_TO_SEND, sends))),
    (16, Rule::Task(|kernel, me| of_status(kernel, me, status::WAITS_TO_RECEIVE, receives))),
    (17, Rule::Task(|kernel, me| of_status(kernel, me, status::WAITS_FOR_INPUT, waits_for_input))),
    (18, Rule::Task(|kernel, me| of_status(kernel, me, status::WAITS_FOR_OUTPUT, waits_for_output))),
    (19, Rule::Task(|kernel, me| of_status(kernel, me, status::STOPPED, |_, _, task| task.flags.error != 0))),
    (20, Rule::Task(|kernel, me| waits_for_a_task(&kernel.tasks[me]) || kernel.tasks[me].peer == 0)),
    (21, Rule::Queue(|kernel, which| which.of(kernel).is_clear())),
];

/// The number of the check, and where that is 6 rule, queue, i and j; else four
/// words that say that nothing is there.
pub fn broken_rule(image: &[u16]) -> [u16; 5] {
    let none = |number| [number, NOT_THERE, NOT_THERE, NOT_THERE, NOT_THERE];
    match lay_out(image).map(|layout| first_breach(image, layout)) {
        Err(number) => none(number),
        Ok(None) => none(GOOD),
        Ok(Some(Breach { rule, subject })) => {
            let [queue, i, j] = subject.words();
            [OTHER_RULE, rule, queue, i, j]
        }
    }
}

/// The first broken rule of an image that numbers 1 to 5 do not refuse.
fn first_breach(words: &[u16], layout: Layout) -> Option<Breach> {
    let tasks = layout.frame.tasks;
    first_of(&OF_WORDS, &Words { words: words.to_vec(), layout }, tasks).or_else(|| {
        let kernel = Kernel::decode(words, &layout).expect("the queues are sound");
        first_of(&OF_KERNEL, &kernel, tasks)
    })
}

/// The first of some rules that is broken, with its first subject.
fn first_of<T>(rules: &[(u16, Rule<T>)], whole: &T, tasks: usize) -> Option<Breach> {
    rules.iter().find_map(|(number, rule)| {
        let subject = match rule {
            Rule::Clock(holds) => (!holds(whole)).then_some(Subject::Clock),
            Rule::Task(holds) => (0..tasks).find(|&task| !holds(whole, task)).map(Subject::Task),
            Rule::Queue(holds) => Which::all(tasks).into_iter().find(|&w| !holds(whole, w)).map(Subject::Queue),
        };
        subject.map(|subject| Breach { rule: *number, subject })
    })
}

impl Subject {
    /// Queue, i and j, by which it is told.
    fn words(self) -> [u16; 3] {
        match self {
            Subject::Clock => [NOT_THERE; 3],
            Subject::Task(task) => [NOT_THERE, word(task), NOT_THERE],
            Subject::Queue(which) => which.words(),
        }
    }
}

impl Words {
    fn flags(&self, task: usize) -> Flags {
        Flags::decode(self.words[self.layout.task(task) + TASK_WORDS - 1])
    }

    fn status(&self, task: usize) -> u16 {
        self.words[self.layout.status(task)]
    }

    /// Head, tail, length and capacity of a queue.
    fn lead(&self, which: Which) -> [usize; QUEUE_LEAD] {
        let place = which.place(&self.layout);
        [0, 1, 2, 3].map(|index| usize::from(self.words[place + index]))
    }
}

fn in_range(flags: Flags) -> bool {
    flags.cc <= 2 && flags.error <= 6 && flags.pending <= 4
}

fn leads_to_the_tail(image: &Words, which: Which) -> bool {
    let [head, tail, length, _] = image.lead(which);
    (head + length) % which.capacity(&image.layout) == tail
}

/// Words of an input or output buffer are characters.
fn holds_characters(kernel: &Kernel, which: Which) -> bool {
    match which {
        Which::Input(_) | Which::Output(_) => which.of(kernel).held.iter().all(|&word| word <= LARGEST_CHARACTER),
        _ => true,
    }
}

/// Words of the ready queue are tasks.
fn holds_tasks(kernel: &Kernel, which: Which) -> bool {
    which != Which::Ready || kernel.ready.held.iter().all(|&task| usize::from(task) < kernel.tasks.len())
}

/// The ready queue holds a ready task once, and another not at all.
fn is_queued_where_ready(kernel: &Kernel, me: usize) -> bool {
    let times = kernel.ready.held.iter().filter(|&&task| usize::from(task) == me).count();
    times == usize::from(kernel.tasks[me].status == status::READY)
}

fn port_in_range(task: &Task) -> bool {
    task.port.busy <= 1 && task.port.character <= LARGEST_CHARACTER
}

fn has_nothing_to_print(task: &Task) -> bool {
    task.port.character == 0 && task.output.is_empty()
}

/// Whether a task has another status, or stands as one of this status must.
fn of_status(kernel: &Kernel, me: usize, wanted: u16, stands: fn(&Kernel, usize, &Task) -> bool) -> bool {
    let task = &kernel.tasks[me];
    task.status != wanted || stands(kernel, me, task)
}

fn sends(kernel: &Kernel, me: usize, task: &Task) -> bool {
    task.flags.pending == service::SEND && peer(kernel, task).is_some_and(|peer| kernel.messages[me][peer].is_full())
}

fn receives(kernel: &Kernel, me: usize, task: &Task) -> bool {
    let from_peer = |peer: usize| &kernel.messages[peer][me];
    task.flags.pending == service::RECEIVE && peer(kernel, task).is_some_and(|peer| from_peer(peer).is_empty())
}

fn waits_for_input(_: &Kernel, _: usize, task: &Task) -> bool {
    task.flags.pending == service::INPUT && task.input.is_empty()
}

fn waits_for_output(_: &Kernel, _: usize, task: &Task) -> bool {
    task.flags.pending == service::OUTPUT && task.registers[3] <= LARGEST_CHARACTER && task.output.is_full()
}

fn waits_for_a_task(task: &Task) -> bool {
    [status::WAITS_TO_SEND, status::WAITS_TO_RECEIVE].contains(&task.status)
}

/// The task that R2 and the peer field both name, if there is one.
fn peer(kernel: &Kernel, task: &Task) -> Option<usize> {
    let same = task.registers[2] == task.peer;
    (0..kernel.tasks.len()).find(|&peer| same && usize::from(task.peer) == peer)
}

#[cfg(test)]
mod tests {
    use super::*;
    use crate::check::check;
    use crate::damage;
    use crate::good;
    use crate::happening::scene::Scene;
    use crate::looking::RULES;
    use crate::rng::Rng;

    const NO: u16 = 65535;

    /// Two fresh tasks, S 5, buffers of two words. Flags stand at 26 and 35,
    /// the ready queue at 36, statuses and peers at 42, inputs at 46 and 52,
    /// outputs at 58 and 64, messages at 70, 76, 82 and 88, ports at 94 and 96.
    fn with(changes: &[(usize, u16)]) -> [u16; 5] {
        let mut words = Scene::of(2).kernel().encode();
        changes.iter().for_each(|&(place, value)| words[place] = value);
        broken_rule(&words)
    }

    /// What is told of a rule that a task breaks.
    fn by(rule: u16, task: u16) -> [u16; 5] {
        [6, rule, NO, task, NO]
    }

    #[test]
    fn only_number_6_tells_a_rule() {
        assert_eq!(with(&[]), [0, NO, NO, NO, NO]);
        assert_eq!(with(&[(0, 0), (17, 6)]), [2, NO, NO, NO, NO]);
        assert_eq!(with(&[(2, 17), (17, 6)]), [3, NO, NO, NO, NO]);
        assert_eq!(with(&[(7, 17), (17, 6)]), [4, NO, NO, NO, NO]);
        assert_eq!(with(&[(16, 0), (17, 6)]), [5, NO, NO, NO, NO]);
        assert_eq!(broken_rule(&[0; 17]), [1, NO, NO, NO, NO]);
        assert_eq!(with(&[(17, 6)]), [6, 11, NO, NO, NO]);
    }

    #[test]
    fn flags_and_status() {
        for flags in [3, 28, 160, 256, 65535] {
            assert_eq!(with(&[(35, flags)]), by(1, 1));
        }
        assert_eq!(with(&[(35, 36)]), by(2, 1));
        assert_eq!(with(&[(26, 36), (35, 3)]), by(1, 1));
        assert_eq!(with(&[(26, 36), (35, 36)]), by(2, 0));
        assert_eq!(with(&[(42, 6)]), by(3, 0));
        assert_eq!(with(&[(44, 65535), (35, 36)]), by(2, 1));
    }

    #[test]
    fn leading_words_of_queues() {
        assert_eq!(with(&[(39, 3)]), [6, 4, 0, 0, 0]);
        assert_eq!(with(&[(49, 0)]), [6, 4, 1, 0, 0]);
        assert_eq!(with(&[(67, 1), (91, 9)]), [6, 4, 2, 1, 0]);
        assert_eq!(with(&[(36, 2), (85, 1)]), [6, 4, 3, 1, 0]);
        assert_eq!(with(&[(76, 2)]), [6, 5, 3, 0, 1]);
        assert_eq!(with(&[(89, 65535)]), [6, 5, 3, 1, 1]);
        assert_eq!(with(&[(54, 3), (59, 2)]), [6, 5, 2, 0, 0]);
        assert_eq!(with(&[(54, 3), (59, 1)]), [6, 6, 1, 1, 0]);
        assert_eq!(with(&[(38, 1)]), [6, 7, 0, 0, 0]);
        assert_eq!(with(&[(70, 1)]), [6, 7, 3, 0, 0]);
        assert_eq!(with(&[(70, 1), (72, 1)]), [0, NO, NO, NO, NO]);
    }

    #[test]
    fn words_that_queues_hold() {
        assert_eq!(with(&[(54, 2), (56, 255), (57, 256)]), [6, 8, 1, 1, 0]);
        assert_eq!(with(&[(60, 2), (63, 256), (54, 2), (57, 256)]), [6, 8, 1, 1, 0]);
        assert_eq!(with(&[(60, 2), (63, 256)]), [6, 8, 2, 0, 0]);
        assert_eq!(with(&[(72, 2), (74, 256)]), [0, NO, NO, NO, NO]);
        assert_eq!(with(&[(57, 256)]), [6, 21, 1, 1, 0]);
        assert_eq!(with(&[(41, 2)]), [6, 9, 0, 0, 0]);
        assert_eq!(with(&[(41, 0)]), by(10, 0));
        assert_eq!(with(&[(37, 1), (38, 1)]), by(10, 1));
        assert_eq!(with(&[(42, 5), (26, 4)]), by(10, 0));
        assert_eq!(with(&[(40, 1)]), by(10, 0));
        assert_eq!(with(&[(40, 1), (41, 0)]), [0, NO, NO, NO, NO]);
    }

    /// Both tasks stopped, and nothing in the ready queue.
    const STOPPED: [(usize, u16); 7] = [(26, 4), (42, 5), (35, 4), (44, 5), (38, 0), (41, 0), (17, 0)];

    #[test]
    fn the_clock() {
        let stopped = |changes: &[(usize, u16)]| with(&[&STOPPED, changes].concat());
        assert_eq!(stopped(&[]), [0, NO, NO, NO, NO]);
        assert_eq!(stopped(&[(17, 5)]), [6, 12, NO, NO, NO]);
        assert_eq!(stopped(&[(17, 6)]), [6, 11, NO, NO, NO]);
        assert_eq!(stopped(&[(17, 6), (96, 2)]), [6, 11, NO, NO, NO]);
    }

    #[test]
    fn ports() {
        assert_eq!(with(&[(96, 2)]), by(13, 1));
        assert_eq!(with(&[(94, 1), (95, 256)]), by(13, 0));
        assert_eq!(with(&[(95, 256)]), by(13, 0));
        assert_eq!(with(&[(95, 255)]), by(14, 0));
        assert_eq!(with(&[(95, 1), (96, 2)]), by(13, 1));
        assert_eq!(with(&[(66, 2)]), by(14, 1));
        assert_eq!(with(&[(66, 2), (96, 1)]), [0, NO, NO, NO, NO]);
    }

    /// Task 0 with this status and pending, outside the ready queue; R2 stands
    /// at 20, R3 at 21.
    fn waiting(status: u16, pending: u16, changes: &[(usize, u16)]) -> [u16; 5] {
        let wait = [(42, status), (26, 32 * pending), (40, 1), (41, 0), (37, 1), (38, 1)];
        with(&[&wait, changes].concat())
    }

    #[test]
    fn tasks_that_wait_for_a_task() {
        let to_1 = [(20, 1), (43, 1)];
        assert_eq!(waiting(1, 1, &[&to_1[..], &[(78, 2)]].concat()), [0, NO, NO, NO, NO]);
        assert_eq!(waiting(1, 1, &[&to_1[..], &[(84, 2)]].concat()), by(15, 0));
        assert_eq!(waiting(1, 2, &[&to_1[..], &[(78, 2)]].concat()), by(15, 0));
        assert_eq!(waiting(1, 1, &[(20, 1), (78, 2), (72, 2)]), by(15, 0));
        assert_eq!(waiting(1, 1, &[(20, 2), (43, 2)]), by(15, 0));
        assert_eq!(waiting(2, 2, &[&to_1[..], &[(78, 2)]].concat()), [0, NO, NO, NO, NO]);
        assert_eq!(waiting(2, 2, &[&to_1[..], &[(83, 1), (84, 1)]].concat()), by(16, 0));
        assert_eq!(waiting(2, 1, &to_1), by(16, 0));
        assert_eq!(waiting(2, 2, &[(43, 1)]), by(16, 0));
        assert_eq!(waiting(2, 2, &[(20, 65535), (43, 65535)]), by(16, 0));
    }

    #[test]
    fn tasks_that_wait_for_a_device_or_have_stopped() {
        assert_eq!(waiting(3, 3, &[]), [0, NO, NO, NO, NO]);
        assert_eq!(waiting(3, 3, &[(48, 2)]), by(17, 0));
        assert_eq!(waiting(3, 0, &[]), by(17, 0));
        assert_eq!(waiting(4, 4, &[(60, 2), (94, 1), (21, 255)]), [0, NO, NO, NO, NO]);
        assert_eq!(waiting(4, 4, &[(60, 2), (94, 1), (21, 256)]), by(18, 0));
        assert_eq!(waiting(4, 3, &[(60, 2), (94, 1)]), by(18, 0));
        assert_eq!(waiting(4, 4, &[(59, 1), (60, 1), (94, 1)]), by(18, 0));
        assert_eq!(waiting(4, 4, &[(60, 2)]), by(14, 0));
        assert_eq!(waiting(5, 0, &[]), by(19, 0));
        assert_eq!(waiting(5, 0, &[(26, 4), (43, 1)]), by(20, 0));
        assert_eq!(waiting(3, 3, &[(43, 1), (20, 1)]), by(20, 0));
        assert_eq!(waiting(3, 3, &[(45, 1)]), by(20, 1));
    }

    #[test]
    fn old_words_in_free_slots() {
        assert_eq!(with(&[(50, 1)]), [6, 21, 1, 0, 0]);
        assert_eq!(with(&[(51, 65535)]), [6, 21, 1, 0, 0]);
        assert_eq!(with(&[(68, 2)]), [6, 21, 2, 1, 0]);
        assert_eq!(with(&[(81, 256)]), [6, 21, 3, 0, 1]);
        assert_eq!(waiting(3, 3, &[(41, 1)]), [6, 21, 0, 0, 0]);
        assert_eq!(waiting(3, 3, &[(41, 1), (50, 1)]), [6, 21, 0, 0, 0]);
        assert_eq!(with(&[(92, 1), (57, 1)]), [6, 21, 1, 1, 0]);
        assert_eq!(with(&[(47, 1), (48, 1), (51, 1)]), [6, 21, 1, 0, 0]);
        assert_eq!(with(&[(46, 1), (48, 1), (50, 1)]), [6, 21, 1, 0, 0]);
        assert_eq!(with(&[(50, 32768), (51, 32768)]), [6, 21, 1, 0, 0]);
    }

    /// Held zeros are no old words, and old words are told last.
    #[test]
    fn what_is_no_old_word_or_told_before_it() {
        assert_eq!(with(&[(47, 1), (48, 1)]), [0, NO, NO, NO, NO]);
        assert_eq!(with(&[(46, 1), (48, 1), (51, 9)]), [0, NO, NO, NO, NO]);
        assert_eq!(with(&[(72, 2), (74, 65535), (75, 1)]), [0, NO, NO, NO, NO]);
        assert_eq!(with(&[(57, 256), (45, 1)]), by(20, 1));
        assert_eq!(with(&[(57, 256), (53, 1)]), [6, 7, 1, 1, 0]);
        assert_eq!(with(&[(57, 256), (17, 6)]), [6, 11, NO, NO, NO]);
    }

    /// The two ways in which the model looks for number 6 agree.
    #[test]
    fn a_rule_is_told_exactly_where_the_check_gives_6() {
        let mut rng = Rng::new(20);
        let damages = damage::all();
        for _ in 0..2000 {
            let kernel = good::kernel(&mut rng);
            for words in crate::cases::family(&mut rng, &kernel, &damages) {
                let [number, rule, ..] = broken_rule(&words);
                assert_eq!(number, check(&words));
                assert_eq!(number == 6, (1..=RULES).contains(&rule));
            }
        }
    }
}
