//! Tasks that go on for hundreds of events: they pass words to one another,
//! read, print and reckon, and begin again.

use crate::events::{PEER, WORD};
use crate::good;
use crate::image::{service, status, Kernel, Task};
use crate::layout::{word, Frame};
use crate::ordering::first_word;
use crate::orders::{NEXT, STACK};
use crate::plan;
use crate::rng::Rng;

/// First words of orders, in hexadecimal: op, then a, then b.
const LOAD: u16 = 0x0100;
const COPY: u16 = 0x0200;
const FETCH: u16 = 0x0300;
const STORE: u16 = 0x0400;
const COMPARE: u16 = 0x0D00;
const JUMP: u16 = 0x0E00;
const JUMP_IF: u16 = 0x0F00;
const CALL: u16 = 0x1000;
const RETURN: u16 = 0x1100;
const SERVICE: u16 = 0x1200;

/// The ops that reckon with two registers, quotient and remainder among them.
const FIRST_RECKONING: usize = 5;
const LAST_RECKONING: usize = 12;

/// Addresses in a program: the order that a call goes to, a word to keep
/// something in, and the first phrase.
const SUBROUTINE: u16 = 2;
const KEPT: u16 = 3;
const BODY: u16 = 4;

/// The words of a stack, after the program.
const STACK_WORDS: usize = 2;
/// The most phrases of a program beside those that pass words.
const MOST_PHRASES: usize = 4;

/// In how many of a hundred cases a task sends a word that another receives,
/// sends one that nobody receives, and all send before they receive.
const PASSED: usize = 70;
const LOST: usize = 8;
const SENT_FIRST: usize = 75;

/// A few orders that belong together.
#[derive(Clone, Copy)]
enum Phrase {
    Send {
        to: usize,
    },
    Receive {
        from: usize,
    },
    Input,
    Output,
    /// An output of what was received or read.
    Echo,
    Reckon,
    Keep,
    Call,
    /// A jump over an order where cc says so.
    Branch,
    /// Any first word.
    Stray,
}

impl Phrase {
    fn receives(&self) -> bool {
        matches!(self, Phrase::Receive { .. })
    }
}

/// A good kernel of a frame, fresh or not, whose tasks go on.
pub fn kernel(rng: &mut Rng, frame: Frame) -> Kernel {
    if rng.percent(40) {
        return plan::accept(&plan(rng, frame)).expect("the plan is good");
    }
    let mut kernel = good::framed(rng, frame);
    let segments = segments(rng, frame.tasks);
    for (task, segment) in kernel.tasks.iter_mut().zip(segments) {
        revive(rng, task, frame.tasks, segment);
    }
    kernel
}

/// The same with exactly `total` words: one task has all that the others
/// leave.
pub fn with_total(rng: &mut Rng, frame: Frame, total: usize) -> Kernel {
    let mut kernel = kernel(rng, frame);
    let more = total - kernel.total();
    let segment = &mut kernel.tasks[rng.below(frame.tasks)].segment;
    segment.resize(segment.len() + more, 0);
    kernel
}

/// A good plan of a frame whose programs fill their segments.
pub fn plan(rng: &mut Rng, frame: Frame) -> Vec<u16> {
    let segments = segments(rng, frame.tasks);
    let pairs = segments.iter().flat_map(|words| [word(words.len()); 2]);
    frame.words().into_iter().chain(pairs).chain(segments.concat()).collect()
}

/// Gives a task a segment to go on in, as far as its status allows. Of the
/// ready tasks with an error few keep it.
fn revive(rng: &mut Rng, task: &mut Task, tasks: usize, segment: Vec<u16>) {
    let inside = word(rng.below(segment.len()));
    task.registers[NEXT] = *rng.pick(&[0, 0, BODY, BODY, inside]);
    task.registers[STACK] = word(segment.len());
    if ![status::WAITS_TO_SEND, status::WAITS_TO_RECEIVE].contains(&task.status) {
        let peer = rng.below(tasks);
        task.registers[PEER] = named(rng, tasks, peer);
    }
    if task.status != status::WAITS_FOR_OUTPUT {
        task.registers[WORD] = sent(rng);
    }
    if task.status == status::READY && rng.percent(80) {
        task.flags.error = 0;
    }
    task.segment = segment;
}

/// The segments of so many tasks. For a word that one of them sends there is
/// most often another that receives it, and most often all send before they
/// receive, so that they do not wait in a ring.
fn segments(rng: &mut Rng, tasks: usize) -> Vec<Vec<u16>> {
    let mut phrases: Vec<Vec<Phrase>> = (0..tasks).map(|_| own_phrases(rng)).collect();
    for from in 0..tasks {
        let to = rng.below(tasks);
        if rng.percent(PASSED) {
            phrases[from].push(Phrase::Send { to });
            phrases[to].push(Phrase::Receive { from });
        }
        if rng.percent(LOST) {
            phrases[from].push(Phrase::Send { to });
        }
    }
    phrases.iter_mut().for_each(|list| rng.shuffle(list));
    if rng.percent(SENT_FIRST) {
        phrases.iter_mut().for_each(|list| list.sort_by_key(Phrase::receives));
    }
    phrases.iter().map(|list| segment(rng, tasks, list)).collect()
}

/// Phrases that pass no words from task to task.
fn own_phrases(rng: &mut Rng) -> Vec<Phrase> {
    (0..rng.between(1, MOST_PHRASES)).map(|_| own_phrase(rng)).collect()
}

fn own_phrase(rng: &mut Rng) -> Phrase {
    use Phrase::{Branch, Call, Echo, Input, Keep, Output, Reckon, Stray};
    if rng.percent(18) {
        return Stray;
    }
    *rng.pick(&[Input, Input, Output, Output, Echo, Reckon, Reckon, Keep, Call, Branch])
}

/// A segment: a jump to the first phrase, a return, a word kept, the phrases,
/// a jump back, and a stack.
fn segment(rng: &mut Rng, tasks: usize, phrases: &[Phrase]) -> Vec<u16> {
    let mut words = vec![JUMP, BODY, RETURN, rng.word()];
    for &phrase in phrases {
        let at = word(words.len());
        words.extend(orders(rng, tasks, phrase, at));
    }
    words.extend([JUMP, BODY]);
    words.extend([0; STACK_WORDS]);
    words
}

/// The words of a phrase's orders, the first of which is at an address.
fn orders(rng: &mut Rng, tasks: usize, phrase: Phrase, at: u16) -> Vec<u16> {
    let [a, b] = [(); 2].map(|()| rng.between(4, 7));
    match phrase {
        Phrase::Send { to } => {
            vec![load(PEER), named(rng, tasks, to), load(WORD), sent(rng), ask(service::SEND)]
        }
        Phrase::Receive { from } => {
            vec![load(PEER), named(rng, tasks, from), ask(service::RECEIVE)]
        }
        Phrase::Input => vec![ask(service::INPUT)],
        Phrase::Output => vec![load(WORD), printed(rng), ask(service::OUTPUT)],
        Phrase::Echo => vec![ask(service::OUTPUT)],
        Phrase::Reckon => {
            let op = 256 * word(rng.between(FIRST_RECKONING, LAST_RECKONING));
            vec![load(a), rng.word(), of_two(op, a, b)]
        }
        Phrase::Keep => vec![load(a), KEPT, of_two(STORE, b, a), of_two(FETCH, WORD, a)],
        Phrase::Call => vec![CALL, SUBROUTINE],
        Phrase::Branch => {
            let jump = JUMP_IF + 16 * word(rng.below(3));
            vec![of_two(COMPARE, a, b), jump, at + 4, of_two(COPY, a, b)]
        }
        Phrase::Stray => vec![first_word(rng)],
    }
}

/// The first word of an order that loads a register.
fn load(register: usize) -> u16 {
    of_two(LOAD, register, 0)
}

/// The first word of an order with two registers.
fn of_two(op: u16, a: usize, b: usize) -> u16 {
    op + 16 * word(a) + word(b)
}

/// The order that asks for a service.
fn ask(service: u16) -> u16 {
    SERVICE + 16 * service
}

/// A task's number in R2, rarely that of no task.
fn named(rng: &mut Rng, tasks: usize, task: usize) -> u16 {
    match rng.below(20) {
        0..=2 => word(tasks),
        3 => rng.word(),
        _ => word(task),
    }
}

/// A word to print, rarely none that can be.
fn printed(rng: &mut Rng) -> u16 {
    if rng.percent(80) {
        rng.character()
    } else {
        rng.word()
    }
}

/// A word to send: most often a character.
fn sent(rng: &mut Rng) -> u16 {
    if rng.percent(80) {
        rng.character()
    } else {
        rng.word()
    }
}

#[cfg(test)]
mod tests {
    use super::*;
    use crate::cases::PAIR;
    use crate::check::check;
    use crate::events::happen;
    use crate::orders::Order;

    const TICK: [u16; 3] = [0, 0, 0];

    #[test]
    fn every_kernel_is_good() {
        let mut rng = Rng::new(4);
        for _ in 0..200 {
            let frame = good::frame(&mut rng);
            assert_eq!(check(&kernel(&mut rng, frame).encode()), 0);
        }
        let longest = with_total(&mut rng, PAIR, 32768).encode();
        assert_eq!((longest.len(), check(&longest)), (32768, 0));
    }

    #[test]
    fn every_phrase_but_a_stray_one_is_of_orders() {
        use Phrase::{Branch, Call, Echo, Input, Keep, Output, Receive, Reckon, Send};
        let mut rng = Rng::new(5);
        let phrases = [
            (Send { to: 1 }, &[0, 2, 4][..]),
            (Receive { from: 1 }, &[0, 2]),
            (Input, &[0]),
            (Output, &[0, 2]),
            (Echo, &[0]),
            (Reckon, &[0, 2]),
            (Keep, &[0, 2, 3]),
            (Call, &[0]),
            (Branch, &[0, 1, 3]),
        ];
        for (phrase, first_words) in phrases {
            let words = orders(&mut rng, 2, phrase, BODY);
            assert!(first_words.iter().all(|&at| Order::decode(words[at]).is_ok()));
        }
    }

    /// A call and its return, a word kept, and a jump over an order.
    #[test]
    fn phrases_follow_one_another_and_begin_again() {
        let mut rng = Rng::new(6);
        let calls = segment(&mut rng, 1, &[Phrase::Call, Phrase::Keep, Phrase::Branch]);
        let plan = [vec![1, 100, 1, 1, 1], vec![word(calls.len()); 2], calls].concat();
        let mut kernel = plan::accept(&plan).expect("a good plan");
        let mut nexts = Vec::new();
        for _ in 0..30 {
            let answer = happen(&mut kernel, TICK).expect("a tick is taken");
            assert_eq!(answer.kind, 6);
            nexts.push(kernel.tasks[0].registers[NEXT]);
        }
        assert_eq!(nexts[..3], [BODY, SUBROUTINE, BODY + 2]);
        assert!(nexts[3..].windows(3).any(|three| three == [BODY, SUBROUTINE, BODY + 2]));
        assert_eq!(kernel.tasks[0].registers[STACK], word(kernel.tasks[0].segment.len()));
    }
}
