//! The looks into an image whose words all differ where a look could take one for another.

use crate::{broken_rule, build, c, check, port, queue_length, queue_word, register, task};
use crate::{Broken, Port, Queue, Refusal, Rule, Service, Status, Subject, Task, TaskError};
use std::cmp::Ordering;

/// Three tasks, slice 5, capacities 2, 1 and 4; the parts' places are worked by hand from these.
const PLAN: [u16; 11] = [3, 5, 2, 1, 4, 4, 0, 2, 0, 3, 0];
const WORDS: usize = 184;
const TASK_TABLE: usize = 18;
const READY_QUEUE: usize = 45;
const STATUS_TABLE: usize = 52;
const INPUT_BUFFERS: usize = 58;
const OUTPUT_BUFFERS: usize = 76;
const MESSAGES: usize = 91;
const PORTS: usize = 163;

/// Where a task's registers stand, its flags among them as the ninth.
const fn row(task: usize) -> usize {
    TASK_TABLE + 9 * task
}

/// Where the message buffer from one task to another stands.
const fn messages(from: usize, to: usize) -> usize {
    MESSAGES + 8 * (3 * from + to)
}

/// Puts words into an image from a place on.
fn put(image: &mut [u16], at: usize, words: &[u16]) {
    image[at..at + words.len()].copy_from_slice(words);
}

/// An image in which task 0 is ready with an output pending, task 1 is stopped and task 2 waits to receive from task 1.
fn peopled() -> Vec<u16> {
    let mut image = vec![0; WORDS];
    build(&PLAN, &mut image).unwrap();
    put(&mut image, row(0), &[100, 101, 102, 103, 104, 105, 106, 107, 2 + 32 * 4]);
    put(&mut image, row(1), &[110, 111, 112, 113, 114, 115, 116, 117, 1 + 4 * 6]);
    put(&mut image, row(2), &[120, 121, 1, 123, 124, 125, 126, 127, 32 * 2]);
    put(&mut image, READY_QUEUE, &[2, 0, 1, 3, 0, 0, 0]);
    put(&mut image, STATUS_TABLE, &[0, 0, 5, 0, 2, 1]);
    put(&mut image, INPUT_BUFFERS + 6, &[1, 1, 2, 2, 67, 66]);
    put(&mut image, OUTPUT_BUFFERS + 5, &[0, 0, 1, 1, 68]);
    put(&mut image, messages(0, 1), &[3, 1, 2, 4, 800, 0, 0, 700]);
    put(&mut image, messages(1, 0), &[0, 1, 1, 4, 65535, 0, 0, 0]);
    put(&mut image, PORTS, &[0, 0, 1, 69]);
    image
}

#[test]
fn each_task_is_seen_as_it_stands() {
    let image = peopled();
    let ready =
        Task { status: Status::Ready, peer: None, cc: Ordering::Greater, error: None, pending: Some(Service::Output) };
    let stopped = Task {
        status: Status::Stopped,
        peer: None,
        cc: Ordering::Less,
        error: Some(TaskError::NoCharacter),
        pending: None,
    };
    let waits = Task {
        status: Status::WaitsToReceive,
        peer: Some(1),
        cc: Ordering::Equal,
        error: None,
        pending: Some(Service::Receive),
    };
    assert_eq!(check(&image), Ok(()));
    assert_eq!(task(&image, 0), Ok(Some(ready)));
    assert_eq!(task(&image, 1), Ok(Some(stopped)));
    assert_eq!(task(&image, 2), Ok(Some(waits)));
}

#[test]
fn ports_registers_and_queues_are_seen() {
    let image = peopled();
    assert_eq!(port(&image, 0), Ok(Some(Port::Idle)));
    assert_eq!(port(&image, 1), Ok(Some(Port::Busy(69))));
    assert_eq!(register(&image, 1, 0), Ok(Some(110)));
    assert_eq!(register(&image, 0, 7), Ok(Some(107)));
    let held = |queue| {
        let length = queue_length(&image, queue).unwrap().unwrap();
        (0..length).map(|at| queue_word(&image, queue, at).unwrap().unwrap()).collect::<Vec<_>>()
    };
    assert_eq!(held(Queue::Ready), [0]);
    assert_eq!(held(Queue::Input(1)), [66, 67]);
    assert_eq!(held(Queue::Output(1)), [68]);
    assert_eq!(held(Queue::Messages { from: 0, to: 1 }), [700, 800]);
    assert_eq!(held(Queue::Messages { from: 1, to: 0 }), [65535]);
    assert_eq!(held(Queue::Input(2)), []);
}

#[test]
fn what_is_not_there_is_none() {
    let image = peopled();
    for number in [3, 16, 65535] {
        assert_eq!(task(&image, number), Ok(None));
        assert_eq!(port(&image, number), Ok(None));
        assert_eq!(register(&image, number, 0), Ok(None));
        assert_eq!(queue_length(&image, Queue::Input(number)), Ok(None));
        assert_eq!(queue_length(&image, Queue::Output(number)), Ok(None));
        assert_eq!(queue_length(&image, Queue::Messages { from: number, to: 0 }), Ok(None));
        assert_eq!(queue_length(&image, Queue::Messages { from: 0, to: number }), Ok(None));
        assert_eq!(queue_word(&image, Queue::Messages { from: 0, to: number }, 0), Ok(None));
    }
    assert_eq!(register(&image, 0, 8), Ok(None));
    assert_eq!(queue_word(&image, Queue::Input(1), 2), Ok(None));
    assert_eq!(queue_word(&image, Queue::Input(2), 0), Ok(None));
    assert_eq!(queue_word(&image, Queue::Ready, 65535), Ok(None));
}

#[test]
fn a_bad_image_is_refused_by_each_look() {
    let image = &peopled()[..WORDS - 1];
    assert_eq!(task(image, 0), Err(Refusal::WrongSegments));
    assert_eq!(port(image, 3), Err(Refusal::WrongSegments));
    assert_eq!(register(image, 0, 0), Err(Refusal::WrongSegments));
    assert_eq!(queue_length(image, Queue::Ready), Err(Refusal::WrongSegments));
    assert_eq!(queue_word(image, Queue::Ready, 0), Err(Refusal::WrongSegments));
    assert_eq!(broken_rule(image), Err(Refusal::WrongSegments));
    assert_eq!(task(&[], 0), Err(Refusal::TooShort));
    assert_eq!(broken_rule(&[]), Err(Refusal::TooShort));
}

/// What is told of the image with other words from a place on.
fn broken_by(at: usize, words: &[u16]) -> Broken {
    let mut image = peopled();
    put(&mut image, at, words);
    assert_eq!(check(&image), Err(Refusal::RuleBroken));
    assert_eq!(task(&image, 0), Err(Refusal::RuleBroken));
    broken_rule(&image).unwrap().unwrap()
}

#[test]
fn a_broken_rule_is_told_with_what_breaks_it() {
    let is = |rule, subject| Broken { rule, subject };
    let from_1_to_2 = Queue::Messages { from: 1, to: 2 };
    assert_eq!(broken_rule(&peopled()), Ok(None));
    assert_eq!(broken_by(messages(1, 2), &[4]), is(Rule::HeadTail, Subject::Queue(from_1_to_2)));
    assert_eq!(broken_by(INPUT_BUFFERS + 11, &[256]), is(Rule::Characters, Subject::Queue(Queue::Input(1))));
    assert_eq!(broken_by(OUTPUT_BUFFERS + 9, &[256]), is(Rule::Characters, Subject::Queue(Queue::Output(1))));
    assert_eq!(broken_by(READY_QUEUE + 6, &[3]), is(Rule::Tasks, Subject::Queue(Queue::Ready)));
    assert_eq!(broken_by(crate::AT_CLOCK, &[6]), is(Rule::ClockRange, Subject::Clock));
    assert_eq!(broken_by(row(1) + 8, &[0]), is(Rule::Stopped, Subject::Task(1)));
    assert_eq!(broken_by(STATUS_TABLE + 1, &[2]), is(Rule::Peerless, Subject::Task(0)));
    assert_eq!(broken_by(READY_QUEUE + 5, &[1]), is(Rule::FreeSlots, Subject::Queue(Queue::Ready)));
    assert_eq!(broken_by(messages(1, 2) + 7, &[9]), is(Rule::FreeSlots, Subject::Queue(from_1_to_2)));
}

#[test]
fn a_broken_rule_is_said_in_words() {
    let said = |at, words: &[u16]| broken_by(at, words).to_string();
    assert_eq!(said(messages(1, 2), &[0, 0, 5]), "messages from 1 to 2: length over the capacity");
    assert_eq!(said(INPUT_BUFFERS + 11, &[256]), "input of task 1: holds a word over 255");
    assert_eq!(said(OUTPUT_BUFFERS + 9, &[256]), "output of task 1: holds a word over 255");
    assert_eq!(said(READY_QUEUE + 6, &[3]), "ready queue: holds a word that is no task");
    assert_eq!(said(crate::AT_CLOCK, &[6]), "clock over the slice");
    assert_eq!(said(row(1) + 8, &[0]), "task 1: stopped without an error");
    assert_eq!(said(messages(1, 2) + 4, &[9]), "messages from 1 to 2: old words in free slots");
    assert_eq!(said(READY_QUEUE + 4, &[2]), "ready queue: old words in free slots");
}

// The archive's own functions: no two fields of an answer are the same in all of the cases. The calls are safe as
// those of the package are.

#[test]
fn each_field_of_a_look_stands_where_it_is_declared() {
    let image = peopled();
    let (at, words) = (image.as_ptr(), image.len());
    let seen = |number| unsafe {
        let c::Task { number, status, peer, cc, error, pending } = c::kernel_task(at, words, number);
        [number, status, peer, cc, error, pending]
    };
    assert_eq!([seen(0), seen(1), seen(2)], [[0, 0, 0, 2, 0, 4], [0, 5, 0, 1, 6, 0], [0, 2, 1, 0, 0, 2]]);
    assert_eq!(seen(3), [c::NOT_THERE; 6]);
    unsafe {
        assert_eq!(c::kernel_port(at, words, 1), c::Port { number: 0, busy: 1, character: 69 });
        assert_eq!(c::kernel_register(at, words, 2, 6), c::Word { number: 0, word: 126 });
        assert_eq!(c::kernel_queue_length(at, words, 3, 0, 1), c::Word { number: 0, word: 2 });
        assert_eq!(c::kernel_queue_word(at, words, 3, 0, 1, 1), c::Word { number: 0, word: 800 });
        assert_eq!(c::kernel_queue_word(at, words, 3, 1, 0, 0), c::Word { number: 0, word: 65535 });
        assert_eq!(c::kernel_queue_length(at, words, 4, 0, 0), c::Word { number: 65535, word: 65535 });
        assert_eq!(c::kernel_queue_length(at, words, 0, 1, 0), c::Word { number: 65535, word: 65535 });
        assert_eq!(c::kernel_queue_length(at, words, 2, 1, 1), c::Word { number: 65535, word: 65535 });
    }
}

#[test]
fn each_field_of_a_broken_rule_stands_where_it_is_declared() {
    let mut image = peopled();
    put(&mut image, messages(1, 2), &[4]);
    let told = |image: &[u16]| unsafe { c::kernel_broken_rule(image.as_ptr(), image.len()) };
    assert_eq!(told(&image), c::Broken { number: 6, rule: 5, queue: 3, i: 1, j: 2 });
    let none = c::NOT_THERE;
    assert_eq!(told(&peopled()), c::Broken { number: 0, rule: none, queue: none, i: none, j: none });
    assert_eq!(told(&image[..17]), c::Broken { number: 1, rule: none, queue: none, i: none, j: none });
}
