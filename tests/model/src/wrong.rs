//! Records that are wrong on purpose: in each, one thing that the model says is
//! said otherwise. What replays the vectors must tell that each differs.

use crate::changes::Change;
use crate::events::Answer;
use crate::happening::scene::Scene;
use crate::image::Kernel;
use crate::looking::{self, Look};
use crate::numbers;
use crate::printing::MOST_WORDS;
use crate::reporting::{self, shares, Growth, Night};
use crate::reports::COUNTS;
use crate::translate::SCRIPT;
use crate::vectors::{self, marked};
use crate::{building, cases, happening, lists, ordering, running, texts};

/// The paper's plan, the words of its image, and a word that none of them is.
const PLAN: [u16; 9] = [1, 2, 1, 1, 1, 4, 2, 4656, 4672];
const IMAGE_WORDS: usize = 57;
const LAST: u16 = 56;
const OTHER: u16 = 51966;

/// A plan whose image is compared in more than one part, and that image's words.
const LONG_PLAN: [u16; 7] = [1, 2, 1, 1, 1, 9000, 0];
const LONG_WORDS: usize = 9053;

/// N out of range.
const PLAN_OF_NONE: [u16; 5] = [0, 2, 1, 1, 1];

/// More than the low word of a count holds.
const HIGH: usize = 65536;

const TICK: [u16; 3] = [0, 0, 0];
const LETTER: [u16; 3] = [1, 0, 65];
const DONE: [u16; 3] = [2, 0, 0];

/// First words of orders that follow one another: two that fault, and two that
/// leave 1 in R0.
const NEIGHBOURS: std::ops::RangeInclusive<u16> = 0x01FE..=0x0201;

/// Says one thing otherwise.
type Slip<C> = fn(&mut C);

/// The words that are changed, said otherwise: another word for the first and
/// for the last, either left out, the image's first word and its last too.
const CHANGES: [Slip<Vec<Change>>; 6] = [
    |changes| changes[0].1 = OTHER,
    |changes| changes.last_mut().expect("a last change").1 = OTHER,
    |changes| *changes = changes.split_off(1),
    |changes| changes.truncate(changes.len() - 1),
    |changes| changes.insert(0, (0, OTHER)),
    |changes| changes.push((LAST, OTHER)),
];

/// A right case with each of these slips.
fn each<C: Clone + PartialEq, const N: usize>(right: &C, slips: [Slip<C>; N]) -> Vec<C> {
    slips.map(|slip| slipped(right, slip)).into()
}

/// A right case with each slip in what it changes.
fn each_change<C: Clone + PartialEq>(right: &C, changes: fn(&mut C) -> &mut Vec<Change>) -> Vec<C> {
    CHANGES.map(|slip| slipped(right, |case| slip(changes(case)))).into()
}

fn slipped<C: Clone + PartialEq>(right: &C, slip: impl Fn(&mut C)) -> C {
    let mut case = right.clone();
    slip(&mut case);
    assert!(case != *right, "a slip that is none");
    case
}

/// The paper's image, fresh.
fn papers() -> Kernel {
    Scene::planned(&PLAN).kernel()
}

/// The records of checks: of each number an image that is said to have another.
pub fn checks() -> Vec<Vec<u16>> {
    let changed = |place: usize, word: u16| {
        let mut image = papers().encode();
        image[place] = word;
        image
    };
    let lists =
        [papers().encode(), vec![], changed(0, 0), changed(2, 0), changed(7, 0), changed(16, 0), changed(17, 3)];
    let wrong = (0..).zip(lists).map(|(number, words)| {
        let right = cases::Case::judged(words);
        assert_eq!(right.expected, number);
        cases::Case { expected: (number + 1) % 7, ..right }
    });
    wrong.map(|case| marked(vectors::check_record(&case))).collect()
}

/// The records of builds: the size, the numbers, and a word of the target.
pub fn builds() -> Vec<Vec<u16>> {
    let judged = |plan: &[u16], words| building::Case::judged(plan.to_vec(), words, OTHER);
    let wrong = [
        each(
            &judged(&PLAN, IMAGE_WORDS),
            [
                |case| case.size = Ok(IMAGE_WORDS + 1),
                |case| case.size = Ok(IMAGE_WORDS + HIGH),
                |case| case.target[0] = OTHER,
                |case| case.target[IMAGE_WORDS / 2] = OTHER,
                |case| case.target[IMAGE_WORDS - 1] = OTHER,
            ],
        ),
        each(
            &judged(&LONG_PLAN, LONG_WORDS),
            [
                |case| case.target[0] = OTHER,
                |case| case.target[LONG_WORDS / 2] = OTHER,
                |case| case.target[LONG_WORDS - 1] = OTHER,
            ],
        ),
        each(
            &judged(&PLAN_OF_NONE, IMAGE_WORDS),
            [|case| case.expected = numbers::PLAN, |case| case.size = Err(numbers::PLAN)],
        ),
        each(&judged(&PLAN, IMAGE_WORDS + 1), [|case| case.expected = numbers::PLAN]),
    ];
    wrong.iter().flatten().map(|case| marked(vectors::build_record(case))).collect()
}

/// The records of orders, each after its image: the outcome, each word that is
/// changed or not, and one word of a span.
pub fn orders() -> Vec<Vec<u16>> {
    let kernel = Scene::planned(&PLAN).register(0, 1, 1).kernel();
    let group = ordering::Group::judged(&kernel, kernel.base(0), NEIGHBOURS);
    let [faulted, copied] = &group.cases[..] else { panic!("two outcomes") };
    let wrong = [
        each_change(faulted, |case| &mut case.changes),
        each(faulted, [|case| case.expected = 3, |case| case.span += 1]),
        each(
            copied,
            [
                |case| case.expected = 2,
                |case| {
                    case.first -= 1;
                    case.span += 1;
                },
            ],
        ),
    ];
    let record = |case| vectors::after_image(&group.image, marked(vectors::order_record(case)));
    wrong.iter().flatten().map(record).collect()
}

/// The records of events, each after its image: number, kind and task, and each
/// word that is changed or not.
pub fn events() -> Vec<Vec<u16>> {
    let image = papers().encode();
    let judged = |event| happening::Step::judged(&mut papers(), event);
    let wrong = [
        each_change(&judged(TICK), |step| &mut step.changes),
        each(&judged(TICK), [|step| answer(step).kind = 7, |step| answer(step).task = 1]),
        each(
            &judged(DONE),
            [|step| step.outcome = Err(numbers::INPUT_FULL), |step| step.outcome = Err(numbers::EVENT)],
        ),
    ];
    let records = wrong.iter().flatten().map(vectors::event_record);
    let unanswered = [vectors::ANSWER_KIND_AT, vectors::ANSWER_TASK_AT].map(|at| {
        let mut words = vectors::event_record(&judged(DONE));
        words[at] = 0;
        words
    });
    records.chain(unanswered).map(|words| vectors::after_image(&image, marked(words))).collect()
}

/// The answer of an event that is accepted.
fn answer(step: &mut happening::Step) -> &mut Answer {
    step.outcome.as_mut().expect("an accepted event")
}

/// The records of runs, each after its image: the number, the count of events
/// taken, and each word that is changed or not.
pub fn runs() -> Vec<Vec<u16>> {
    let list = [TICK, TICK, TICK, LETTER, TICK, TICK, TICK, TICK, TICK, DONE, DONE].concat();
    let mut good = running::Course::on(papers().encode());
    let right = good.judge(list.clone());
    let counted =
        each(right, [|case| case.number = numbers::INPUT_FULL, |case| case.taken += 1, |case| case.taken += HIGH]);
    let ran = [each_change(right, |case| &mut case.changes), counted].concat();
    let mut bad = running::Course::on(vec![]);
    let refused = each(bad.judge(list), [|case| case.number = numbers::MARK_OR_EDITION, |case| case.taken = 1]);
    let records = |image: &[u16], cases: &[running::Case]| {
        let record = |case| vectors::after_image(image, marked(vectors::run_record(case)));
        cases.iter().map(record).collect::<Vec<_>>()
    };
    [records(&good.image, &ran), records(&bad.image, &refused)].concat()
}

/// The records of texts: the number, each part of the refused line, and the
/// count of words and each word.
pub fn translations() -> Vec<Vec<u16>> {
    let judged = |names: &[u8], script: &[u8]| texts::Case::judged(names.into(), script.into(), 6, OTHER);
    let wrong = [
        // The same refused line stands in both texts, and twice in each.
        each(
            &judged(b"1 1\n1 1\n", b"1 1\n1 1\n"),
            [
                |case| case.translation.number = numbers::NAME,
                |case| case.translation.text = SCRIPT,
                |case| case.translation.start = 4,
                |case| case.translation.start += HIGH,
                |case| case.translation.bytes -= 1,
                |case| case.translation.bytes += 1,
                |case| case.translation.bytes += HIGH,
            ],
        ),
        each(
            &judged(b"", b"7\n8\n9\n"),
            [
                |case| case.translation.text = SCRIPT,
                |case| case.translation.start = 2,
                |case| case.translation.bytes = 1,
                |case| case.translation.words[0] = OTHER,
                |case| case.translation.words[1] = OTHER,
                |case| case.translation.words[2] = OTHER,
                |case| case.translation.words.push(building::filled(4, OTHER)[3]),
            ],
        ),
    ];
    wrong.iter().flatten().map(|case| marked(vectors::text_record(case))).collect()
}

/// The records of prints: both numbers, both counts of bytes, and bytes of the
/// text.
pub fn prints() -> Vec<Vec<u16>> {
    let judged = |words: &[u16], room| lists::Case::judged(words.into(), room, OTHER);
    let wrong = [
        // Eight bytes of text, and room for more.
        each(
            &judged(&[4656, 7], 10),
            [
                |case| case.number = numbers::ROOM,
                |case| case.size_number = numbers::ROOM,
                |case| case.needed -= 1,
                |case| case.needed += 1,
                |case| case.needed += HIGH,
                |case| case.text[0] = b'o',
                |case| case.text[4] = b'T',
                |case| *case.text.last_mut().expect("a last byte") = b'\r',
                |case| case.text.truncate(case.text.len() - 1),
                |case| case.text.push(lists::filled(case.room, OTHER)[case.text.len()]),
            ],
        ),
        // As it is said, its last line is the first again.
        each(&judged(&[7, 7, 7, 8], 8), [|case| case.text[6] = b'7']),
        each(
            &judged(&[4656, 7], 7),
            [
                |case| case.number = numbers::GOOD,
                |case| case.size_number = numbers::ROOM,
                |case| case.needed = 7,
                |case| case.text = lists::filled(1, OTHER),
            ],
        ),
        each(
            &judged(&[0; MOST_WORDS + 1], 5),
            [|case| case.number = numbers::GOOD, |case| case.size_number = numbers::GOOD, |case| case.needed = 5],
        ),
    ];
    wrong.iter().flatten().map(|case| marked(vectors::print_record(case))).collect()
}

/// Looks at what is there in the paper's image and at what is not, and how many
/// fields each gives.
const LOOKS: [(Look, usize); 10] = [
    (Look::Task { task: 0 }, 5),
    (Look::Task { task: 1 }, 5),
    (Look::Port { device: 0 }, 2),
    (Look::Port { device: 1 }, 2),
    (Look::Register { task: 0, register: 1 }, 1),
    (Look::Register { task: 0, register: 8 }, 1),
    (Look::QueueLength { queue: 0, i: 0, j: 0 }, 1),
    (Look::QueueLength { queue: 4, i: 0, j: 0 }, 1),
    (Look::QueueWord { queue: 0, i: 0, j: 0, at: 0 }, 1),
    (Look::QueueWord { queue: 0, i: 0, j: 0, at: 1 }, 1),
];
const RULE_FIELDS: usize = 4;

/// The records of looks that tell no rule, each after its image: the number and
/// each field, of what is there, of what is not, and of a bad image.
pub fn looks() -> Vec<Vec<u16>> {
    let there = LOOKS.map(|(look, fields)| each_field(&papers().encode(), look, fields));
    let bad = LOOKS.map(|(look, fields)| each_field(&[], look, fields));
    [there, bad].concat().concat()
}

/// The records of broken rules, each after its image: the number and each field
/// of a good image, of one that is refused before its rules, and of rules of a
/// task, of a queue and of the clock.
pub fn broken() -> Vec<Vec<u16>> {
    let changed = |place: usize, word: u16| {
        let mut image = Scene::of(2).kernel().encode();
        image[place] = word;
        image
    };
    // The last three: cc of task 1, the capacity from task 1 to task 0, the clock.
    let images = [papers().encode(), vec![], changed(35, 3), changed(85, 1), changed(17, 6)];
    images.map(|image| each_field(&image, Look::BrokenRule, RULE_FIELDS)).concat()
}

/// A look into an image with its number and each of its fields said otherwise.
fn each_field(image: &[u16], look: Look, fields: usize) -> Vec<Vec<u16>> {
    let right = looking::Case { look, seen: look.seen_in(image) };
    let mut wrong = vec![slipped(&right, |case| case.seen.number = another_number(case.seen.number))];
    wrong.extend((0..fields).map(|field| slipped(&right, |case| case.seen.fields[field] ^= 1)));
    wrong.iter().map(|case| vectors::after_image(image, marked(vectors::look_record(case)))).collect()
}

/// Another number that a look may have.
fn another_number(number: u16) -> u16 {
    match number {
        numbers::NOT_THERE => numbers::GOOD,
        numbers::OTHER_RULE => numbers::SEGMENT_OR_TOTAL,
        _ => number + 1,
    }
}

/// The counts that grow, said otherwise: another number for the first and for
/// the last, in its low word and in its high one, either left out, and one too
/// many.
const GROWTHS: [Slip<Vec<Growth>>; 7] = [
    |grown| grown[0].1 += 1,
    |grown| grown[0].1 += 65536,
    |grown| grown.last_mut().expect("a last count").1 += 1,
    |grown| grown.last_mut().expect("a last count").1 += 65536,
    |grown| *grown = grown.split_off(1),
    |grown| grown.truncate(grown.len() - 1),
    |grown| grown.insert(4, (4, 1)),
];

/// The records of reports, each after its counts and its image: the number, the
/// count of events taken, and each word and each count that is changed or not.
pub fn reports() -> Vec<Vec<u16>> {
    let list = [TICK, TICK, TICK, LETTER, TICK, TICK, TICK, TICK, TICK, DONE, DONE].concat();
    let zeros = vec![0; COUNTS];
    let image = papers().encode();
    let good = each_report(&zeros, &image, &list, |right| {
        let numbered: [Slip<reporting::Case>; 4] = [
            |case| case.number = numbers::INPUT_FULL,
            |case| case.number = numbers::COUNT_FULL,
            |case| case.taken += 1,
            |case| case.taken += HIGH,
        ];
        let grown = GROWTHS.map(|slip| slipped(right, |case| slip(&mut case.grown)));
        [each(right, numbered), each_change(right, |case| &mut case.changes), grown.into()].concat()
    });
    let refused: fn(&reporting::Case) -> Vec<reporting::Case> = |right| {
        let slips: [Slip<reporting::Case>; 6] = [
            |case| case.number = numbers::MARK_OR_EDITION,
            |case| case.number = numbers::GOOD,
            |case| case.taken += 1,
            |case| case.grown.push((0, OTHER.into())),
            |case| case.grown.push((95, OTHER.into())),
            |case| case.grown.push((95, u32::MAX - 1)),
        ];
        each(right, slips)
    };
    let full = vec![u32::MAX; COUNTS];
    let stopped = each_report(&full, &image, &list, refused);
    let bad = each_report(&zeros, &[], &list, refused);
    let length = each_report(&full[1..], &image, &list, refused);
    [good, stopped, bad, length].concat()
}

/// The wrong records of a report on these counts and this image.
fn each_report(
    counts: &[u32],
    image: &[u16],
    list: &[u16],
    slips: impl Fn(&reporting::Case) -> Vec<reporting::Case>,
) -> Vec<Vec<u16>> {
    let mut night = Night::from(counts.to_vec()).on(image.to_vec());
    let wrong = slips(night.judge(list.to_vec()));
    let record = |case| vectors::after_image(image, marked(vectors::report_record(case)));
    wrong.iter().map(|case| vectors::after_counts(counts, record(case))).collect()
}

/// Where a record of a share has its bits, and how many words they are.
const BITS_AT: usize = 4;
const BITS_WORDS: usize = 4;

/// The records of shares, each after its counts: the answer and each word of the
/// bits, of a share, of none, and of a task that no image has.
pub fn shares() -> Vec<Vec<u16>> {
    let thirds: Vec<u32> = [1].into_iter().chain([0; COUNTS - 2]).chain([2]).collect();
    let groups = [(thirds.clone(), 0), (thirds.clone(), 16), (vec![0; COUNTS], 0), (thirds[1..].to_vec(), 0)];
    let each = |(counts, task): (Vec<u32>, u16)| {
        let group = shares::Group::judged(counts, vec![task]);
        let right = vectors::share_record(&group.cases[0]);
        let places = std::iter::once(1).chain(BITS_AT..BITS_AT + BITS_WORDS);
        let wrong = places.map(|place| slipped(&right, |words| words[place] ^= 1));
        wrong.map(|words| vectors::after_counts(&group.counts, marked(words))).collect::<Vec<_>>()
    };
    groups.into_iter().flat_map(each).collect()
}

#[cfg(test)]
mod tests {
    use super::*;

    #[test]
    fn a_wrong_record_is_marked_and_stands_after_its_own_image() {
        let image = papers().encode().len();
        for (kind, records) in [(1, checks()), (2, builds()), (7, translations()), (8, prints())] {
            assert!(records.iter().all(|words| words[0] == 256 + kind));
        }
        for (kind, records) in [(4, orders()), (5, events())] {
            assert!(records.iter().all(|words| (words[0], words[4 + image]) == (3, 256 + kind)));
        }
        for records in [looks(), broken()] {
            assert!(records.iter().all(|words| (words[0], words[4 + usize::from(words[2])]) == (3, 256 + 9)));
        }
        assert!(runs().iter().all(|words| (words[0], words[4 + usize::from(words[2])]) == (3, 256 + 6)));
        for (words, kind) in reports().iter().map(|words| (words, 3)).chain(shares().iter().map(|words| (words, 268))) {
            assert_eq!((words[0], words[4 + 2 * usize::from(words[2])]), (10, kind));
        }
    }

    /// One word more that is right: only the count is wrong.
    #[test]
    fn the_word_past_a_script_is_the_targets_own() {
        let records = translations();
        let [.., three, four] = &records[..] else { panic!("two records") };
        assert_eq!((three[14], four[14]), (3, 4));
        assert_eq!(four.last(), Some(&word_of_target(3)));
    }

    fn word_of_target(place: usize) -> u16 {
        ((31 * place + usize::from(OTHER)) % 65536) as u16
    }
    /// One byte more that is the buffer's own: only the count is wrong.
    #[test]
    fn the_byte_past_a_text_is_the_buffers_own() {
        let records = prints();
        let [.., shorter, longer] = &records[..10] else { panic!("ten records of one text") };
        assert_eq!((shorter[12], longer[12]), (7, 9));
        assert_eq!(longer.last(), Some(&((31 * 8 + OTHER) % 256)));
    }

    /// A part of the text is stored, and only a byte past it is wrong.
    #[test]
    fn the_wrong_byte_of_a_text_may_not_be_stored() {
        let record = &prints()[10];
        assert_eq!(record[12..16], [8, 0, 2, 0]);
        assert_eq!(record.last(), Some(&0x0A37));
    }
}
