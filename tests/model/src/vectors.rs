//! The file of vectors: little-endian 16-bit words, one record after another
//! until the end of the file. A count is two words, low and high 16 bits.
//!
//! A record that is wrong on purpose has 256 more in its first word. After one
//! on an image comes another image, or the end.
//!
//! A record of kind 1, the check of an image:
//!
//! | word of a record | holds |
//! |---|---|
//! | 0 | kind of the record, 1 |
//! | 1 | expected number |
//! | 2, 3 | count of image words |
//! | 4.. | the image's words |
//!
//! A record of kind 2, the size and the build of a plan:
//!
//! | word of a record | holds |
//! |---|---|
//! | 0 | kind of the record, 2 |
//! | 1 | expected number of the build: 0, 3, 11 or 12 |
//! | 2, 3 | count of plan words |
//! | 4, 5 | count of target words |
//! | 6 | salt: before the build, word k of the target is (31k + salt) mod 65536 |
//! | 7 | expected number of the size call: 0, 3 or 11 |
//! | 8, 9 | the size that the size call gives, 0 where it refuses |
//! | 10.. | the plan's words |
//! | then | where word 1 is 0, the target's words after the build |
//!
//! A refused build leaves the target as it was, so nothing more is stored.
//!
//! A record of kind 3, an image to go by until the next record of kind 3:
//!
//! | word of a record | holds |
//! |---|---|
//! | 0 | kind of the record, 3 |
//! | 1 | 0 |
//! | 2, 3 | count of image words |
//! | 4.. | the image's words |
//!
//! A record of kind 4, one order of that image's first ready task, with each
//! of some neighbouring words at one place:
//!
//! | word of a record | holds |
//! |---|---|
//! | 0 | kind of the record, 4 |
//! | 1 | expected outcome: 0 done, 1 to 4 the error |
//! | 2, 3 | span, how many words: 1 to 65536 |
//! | 4 | the place in the image |
//! | 5 | the first of the words |
//! | 6 | k, how many words the order changes |
//! | 7.. | k pairs: a place, ascending, and its new word |
//!
//! A record of kind 5, an event on the image that stands, which is then the
//! image with the changed words:
//!
//! | word of a record | holds |
//! |---|---|
//! | 0 | kind of the record, 5 |
//! | 1 | expected number: 0 accepted, or 7 to 9 |
//! | 2, 3 | k, how many words the event changes |
//! | 4, 5, 6 | the event: kind, device and character |
//! | 7, 8 | the answer's kind and task; 65535 twice where it is refused |
//! | 9.. | k pairs: a place, ascending, and its new word |
//!
//! A record of kind 6, a run on the image that stands, which is then the image
//! with the changed words. Here the image of kind 3 may be a bad one:
//!
//! | word of a record | holds |
//! |---|---|
//! | 0 | kind of the record, 6 |
//! | 1 | expected number: 0, or 1 to 9 |
//! | 2, 3 | count of the list's words |
//! | 4, 5 | how many events are taken |
//! | 6, 7 | k, how many words the run changes |
//! | 8.. | the list's words |
//! | then | k pairs: a place, ascending, and its new word |
//!
//! A record of kind 7, the translation of a script with its names:
//!
//! | word of a record | holds |
//! |---|---|
//! | 0 | kind of the record, 7 |
//! | 1 | expected number: 0, or 13 to 16 |
//! | 2, 3 | count of the names' bytes |
//! | 4, 5 | count of the script's bytes |
//! | 6, 7 | count of target words |
//! | 8 | salt: before the call, word k of the target is (31k + salt) mod 65536 |
//! | 9 | the text of the refused line: 0 names, 1 script; 65535 where none is |
//! | 10, 11 | where the refused line begins in its text, 0 where none is |
//! | 12, 13 | its count of bytes, 0 where none is |
//! | 14, 15 | count of the script's words, 0 where a line is refused |
//! | 16.. | the names' bytes, two to a word, low byte first, a last odd one with 0 |
//! | then | the script's bytes in the same way |
//! | then | the script's words, from the target's first place on |
//!
//! A record of kind 8, a list of words printed back, and the size of its text:
//!
//! | word of a record | holds |
//! |---|---|
//! | 0 | kind of the record, 8 |
//! | 1 | expected number of the print: 0 or 16 |
//! | 2, 3 | count of the list's words |
//! | 4, 5 | how many of them are stored |
//! | 6, 7 | count of the buffer's bytes |
//! | 8 | salt: before the call, byte k of the buffer is (31k + salt) mod 256 |
//! | 9 | expected number of the size call: 0 or 16 |
//! | 10, 11 | the bytes that the size call gives, 0 where it refuses |
//! | 12, 13 | count of the text's bytes, 0 where the print is refused |
//! | 14, 15 | how many of them are stored |
//! | 16.. | the stored words of the list |
//! | then | the stored bytes of the text, two to a word, as in kind 7 |
//!
//! What is stored of a list or of a text is all of it, or a first part that
//! gives all of it when it is repeated.
//!
//! A record of kind 9, a look into the image that stands, which may be bad:
//!
//! | word of a record | holds |
//! |---|---|
//! | 0 | kind of the record, 9 |
//! | 1 | expected number: 0 to 6, or 65535 |
//! | 2, 3 | the call: 0 task, 1 port, 2 register, 3 length and 4 word of a queue, 5 broken rule |
//! | 4..7 | what it is asked with, in the call's order, then 0 |
//! | 8..12 | the expected fields beside the number, in the call's order, then 0 |
//!
//! A record of kind 10, counts to go by until the next record of kind 10:
//!
//! | word of a record | holds |
//! |---|---|
//! | 0 | kind of the record, 10 |
//! | 1 | 0 |
//! | 2, 3 | how many counts there are |
//! | 4.. | the counts, each two words |
//!
//! A record of kind 11, a run that counts, on the image and the counts that
//! stand, which are then those with the changes. Either may be bad:
//!
//! | word of a record | holds |
//! |---|---|
//! | 0 | kind of the record, 11 |
//! | 1 | expected number: 0, 1 to 9, 12 or 17 |
//! | 2, 3 | count of the list's words |
//! | 4, 5 | how many events are taken |
//! | 6, 7 | k, how many words of the image change |
//! | 8, 9 | m, how many counts change |
//! | 10.. | the list's words |
//! | then | k pairs: a place, ascending, and its new word |
//! | then | m threes: the place of a count, ascending, and the two words of what it then is |
//!
//! A record of kind 12, a task's share by the counts that stand:
//!
//! | word of a record | holds |
//! |---|---|
//! | 0 | kind of the record, 12 |
//! | 1 | expected answer: 1 where there is a share, else 0 |
//! | 2, 3 | the task, and 0 |
//! | 4..7 | the 64 bits of what the share's place holds afterwards, low ones first |
//!
//! Before the call that place holds -1.5, and still does where there is none.

use crate::changes::Change;
use crate::layout::word;
use crate::reporting::{self, shares, Growth};
use crate::{building, cases, happening, lists, looking, numbers, ordering, running, texts};

/// The kind of record that holds a list of words and the check's number.
pub const CHECK: u16 = 1;
/// The kind of record that holds a plan, its size and its build.
pub const BUILD: u16 = 2;
/// The kind of record that holds an image for the records after it.
pub const IMAGE: u16 = 3;
/// The kind of record that holds an order's outcome and changes.
pub const ORDER: u16 = 4;
/// The kind of record that holds an event's outcome and changes.
pub const EVENT: u16 = 5;
/// The kind of record that holds a list of events and what its run comes to.
pub const RUN: u16 = 6;
/// The kind of record that holds a script, its names and their translation.
pub const TEXT: u16 = 7;
/// The kind of record that holds a list and what it is printed to.
pub const PRINT: u16 = 8;
/// The kind of record that holds a look into an image and what it gives.
pub const LOOK: u16 = 9;
/// The kind of record that holds counts for the records after it.
pub const COUNTS: u16 = 10;
/// The kind of record that holds a list of events and what its report comes to.
pub const REPORT: u16 = 11;
/// The kind of record that holds a task and its share.
pub const SHARE: u16 = 12;

/// Added to the kind of a record that is wrong on purpose.
const WRONG: u16 = 256;

/// Where an event's record has the answer's kind and its task.
pub const ANSWER_KIND_AT: usize = 7;
pub const ANSWER_TASK_AT: usize = 8;

/// The most changes of one order or one event.
pub const MOST_CHANGES: usize = 16;

/// The longest part that is repeated for a list or a text.
const LONGEST_PART: usize = 32;

/// What stands for both words of the answer that a refused event has not.
const NO_ANSWER: u16 = 65535;

/// What stands in the place of a share before the call.
pub const UNWRITTEN: f64 = -1.5;

/// The bytes of these cases, each as its record.
pub fn encode<C>(cases: &[C], record: fn(&C) -> Vec<u16>) -> Vec<u8> {
    cases.iter().flat_map(record).flat_map(u16::to_le_bytes).collect()
}

/// The bytes of a file that holds these cases, and then the wrong records.
pub fn encode_with<C>(cases: &[C], record: fn(&C) -> Vec<u16>, wrong: &[Vec<u16>]) -> Vec<u8> {
    [encode(cases, record), encode(wrong, Vec::clone)].concat()
}

/// The record with the mark of one that is wrong on purpose.
pub fn marked(mut record: Vec<u16>) -> Vec<u16> {
    record[0] += WRONG;
    record
}

/// A record of kind 3, and one on its image.
pub fn after_image(image: &[u16], record: Vec<u16>) -> Vec<u16> {
    [image_record(image), record].concat()
}

/// A record of kind 10, and one or more that go by its counts.
pub fn after_counts(counts: &[u32], records: Vec<u16>) -> Vec<u16> {
    [counts_record(counts), records].concat()
}

/// The words of a record of kind 1.
pub fn check_record(case: &cases::Case) -> Vec<u16> {
    let mut words = vec![CHECK, case.expected];
    words.extend(count(case.words.len()));
    words.extend(&case.words);
    words
}

/// The words of a record of kind 2.
pub fn build_record(case: &building::Case) -> Vec<u16> {
    let mut words = vec![BUILD, case.expected];
    words.extend(count(case.plan.len()));
    words.extend(count(case.target.len()));
    words.extend([case.salt, case.size.err().unwrap_or(numbers::GOOD)]);
    words.extend(count(case.size.unwrap_or(0)));
    words.extend(&case.plan);
    if case.expected == numbers::GOOD {
        words.extend(&case.target);
    }
    words
}

/// The words of a record of kind 3 and of its records of kind 4.
pub fn order_records(group: &ordering::Group) -> Vec<u16> {
    let mut words = image_record(&group.image);
    words.extend(group.cases.iter().flat_map(order_record));
    words
}

/// The words of a record of kind 3 and of its records of kind 5.
pub fn event_records(sequence: &happening::Sequence) -> Vec<u16> {
    let mut words = image_record(&sequence.image);
    words.extend(sequence.steps.iter().flat_map(event_record));
    words
}

/// The words of a record of kind 3 and of its records of kind 6.
pub fn run_records(course: &running::Course) -> Vec<u16> {
    let mut words = image_record(&course.image);
    words.extend(course.cases.iter().flat_map(run_record));
    words
}

/// The words of a record of kind 3 and of its records of kind 9.
pub fn look_records(group: &looking::Group) -> Vec<u16> {
    let mut words = image_record(&group.image);
    words.extend(group.cases.iter().flat_map(look_record));
    words
}

/// The words of a record of kind 10, and of its records of kind 3 and 11.
pub fn report_records(night: &reporting::Night) -> Vec<u16> {
    let mut words = counts_record(&night.counts);
    for course in &night.courses {
        words.extend(image_record(&course.image));
        words.extend(course.cases.iter().flat_map(report_record));
    }
    words
}

/// The words of a record of kind 10 and of its records of kind 12.
pub fn share_records(group: &shares::Group) -> Vec<u16> {
    let mut words = counts_record(&group.counts);
    words.extend(group.cases.iter().flat_map(share_record));
    words
}

/// The words of a record of kind 10.
fn counts_record(counts: &[u32]) -> Vec<u16> {
    let mut words = vec![COUNTS, 0];
    words.extend(count(counts.len()));
    words.extend(counts.iter().flat_map(|&number| halves(number)));
    words
}

/// The words of a record of kind 3.
fn image_record(image: &[u16]) -> Vec<u16> {
    let mut words = vec![IMAGE, 0];
    words.extend(count(image.len()));
    words.extend(image);
    words
}

/// The words of a record of kind 4.
pub fn order_record(case: &ordering::Case) -> Vec<u16> {
    let mut words = vec![ORDER, case.expected];
    words.extend(count(case.span));
    words.extend([word(case.place), case.first, word(case.changes.len())]);
    words.extend(few_pairs(&case.changes));
    words
}

/// The words of a record of kind 5.
pub fn event_record(step: &happening::Step) -> Vec<u16> {
    let mut words = vec![EVENT, step.outcome.err().unwrap_or(numbers::GOOD)];
    words.extend(count(step.changes.len()));
    words.extend(step.event);
    words.extend(step.outcome.map_or([NO_ANSWER; 2], |answer| [answer.kind, answer.task]));
    words.extend(few_pairs(&step.changes));
    words
}

/// The words of a record of kind 6.
pub fn run_record(case: &running::Case) -> Vec<u16> {
    let mut words = vec![RUN, case.number];
    words.extend(count(case.list.len()));
    words.extend(count(case.taken));
    words.extend(count(case.changes.len()));
    words.extend(&case.list);
    words.extend(pairs(&case.changes));
    words
}

/// The words of a record of kind 7.
pub fn text_record(case: &texts::Case) -> Vec<u16> {
    let found = &case.translation;
    let mut words = vec![TEXT, found.number];
    words.extend([case.names.len(), case.script.len(), case.room].map(count).concat());
    words.extend([case.salt, found.text]);
    words.extend([found.start, found.bytes, found.words.len()].map(count).concat());
    words.extend(packed(&case.names));
    words.extend(packed(&case.script));
    words.extend(&found.words);
    words
}

/// The words of a record of kind 8.
pub fn print_record(case: &lists::Case) -> Vec<u16> {
    let (list, text) = (repeated_part(&case.words), repeated_part(&case.text));
    let mut words = vec![PRINT, case.number];
    words.extend([case.words.len(), list.len(), case.room].map(count).concat());
    words.extend([case.salt, case.size_number]);
    words.extend([case.needed, case.text.len(), text.len()].map(count).concat());
    words.extend(list);
    words.extend(packed(text));
    words
}

/// The words of a record of kind 9.
pub fn look_record(case: &looking::Case) -> Vec<u16> {
    let mut words = vec![LOOK, case.seen.number];
    words.extend(count(case.look.call()));
    words.extend(case.look.asked());
    words.extend(case.seen.fields);
    words
}

/// The words of a record of kind 11.
pub fn report_record(case: &reporting::Case) -> Vec<u16> {
    let mut words = vec![REPORT, case.number];
    words.extend([case.list.len(), case.taken, case.changes.len(), case.grown.len()].map(count).concat());
    words.extend(&case.list);
    words.extend(pairs(&case.changes));
    words.extend(case.grown.iter().flat_map(threes));
    words
}

/// The words of a record of kind 12.
pub fn share_record(case: &shares::Case) -> Vec<u16> {
    let mut words = vec![SHARE, case.share.is_some().into()];
    words.extend([case.task, 0]);
    words.extend(quarters(case.share.unwrap_or(UNWRITTEN).to_bits()));
    words
}

/// The shortest first part that gives all when it is repeated, where that is
/// short; else all.
fn repeated_part<T: PartialEq>(all: &[T]) -> &[T] {
    let gives_all = |part: &usize| all.iter().zip(&all[*part..]).all(|(early, late)| early == late);
    let shortest = (1..=all.len().min(LONGEST_PART)).find(gives_all);
    &all[..shortest.unwrap_or(all.len())]
}

/// Bytes two to a word, low byte first; a last odd one stands with 0.
fn packed(bytes: &[u8]) -> impl Iterator<Item = u16> + '_ {
    bytes.chunks(2).map(|two| u16::from_le_bytes([two[0], *two.get(1).unwrap_or(&0)]))
}

/// Each place and its new word, of an order or an event.
fn few_pairs(changes: &[Change]) -> impl Iterator<Item = u16> + '_ {
    assert!(changes.len() <= MOST_CHANGES, "{} changes at once", changes.len());
    pairs(changes)
}

/// Each place and its new word.
fn pairs(changes: &[Change]) -> impl Iterator<Item = u16> + '_ {
    changes.iter().flat_map(|&(place, new)| [place, new])
}

/// The place of a count, and what it then is.
fn threes(&(place, new): &Growth) -> [u16; 3] {
    let [low, high] = halves(new);
    [place, low, high]
}

/// A count as two words, low and high 16 bits.
fn count(number: usize) -> [u16; 2] {
    halves(u32::try_from(number).expect("a count is under 2^32"))
}

/// Low and high 16 bits.
fn halves(number: u32) -> [u16; 2] {
    [number as u16, (number >> 16) as u16]
}

/// Four times 16 bits, low ones first.
fn quarters(bits: u64) -> [u16; 4] {
    [0, 16, 32, 48].map(|low| (bits >> low) as u16)
}

#[cfg(test)]
mod tests {
    use super::*;
    use crate::events::Answer;

    fn check_bytes(words: Vec<u16>) -> Vec<u8> {
        encode(&[cases::Case::judged(words)], check_record)
    }

    fn build_words(plan: &[u16], target_words: usize) -> Vec<u16> {
        build_record(&building::Case::judged(plan.to_vec(), target_words, 500))
    }

    #[test]
    fn a_record_has_its_head_and_its_words_low_byte_first() {
        assert_eq!(check_bytes(vec![0x1234, 7]), [1, 0, 1, 0, 2, 0, 0, 0, 0x34, 0x12, 7, 0]);
    }

    #[test]
    fn a_long_image_has_its_count_in_two_words() {
        let bytes = check_bytes(vec![0; 65537]);
        assert_eq!(bytes[..8], [1, 0, 2, 0, 1, 0, 1, 0]);
        assert_eq!(bytes.len(), 8 + 2 * 65537);
    }

    #[test]
    fn an_accepted_build_has_its_target_after_the_plan() {
        let words = build_words(&[1, 1, 1, 1, 1, 1, 1, 77], 54);
        assert_eq!(words[..10], [2, 0, 8, 0, 54, 0, 500, 0, 54, 0]);
        assert_eq!(words[10..20], [1, 1, 1, 1, 1, 1, 1, 77, 19284, 1]);
        assert_eq!(words.len(), 10 + 8 + 54);
        assert_eq!(words.last(), Some(&77));
    }

    #[test]
    fn a_refused_build_ends_with_its_plan() {
        let wrong_target = build_words(&[1, 1, 1, 1, 1, 1, 0], 54 + 65536);
        assert_eq!(wrong_target, [2, 12, 7, 0, 54, 1, 500, 0, 54, 0, 1, 1, 1, 1, 1, 1, 0]);
        let out_of_range = build_words(&[1, 0, 1, 1, 1], 54);
        assert_eq!(out_of_range, [2, 3, 5, 0, 54, 0, 500, 3, 0, 0, 1, 0, 1, 1, 1]);
        assert_eq!(build_words(&[], 0), [2, 11, 0, 0, 0, 0, 500, 11, 0, 0]);
    }

    #[test]
    fn the_cases_of_an_image_follow_it() {
        let stored = |place, first, changes: &[(u16, u16)]| ordering::Case {
            expected: 0,
            span: 1,
            place,
            first,
            changes: changes.to_vec(),
        };
        let unknown = ordering::Case { expected: 2, span: 65536, ..stored(8, 0, &[(1, 9)]) };
        let cases = vec![unknown, stored(32767, 65535, &[]), stored(8, 7, &[(0, 4), (2, 5)])];
        let words = order_records(&ordering::Group { image: vec![50, 60, 70], cases });
        let by_hand: [&[u16]; 4] = [
            &[3, 0, 3, 0, 50, 60, 70],
            &[4, 2, 0, 1, 8, 0, 1, 1, 9],
            &[4, 0, 1, 0, 32767, 65535, 0],
            &[4, 0, 1, 0, 8, 7, 2, 0, 4, 2, 5],
        ];
        assert_eq!(words, by_hand.concat());
    }

    #[test]
    fn the_events_of_an_image_follow_it() {
        let step = |event, outcome, changes: &[Change]| happening::Step { event, outcome, changes: changes.to_vec() };
        let steps = vec![
            step([0, 0, 0], Ok(Answer { kind: 6, task: 15 }), &[(17, 4), (18, 300)]),
            step([1, 3, 256], Err(7), &[]),
            step([0, 0, 0], Ok(Answer { kind: 0, task: 0 }), &[]),
        ];
        let words = event_records(&happening::Sequence { image: vec![50, 60], steps });
        let by_hand: [&[u16]; 4] = [
            &[3, 0, 2, 0, 50, 60],
            &[5, 0, 2, 0, 0, 0, 0, 6, 15, 17, 4, 18, 300],
            &[5, 7, 0, 0, 1, 3, 256, 65535, 65535],
            &[5, 0, 0, 0, 0, 0, 0, 0, 0],
        ];
        assert_eq!(words, by_hand.concat());
    }

    #[test]
    fn the_runs_of_an_image_follow_it() {
        let case = |list: &[u16], taken, number, changes: &[Change]| running::Case {
            list: list.to_vec(),
            taken,
            number,
            changes: changes.to_vec(),
        };
        let many: Vec<Change> = (0..17).map(|place| (place, 9)).collect();
        let cases = vec![
            case(&[0, 0, 0, 1, 3, 256], 1, 7, &[(17, 4), (18, 300)]),
            case(&[], 0, 0, &[]),
            case(&[0; 3], 65537, 0, &many),
        ];
        let words = run_records(&running::Course { image: vec![50, 60], cases, stands: vec![] });
        let by_hand: [&[u16]; 5] = [
            &[3, 0, 2, 0, 50, 60],
            &[6, 7, 6, 0, 1, 0, 2, 0, 0, 0, 0, 1, 3, 256, 17, 4, 18, 300],
            &[6, 0, 0, 0, 0, 0, 0, 0],
            &[6, 0, 3, 0, 1, 1, 17, 0, 0, 0, 0],
            &(0..17).flat_map(|place| [place, 9]).collect::<Vec<_>>(),
        ];
        assert_eq!(words, by_hand.concat());
    }

    fn text_words(names: &[u8], script: &[u8], room: usize) -> Vec<u16> {
        text_record(&texts::Case::judged(names.into(), script.into(), room, 500))
    }

    #[test]
    fn an_accepted_text_has_its_words_after_both_texts() {
        let by_hand: [&[u16]; 4] = [
            &[7, 0, 3, 0, 5, 0, 4, 1, 500, 65535, 0, 0, 0, 0, 2, 0],
            &[0x3D61, 0x0039],
            &[0x0A61, 0x2061, 0x000A],
            &[9, 9],
        ];
        assert_eq!(text_words(b"a=9", b"a\na \n", 65540), by_hand.concat());
        let empty = [7, 0, 0, 0, 0, 0, 0, 0, 500, 65535, 0, 0, 0, 0, 0, 0];
        assert_eq!(text_words(b"", b"", 0), empty);
    }

    #[test]
    fn a_refused_text_has_its_line_and_ends_with_the_script() {
        let by_hand: [&[u16]; 3] =
            [&[7, 14, 3, 0, 6, 0, 4, 0, 500, 1, 2, 0, 3, 0, 0, 0], &[0x3D61, 0x0039], &[0x0A61, 0x3B62, 0x0AFF]];
        assert_eq!(text_words(b"a=9", b"a\nb;\xFF\n", 4), by_hand.concat());
    }
    fn print_words(list: &[u16], room: usize) -> Vec<u16> {
        print_record(&lists::Case::judged(list.to_vec(), room, 500))
    }

    #[test]
    fn a_printed_list_has_its_text_after_its_words() {
        let by_hand: [&[u16]; 3] =
            [&[8, 0, 2, 0, 2, 0, 4, 1, 500, 0, 7, 0, 7, 0, 7, 0], &[7, 6200], &[0x0A37, 0x3236, 0x3030, 0x000A]];
        assert_eq!(print_words(&[7, 6200], 65540), by_hand.concat());
        assert_eq!(print_words(&[], 0), [8, 0, 0, 0, 0, 0, 0, 0, 500, 0, 0, 0, 0, 0, 0, 0]);
    }

    #[test]
    fn a_refused_list_ends_with_its_words() {
        let short = [8, 16, 2, 0, 2, 0, 3, 0, 500, 0, 6, 0, 0, 0, 0, 0, 7, 100];
        assert_eq!(print_words(&[7, 100], 3), short);
        let long = [8, 16, 1, 1, 1, 0, 3, 0, 500, 16, 0, 0, 0, 0, 0, 0, 7];
        assert_eq!(print_words(&[7; 65537], 3), long);
    }

    #[test]
    fn a_part_that_is_repeated_is_stored_once() {
        assert_eq!(print_words(&[7, 8, 7, 8, 7], 10)[..16], [8, 0, 5, 0, 2, 0, 10, 0, 500, 0, 10, 0, 10, 0, 4, 0]);
        assert_eq!(print_words(&[7, 8, 7, 8, 7], 10)[16..], [7, 8, 0x0A37, 0x0A38]);
        assert_eq!(repeated_part::<u16>(&[]), []);
        assert_eq!(repeated_part(&[5, 5, 5]), [5]);
        assert_eq!(repeated_part(&[5, 5, 6]), [5, 5, 6]);
        assert_eq!(repeated_part(&[5, 6, 5]), [5, 6]);
    }

    #[test]
    fn the_looks_of_an_image_follow_it() {
        let looks = vec![looking::Look::QueueWord { queue: 3, i: 1, j: 65535, at: 9 }, looking::Look::BrokenRule];
        let words = look_records(&looking::Group::judged(vec![50, 60], looks));
        let by_hand: [&[u16]; 3] = [
            &[3, 0, 2, 0, 50, 60],
            &[9, 1, 4, 0, 3, 1, 65535, 9, 65535, 0, 0, 0, 0],
            &[9, 1, 5, 0, 0, 0, 0, 0, 65535, 65535, 65535, 65535, 0],
        ];
        assert_eq!(words, by_hand.concat());
    }

    #[test]
    fn the_reports_of_a_night_follow_its_counts_and_their_images() {
        let case = reporting::Case {
            list: vec![0, 0, 0, 1, 3, 256],
            taken: 1,
            number: 17,
            changes: vec![(17, 4), (18, 300)],
            grown: vec![(0, 1), (96, 4294967294)],
        };
        let course = |image: &[u16], cases| reporting::Course { image: image.to_vec(), cases, stands: vec![] };
        let courses = vec![course(&[50], vec![]), course(&[60, 70], vec![case])];
        let words = report_records(&reporting::Night { counts: vec![5, 65536], courses, stands: vec![] });
        let by_hand: [&[u16]; 4] = [
            &[10, 0, 2, 0, 5, 0, 0, 1],
            &[3, 0, 1, 0, 50],
            &[3, 0, 2, 0, 60, 70],
            &[11, 17, 6, 0, 1, 0, 2, 0, 2, 0, 0, 0, 0, 1, 3, 256, 17, 4, 18, 300, 0, 1, 0, 96, 65534, 65535],
        ];
        assert_eq!(words, by_hand.concat());
    }

    /// 0.875 is 1.75 halves: 0x3FEC and zeros. -1.5 is 0xBFF8 and zeros.
    #[test]
    fn the_shares_of_counts_follow_them() {
        let counts: Vec<u32> = [7].into_iter().chain([0; 95]).chain([1]).collect();
        let words = share_records(&shares::Group::judged(counts, vec![0, 16]));
        assert_eq!(words[..6], [10, 0, 97, 0, 7, 0]);
        assert_eq!(words[4 + 2 * 97..], [12, 1, 0, 0, 0, 0, 0, 0x3FEC, 12, 1, 16, 0, 0, 0, 0, 0]);
        let none = share_records(&shares::Group::judged(vec![9], vec![15]));
        assert_eq!(none, [10, 0, 1, 0, 9, 0, 12, 0, 15, 0, 0, 0, 0, 0xBFF8]);
    }
}
