//! Each call on the paper's example or the example of the text form, on what is refused, and on empty slices.

mod counts;
mod looking;
mod texts;

use crate::{build, c, check, event, print, print_size, refused_line, run, size, translate};
use crate::{Answer, Kind, Refusal, Stopped, Text, Untranslated, INPUT, MOST_PRINTED, OUTPUT_DONE, TICK};

const PLAN: [u16; 9] = [1, 2, 1, 1, 1, 4, 2, 4656, 4672];

/// Any word that is no word of the example's image.
const UNTOUCHED: u16 = 51966;

/// The fresh image of the example.
fn fresh() -> Vec<u16> {
    let mut image = vec![UNTOUCHED; size(&PLAN).unwrap()];
    assert_eq!(build(&PLAN, &mut image), Ok(()));
    image
}

#[test]
fn the_example_has_57_words() {
    assert_eq!(size(&PLAN), Ok(57));
}

#[test]
fn a_built_image_passes_the_check_and_keeps_nothing_of_the_target() {
    let image = fresh();
    assert_eq!(check(&image), Ok(()));
    assert!(!image.contains(&UNTOUCHED));
    assert_eq!(image[7..16], [18, 27, 32, 34, 39, 44, 49, 51, 53]);
}

#[test]
fn a_cut_image_is_refused_by_each_call_and_kept() {
    let mut image = fresh();
    image.pop();
    let before = image.clone();
    assert_eq!(check(&image), Err(Refusal::WrongSegments));
    assert_eq!(event(&mut image, TICK, 0, 0), Err(Refusal::WrongSegments));
    assert_eq!(run(&mut image, &[TICK, 0, 0]), Err(Stopped { taken: 0, refusal: Refusal::WrongSegments }));
    assert_eq!(image, before);
}

#[test]
fn a_target_of_another_length_is_12_and_kept() {
    let mut target = [UNTOUCHED; 56];
    assert_eq!(build(&PLAN, &mut target), Err(Refusal::WrongTarget));
    assert_eq!(target, [UNTOUCHED; 56]);
}

#[test]
fn a_refused_plan_is_told_by_size_and_by_build() {
    let mut tasks_17 = PLAN;
    tasks_17[0] = 17;
    assert_eq!(size(&tasks_17), Err(Refusal::OutOfRange));
    assert_eq!(build(&tasks_17, &mut [0; 57]), Err(Refusal::OutOfRange));
    assert_eq!(size(&PLAN[..8]), Err(Refusal::BadPlan));
    assert_eq!(build(&PLAN[..8], &mut [0; 57]), Err(Refusal::BadPlan));
}

#[test]
fn an_input_is_accepted_once_and_then_finds_the_buffer_full() {
    let mut image = fresh();
    assert_eq!(event(&mut image, INPUT, 0, 65), Ok(Answer { kind: Kind::Input, task: Some(0) }));
    let before = image.clone();
    assert_eq!(event(&mut image, INPUT, 0, 66), Err(Refusal::InputFull));
    assert_eq!(event(&mut image, INPUT, 0, 256), Err(Refusal::MalformedEvent));
    assert_eq!(event(&mut image, OUTPUT_DONE, 0, 0), Err(Refusal::PortIdle));
    assert_eq!(image, before);
}

#[test]
fn an_idle_machine_tells_no_task() {
    let mut image = fresh();
    let tick = |image: &mut [u16]| event(image, TICK, 0, 0).unwrap();
    assert_eq!(tick(&mut image), Answer { kind: Kind::OrderDone, task: Some(0) });
    assert_eq!(tick(&mut image), Answer { kind: Kind::ServiceWaits, task: Some(0) });
    assert_eq!(tick(&mut image), Answer { kind: Kind::Idle, task: None });
}

#[test]
fn a_run_is_the_events_one_by_one() {
    let events = [TICK, 0, 0, TICK, 0, 0, TICK, 0, 0, INPUT, 0, 65, OUTPUT_DONE, 0, 0, TICK, 0, 0];
    let (mut by_run, mut by_events) = (fresh(), fresh());
    assert_eq!(run(&mut by_run, &events), Err(Stopped { taken: 4, refusal: Refusal::PortIdle }));
    for word in events.chunks(3).take(4) {
        assert!(event(&mut by_events, word[0], word[1], word[2]).is_ok());
    }
    assert_eq!(by_run, by_events);
}

/// After the input is done and after the output, the character is in R3 and then at the port, and nowhere else.
#[test]
fn a_taken_character_is_in_no_buffer() {
    let places = |image: &[u16]| (0..image.len()).filter(|at| image[*at] == 65).collect::<Vec<_>>();
    let mut image = fresh();
    let events = [TICK, 0, 0, TICK, 0, 0, INPUT, 0, 65, TICK, 0, 0];
    assert_eq!(run(&mut image, &events), Ok(4));
    assert_eq!(places(&image), [21]);
    assert_eq!(run(&mut image, &[TICK; 9]), Ok(3));
    assert_eq!(places(&image), [21, 50]);
    assert_eq!(check(&image), Ok(()));
}

/// The slot of the input buffer stands at 38, that of the ready queue, which the task has left, at 31.
#[test]
fn an_image_with_an_old_word_is_refused_by_each_call_and_kept() {
    for (at, old) in [(38, 65), (31, 1)] {
        let mut image = fresh();
        assert_eq!(run(&mut image, &[TICK; 6]), Ok(2));
        image[at] = old;
        let before = image.clone();
        assert_eq!(check(&image), Err(Refusal::RuleBroken));
        assert_eq!(event(&mut image, TICK, 0, 0), Err(Refusal::RuleBroken));
        assert_eq!(run(&mut image, &[TICK, 0, 0]), Err(Stopped { taken: 0, refusal: Refusal::RuleBroken }));
        assert_eq!(image, before);
    }
}

#[test]
fn a_list_of_four_words_is_7_and_no_event_is_taken() {
    let mut image = fresh();
    assert_eq!(run(&mut image, &[TICK, 0, 0, TICK]), Err(Stopped { taken: 0, refusal: Refusal::MalformedEvent }));
    assert_eq!(image, fresh());
}

#[test]
fn empty_slices_are_refused_or_do_nothing() {
    let mut image = fresh();
    assert_eq!(check(&[]), Err(Refusal::TooShort));
    assert_eq!(size(&[]), Err(Refusal::BadPlan));
    assert_eq!(build(&[], &mut []), Err(Refusal::BadPlan));
    assert_eq!(build(&PLAN, &mut []), Err(Refusal::WrongTarget));
    assert_eq!(event(&mut [], TICK, 0, 0), Err(Refusal::TooShort));
    assert_eq!(run(&mut [], &[]), Err(Stopped { taken: 0, refusal: Refusal::TooShort }));
    assert_eq!(run(&mut image, &[]), Ok(0));
    assert_eq!(image, fresh());
}

const NAMES: &[u8] = b"size = 4\nlast = size * (2 + 3) - 1\n";

const SCRIPT: &[u8] = b"loop: input\nload r5 last\njumplt loop\ntable: size\n  loop + 2\n";

/// What a script is translated to in room enough.
fn translated(names: &[u8], script: &[u8]) -> Result<usize, Untranslated> {
    translate(names, script, &mut [0; 16])
}

#[test]
fn the_words_of_a_script_stand_first_and_the_others_stay() {
    let mut target = [UNTOUCHED; 9];
    assert_eq!(translate(NAMES, SCRIPT, &mut target), Ok(7));
    assert_eq!(target, [4656, 336, 19, 3856, 0, 4, 2, UNTOUCHED, UNTOUCHED]);
    assert_eq!(refused_line(NAMES, SCRIPT, 7), None);
}

#[test]
fn a_target_with_a_word_less_is_16_at_the_last_line_and_kept() {
    let mut target = [UNTOUCHED; 6];
    let refused = Untranslated { refusal: Refusal::NoRoom, text: Text::Script };
    assert_eq!(translate(NAMES, SCRIPT, &mut target), Err(refused));
    assert_eq!(target, [UNTOUCHED; 6]);
    assert_eq!(refused_line(NAMES, SCRIPT, 6), Some(&b"  loop + 2"[..]));
}

#[test]
fn a_refused_line_of_either_text_is_named() {
    let in_names = |refusal| Err(Untranslated { refusal, text: Text::Names });
    let in_script = |refusal| Err(Untranslated { refusal, text: Text::Script });
    assert_eq!(translated(NAMES, b"1\nload r5\n"), in_script(Refusal::OutsideGrammar));
    assert_eq!(refused_line(NAMES, b"1\nload r5\n", 16), Some(&b"load r5"[..]));
    assert_eq!(translated(b"a = 1\nb = c\n", SCRIPT), in_names(Refusal::NameFault));
    assert_eq!(refused_line(b"a = 1\nb = c\n", SCRIPT, 16), Some(&b"b = c"[..]));
    assert_eq!(translated(b"a = 65536", b"1"), in_names(Refusal::ValueOutOfRange));
    assert_eq!(refused_line(b"a = 65536", b"1", 0), Some(&b"a = 65536"[..]));
}

#[test]
fn a_refused_line_is_a_part_of_its_text() {
    let names = b"a = b";
    assert_eq!(refused_line(names, SCRIPT, 16).unwrap().as_ptr(), names.as_ptr());
    assert_eq!(refused_line(NAMES, b"a", 16), Some(&b"a"[..]));
    // The last line is empty, and refused all the same.
    assert_eq!(refused_line(NAMES, b"1\n\n", 0), Some(&b""[..]));
    assert_eq!(refused_line(NAMES, b"1\n\n", 1), None);
}

#[test]
fn empty_texts_have_no_words_and_are_not_refused() {
    assert_eq!(translate(&[], &[], &mut []), Ok(0));
    assert_eq!(refused_line(&[], &[], 0), None);
}

#[test]
fn there_may_be_8192_names_and_one_more_is_13() {
    let lines = |count| (0..count).map(|k| format!("a{k} = {k}\n")).collect::<String>();
    assert_eq!(translated(lines(8192).as_bytes(), b"a8191"), Ok(1));
    let refused = Untranslated { refusal: Refusal::OutsideGrammar, text: Text::Names };
    assert_eq!(translated(lines(8193).as_bytes(), b"a8191"), Err(refused));
    assert_eq!(refused_line(lines(8193).as_bytes(), b"", 0), Some(&b"a8192 = 8192"[..]));
}

/// The words of the text form's example, and their text as its page has it.
const WORDS: [u16; 9] = [4656, 1076, 336, 19, 3381, 3856, 0, 4, 2];

const PRINTED: &[u8] = b"input\nstore r3 r4\nload r5 19\ncompare r3 r5\njumplt 0\n4\n2\n";

/// Any byte that is no byte of the text form.
const UNTOUCHED_BYTE: u8 = 0xA5;

#[test]
fn the_text_of_a_list_stands_first_and_the_other_bytes_stay() {
    let mut text = [UNTOUCHED_BYTE; 64];
    let (lent, rest) = text.split_at_mut(PRINTED.len() + 2);
    assert_eq!(print(&WORDS, lent), Ok(PRINTED.len()));
    assert_eq!(lent[..PRINTED.len()], *PRINTED);
    assert_eq!(lent[PRINTED.len()..], [UNTOUCHED_BYTE; 2]);
    assert!(rest.iter().all(|byte| *byte == UNTOUCHED_BYTE));
}

#[test]
fn a_buffer_of_the_measured_size_is_enough_and_a_byte_less_is_16_and_kept() {
    assert_eq!(print_size(&WORDS), Ok(PRINTED.len()));
    let mut text = vec![UNTOUCHED_BYTE; PRINTED.len()];
    assert_eq!(print(&WORDS, &mut text[1..]), Err(Refusal::NoRoom));
    assert!(text.iter().all(|byte| *byte == UNTOUCHED_BYTE));
    assert_eq!(print(&WORDS, &mut text), Ok(PRINTED.len()));
    assert_eq!(text, PRINTED);
}

#[test]
fn a_printed_list_is_translated_to_the_list() {
    let words: Vec<u16> = (0..32715).map(|k: u32| (k * 7919 % 65536) as u16).collect();
    let mut text = vec![0; print_size(&words).unwrap()];
    assert_eq!(print(&words, &mut text), Ok(text.len()));
    let mut target = vec![UNTOUCHED; words.len()];
    assert_eq!(translate(b"", &text, &mut target), Ok(words.len()));
    assert_eq!(target, words);
}

#[test]
fn the_longest_list_is_printed_and_one_word_more_is_16() {
    let words = vec![2423; MOST_PRINTED + 1];
    let mut text = vec![UNTOUCHED_BYTE; 16 * words.len()];
    assert_eq!(print_size(&words), Err(Refusal::NoRoom));
    assert_eq!(print(&words, &mut text), Err(Refusal::NoRoom));
    assert!(text.iter().all(|byte| *byte == UNTOUCHED_BYTE));
    assert_eq!(print_size(&words[1..]), Ok(16 * MOST_PRINTED));
    assert_eq!(print(&words[1..], &mut text), Ok(16 * MOST_PRINTED));
    assert!(text.ends_with(b"\nremainder r7 r7\n\xA5\xA5\xA5\xA5\xA5\xA5\xA5\xA5\xA5\xA5\xA5\xA5\xA5\xA5\xA5\xA5"));
}

#[test]
fn an_empty_list_has_the_empty_text() {
    assert_eq!(print_size(&[]), Ok(0));
    assert_eq!(print(&[], &mut []), Ok(0));
    assert_eq!(print(&[0], &mut []), Err(Refusal::NoRoom));
}

/// The most of the stack that a call on texts takes, by include/kernel.h.
const MOST_STACK: usize = 256 * 1024;

#[test]
fn a_call_on_texts_needs_little_of_the_stack() {
    let call = || {
        let printed = print(&WORDS, &mut [0; 64]);
        (translated(NAMES, b"((((((((last))))))))"), refused_line(NAMES, b"b", 16), printed)
    };
    let thread = std::thread::Builder::new().stack_size(MOST_STACK).spawn(call).unwrap();
    assert_eq!(thread.join().unwrap(), (Ok(1), Some(&b"b"[..]), Ok(PRINTED.len())));
}

/// A plan of three tasks, its image's words, and events of which the last but one is refused.
const CROWD: [u16; 14] = [3, 5, 2, 1, 4, 4, 2, 2, 1, 3, 0, 4656, 4672, 4656];
const CROWD_WORDS: usize = 184;
const CROWD_EVENTS: [u16; 15] = [TICK, 0, 0, TICK, 0, 0, INPUT, 1, 66, OUTPUT_DONE, 2, 0, TICK, 0, 0];

// The archive's own functions: no two arguments of a call are the same, and no two fields of an accepted answer. The
// calls are safe as those of the package are.

#[test]
fn each_field_of_an_answer_on_words_stands_where_it_is_declared() {
    let mut image = [UNTOUCHED; CROWD_WORDS];
    let (words, at) = (CROWD_WORDS, image.as_mut_ptr());
    unsafe {
        assert_eq!(c::kernel_size(CROWD.as_ptr(), CROWD.len()), c::Size { words: 184, number: 0 });
        assert_eq!(c::kernel_size([17, 5, 2, 1, 4].as_ptr(), 5), c::Size { words: 0, number: 3 });
        assert_eq!(c::kernel_build(CROWD.as_ptr(), CROWD.len(), at, words - 1), 12);
        assert_eq!(c::kernel_build(CROWD.as_ptr(), CROWD.len(), at, words), 0);
        assert_eq!(c::kernel_check(at, words), 0);
        assert_eq!(c::kernel_event(at, words, INPUT, 2, 65), c::Told { number: 0, kind: 8, task: 2 });
        let ran = c::kernel_run(at, words, CROWD_EVENTS.as_ptr(), CROWD_EVENTS.len());
        assert_eq!(ran, c::Ran { taken: 3, number: 9 });
        let refused = c::Told { number: 7, kind: c::NO_ANSWER, task: c::NO_ANSWER };
        assert_eq!(c::kernel_event(at, words, INPUT, 3, 65), refused);
    }
}

#[test]
fn each_field_of_an_answer_on_texts_stands_where_it_is_declared() {
    let told = |names: &[u8], script: &[u8], room: usize| unsafe {
        let mut target = vec![UNTOUCHED; room];
        let (names_at, script_at, target_at) = (names.as_ptr(), script.as_ptr(), target.as_mut_ptr());
        (
            c::kernel_translate(names_at, names.len(), script_at, script.len(), target_at, room),
            c::kernel_refused_line(names_at, names.len(), script_at, script.len(), room as u64),
        )
    };
    let translated = |words, number, text| c::Translated { words, number, text };
    let line = |start, bytes| c::Line { start, bytes };
    let script = b"size\nsize + 1\n  size * 2\n";
    assert_eq!(told(b"size = 4\n", script, 4), (translated(3, 0, c::NO_TEXT), line(0, 0)));
    assert_eq!(told(b"size = 4\n", script, 2), (translated(0, 16, c::SCRIPT), line(14, 10)));
    assert_eq!(told(b"size = 4\n", b"size\nother\n", 4), (translated(0, 14, c::SCRIPT), line(5, 5)));
    assert_eq!(told(b"size = 4\nb = \n", script, 4), (translated(0, 13, c::NAMES), line(9, 4)));
}

#[test]
fn each_field_of_an_answer_on_printing_stands_where_it_is_declared() {
    let told = |words: &[u16], room: usize| unsafe {
        let mut text = vec![UNTOUCHED_BYTE; room];
        (
            c::kernel_print(words.as_ptr(), words.len(), text.as_mut_ptr(), room),
            c::kernel_print_size(words.as_ptr(), words.len()),
        )
    };
    let printed = |bytes, number| c::Printed { bytes, number };
    assert_eq!(told(&[4656, 10], 10), (printed(9, 0), printed(9, 0)));
    assert_eq!(told(&[4656, 10], 8), (printed(0, 16), printed(9, 0)));
    assert_eq!(told(&[0; MOST_PRINTED + 1], 80000), (printed(0, 16), printed(0, 16)));
}
