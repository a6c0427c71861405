//! The numbers and the texts of the package against those of the C header.

use crate::{Heading, Kind, Refusal, Rule, Service, Status, Stopped, TaskError, Text, Untranslated};
use std::collections::BTreeMap;

const HEADER: &str = include_str!("../../../../include/kernel.h");

/// The numbers that the header has names for.
fn named() -> BTreeMap<&'static str, u16> {
    let defined = HEADER.lines().filter_map(|line| line.strip_prefix("#define "));
    defined
        .filter_map(|line| {
            let mut words = line.split_whitespace();
            Some((words.next()?, words.next()?.parse().ok()?))
        })
        .collect()
}

/// The texts that a function of the header gives, by their numbers.
fn texts_of(function: &str) -> BTreeMap<u16, &'static str> {
    let start = HEADER.find(&format!("{function}(uint16_t ")).expect("the header has the function");
    let names = named();
    HEADER[start..]
        .lines()
        .take_while(|line| *line != "}")
        .filter_map(|line| line.trim().strip_prefix("case ")?.split_once(": return "))
        .map(|(name, text)| (names[name], text.trim_matches(|mark| "\";".contains(mark))))
        .collect()
}

/// The texts of some cases, by their numbers.
fn texts<T: Copy + ToString + Into<u16>>(cases: &[T]) -> BTreeMap<u16, String> {
    cases.iter().map(|case| ((*case).into(), case.to_string())).collect()
}

/// Expects the cases' texts in a function of the header, and there nothing else but some numbers that are no cases
/// here.
fn expect_the_same<T: Copy + ToString + Into<u16>>(function: &str, cases: &[T], others: &[u16]) {
    let mut told = texts_of(function);
    for number in others {
        assert!(told.remove(number).is_some(), "{function} {number}");
    }
    assert_eq!(texts(cases), told.into_iter().map(|(number, text)| (number, text.to_string())).collect(), "{function}");
}

#[test]
fn the_header_has_the_same_numbers_and_texts() {
    expect_the_same("kernel_number_text", Refusal::ALL, &[0, 65535]);
    expect_the_same("kernel_kind_text", Kind::ALL, &[]);
    expect_the_same("kernel_status_text", Status::ALL, &[]);
    expect_the_same("kernel_error_text", TaskError::ALL, &[0]);
    expect_the_same("kernel_service_text", Service::ALL, &[0]);
    expect_the_same("kernel_rule_text", Rule::ALL, &[]);
}

#[test]
fn the_header_has_the_same_limits() {
    let names = named();
    let is = |name: &str, number: usize| assert_eq!(usize::from(names[name]), number, "{name}");
    is("KERNEL_TICK", crate::TICK.into());
    is("KERNEL_INPUT", crate::INPUT.into());
    is("KERNEL_OUTPUT_DONE", crate::OUTPUT_DONE.into());
    is("KERNEL_EVENT_WORDS", crate::EVENT_WORDS);
    is("KERNEL_EDITION", crate::EDITION.into());
    is("KERNEL_MOST_TASKS", crate::MOST_TASKS.into());
    is("KERNEL_MOST_WORDS", crate::MOST_WORDS);
    is("KERNEL_REGISTERS", crate::REGISTERS.into());
    is("KERNEL_AT_EDITION", crate::AT_EDITION);
    is("KERNEL_AT_TASKS", crate::AT_TASKS);
    is("KERNEL_AT_SLICE", crate::AT_SLICE);
    is("KERNEL_AT_INPUT_CAPACITY", crate::AT_INPUT_CAPACITY);
    is("KERNEL_AT_OUTPUT_CAPACITY", crate::AT_OUTPUT_CAPACITY);
    is("KERNEL_AT_MESSAGE_CAPACITY", crate::AT_MESSAGE_CAPACITY);
    is("KERNEL_AT_SEGMENTS", crate::AT_SEGMENTS);
    is("KERNEL_AT_CLOCK", crate::AT_CLOCK);
    is("KERNEL_MOST_NAMES", crate::MOST_NAMES);
    is("KERNEL_MOST_PRINTED", crate::MOST_PRINTED);
    is("KERNEL_COUNTS", crate::COUNTS);
    is("KERNEL_HEADINGS", crate::HEADINGS);
    is("KERNEL_AT_IDLE_COUNT", crate::AT_IDLE_COUNT);
    is("KERNEL_COUNT_ORDERS", Heading::Orders.number().into());
    is("KERNEL_COUNT_SERVICES", Heading::Services.number().into());
    is("KERNEL_COUNT_WAITS", Heading::Waits.number().into());
    is("KERNEL_COUNT_FAULTS", Heading::Faults.number().into());
    is("KERNEL_COUNT_ERROR_STOPS", Heading::ErrorStops.number().into());
    is("KERNEL_COUNT_PASSED_TURNS", Heading::PassedTurns.number().into());
    let version = format!("{}.{}.", names["KERNEL_VERSION_MAJOR"], names["KERNEL_VERSION_MINOR"]);
    assert!(env!("CARGO_PKG_VERSION").starts_with(&version));
}

#[test]
fn a_case_is_found_by_its_number_and_no_other_number_has_one() {
    assert!(Refusal::ALL.iter().all(|case| Refusal::with_number(case.number()) == Some(*case)));
    assert_eq!((0..=u16::MAX).filter_map(Refusal::with_number).collect::<Vec<_>>(), Refusal::ALL);
    assert_eq!(Refusal::with_number(10), None);
    assert_eq!((0..=u16::MAX).filter_map(Rule::with_number).count(), 21);
    assert_eq!((Kind::with_number(0), Kind::with_number(10)), (Some(Kind::Idle), None));
    assert_eq!((TaskError::with_number(0), Service::with_number(0)), (None, None));
}

#[test]
fn errors_say_what_happened_and_why() {
    fn is_error<T: std::error::Error + Send + Sync + 'static>(_: T) {}
    let refusal = Refusal::PortIdle;
    let stopped = Stopped { taken: 10, refusal };
    let untranslated = Untranslated { refusal: Refusal::NameFault, text: Text::Script };
    assert_eq!(refusal.to_string(), "output done on an idle port");
    assert_eq!(stopped.to_string(), "events taken: 10, the next refused: output done on an idle port");
    assert_eq!(untranslated.to_string(), "script: a name given twice or not at all");
    is_error(refusal);
    is_error(stopped);
    is_error(untranslated);
}
