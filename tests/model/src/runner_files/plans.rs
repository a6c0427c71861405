//! Files of plans, chosen by hand with their lines. All but a few are refused.

use super::{bytes, Case, LETTER, PAPERS, TICK};

/// What follows the lead of a long plan that its reader need not look at.
const ZERO: u8 = 0;
/// L and P of the longest good plan: T is then 32768.
const LONGEST: u16 = 32715;

/// Plans that are missing, empty, odd, out of range, faulty in every way and
/// long.
pub fn all() -> Vec<Case> {
    [missing(), out_of_range(), faulty(), odd(), longest(), long()].into_iter().flatten().collect()
}

/// A plan that is refused, with events that would be taken.
fn refused(name: &str, plan: Option<Vec<u8>>, number: u16) -> Case {
    let line = format!("0 refused {number}");
    Case::by_hand(name, plan, Some(bytes(&[TICK, LETTER].concat())), &[line.as_str()])
}

/// The words of a plan that is refused.
fn refused_words(name: &str, plan: &[u16], number: u16) -> Case {
    refused(name, Some(bytes(plan)), number)
}

/// Plans of no bytes, and of under five words.
fn missing() -> Vec<Case> {
    vec![
        refused("plan_missing", None, 11),
        refused("plan_empty", Some(vec![]), 11),
        Case::by_hand("both_missing", None, None, &["0 refused 11"]),
        Case::by_hand("both_empty", Some(vec![]), Some(vec![]), &["0 refused 11"]),
        refused_words("one_word", &[1], 11),
        refused_words("four_words", &[1, 2, 1, 1], 11),
        refused_words("four_words_wrong", &[17, 0, 33, 33], 11),
    ]
}

/// Each number of the lead just outside its range.
fn out_of_range() -> Vec<Case> {
    let rows = [
        ("n_0", 0, 0),
        ("n_17", 0, 17),
        ("n_257", 0, 257),
        ("s_0", 1, 0),
        ("ci_0", 2, 0),
        ("ci_33", 2, 33),
        ("co_0", 3, 0),
        ("co_33", 3, 33),
        ("cm_0", 4, 0),
        ("cm_33", 4, 33),
    ];
    let mut cases = Vec::new();
    for (name, place, value) in rows {
        let mut plan = PAPERS;
        plan[place] = value;
        cases.push(refused_words(name, &plan, 3));
    }
    cases.push(refused_words("n_0_alone", &[0, 0, 0, 0, 0], 3));
    cases
}

/// Number 11 of every kind, and the largest T, which is good.
fn faulty() -> Vec<Case> {
    vec![
        refused_words("pairs_missing", &[1, 1, 1, 1, 1], 11),
        refused_words("pair_missing", &[2, 1, 1, 1, 1, 1, 0], 11),
        refused_words("half_pair", &[1, 1, 1, 1, 1, 1], 11),
        refused_words("program_missing", &[1, 2, 1, 1, 1, 4, 2], 11),
        refused_words("program_short", &[1, 2, 1, 1, 1, 4, 2, 4656], 11),
        refused_words("words_left_over", &[1, 2, 1, 1, 1, 4, 2, 4656, 4672, 0], 11),
        refused_words("length_0", &[1, 1, 1, 1, 1, 0, 0], 11),
        refused_words("program_over", &[1, 1, 1, 1, 1, 1, 2, 4656, 4672], 11),
        refused_words("total_over", &[1, 1, 1, 1, 1, LONGEST + 1, 0], 11),
        refused_words("total_wraps", &[2, 1, 1, 1, 1, 65535, 0, 65535, 0], 11),
        Case::by_hand(
            "total_largest",
            Some(bytes(&[1, 1, 1, 1, 1, LONGEST, 0])),
            Some(bytes(&[TICK; 3].concat())),
            &["1 7 0", "2 1 0", "3 0 0"],
        ),
    ]
}

/// An odd count of bytes is 11, whatever the words before the last byte are.
fn odd() -> Vec<Case> {
    let with_byte = |words: &[u16]| Some([bytes(words), vec![0]].concat());
    let without_byte = |words: &[u16]| Some(bytes(words)[..2 * words.len() - 1].to_vec());
    vec![
        refused("odd_byte", Some(vec![1]), 11),
        refused("odd_good", with_byte(&PAPERS), 11),
        refused("odd_cut", without_byte(&PAPERS), 11),
        refused("odd_wrong_n", with_byte(&[17, 2, 1, 1, 1, 4, 2, 4656, 4672]), 11),
        refused("odd_wrong_s", with_byte(&[1, 0, 1, 1, 1]), 11),
        refused("odd_wrong_cm", without_byte(&[1, 1, 1, 1, 33, 1, 0]), 11),
    ]
}

/// The longest good plan, whose last word is an order for input; then with a
/// word more and with a byte more.
fn longest() -> Vec<Case> {
    let mut plan = vec![1, 9, 1, 1, 1, LONGEST, LONGEST];
    plan.extend([0x0E00, LONGEST - 1]);
    plan.resize(plan.len() + usize::from(LONGEST) - 3, 0);
    plan.push(4656);
    let good = bytes(&plan);
    let word_more = [good.clone(), vec![0, 0]].concat();
    let byte_more = [good.clone(), vec![0]].concat();
    let events = bytes(&[TICK, TICK, LETTER, TICK, TICK].concat());
    let lines = ["1 6 0", "2 6 0", "3 8 0", "4 3 0", "5 7 0"];
    vec![
        Case::by_hand("longest", Some(good), Some(events), &lines),
        refused("longest_word_more", Some(word_more), 11),
        refused("longest_byte_more", Some(byte_more), 11),
    ]
}

/// Plans that no image needs: right only mod 65536 words, odd, and out of
/// range.
fn long() -> Vec<Case> {
    let padded = |words: &[u16], count: usize| {
        let mut plan = bytes(words);
        plan.resize(count, ZERO);
        Some(plan)
    };
    let wrong = [17, 2, 1, 1, 1, 4, 2, 4656, 4672];
    vec![
        refused("long_good", padded(&PAPERS, 2 * 65536 + 18), 11),
        refused("long_odd", padded(&wrong, 200_001), 11),
        refused("long_wrong_n", padded(&wrong, 200_000), 3),
    ]
}
