//! The cases of building: which plans and targets the file of vectors holds.

mod draft;
pub mod faults;
mod special;

pub use draft::Draft;

use crate::check::check;
use crate::layout::word;
use crate::numbers;
use crate::plan;
use crate::rng::Rng;
use faults::Fault;

/// The largest T of a random image, so that the file has few big ones.
const LARGEST_RANDOM_TOTAL: usize = 2000;

/// A plan, what its size call gives, what its build gives, and the target's
/// words after the build. Before it they are those of `filled`.
#[derive(Clone, Debug, PartialEq, Eq)]
pub struct Case {
    pub plan: Vec<u16>,
    pub size: Result<usize, u16>,
    pub expected: u16,
    pub salt: u16,
    pub target: Vec<u16>,
}

impl Case {
    /// The case of a plan and a target, with what the model gives.
    pub fn judged(plan: Vec<u16>, target_words: usize, salt: u16) -> Case {
        let size = plan::size(&plan);
        let (expected, target) = plan::build(&plan, &filled(target_words, salt));
        let good = expected != numbers::GOOD || check(&target) == numbers::GOOD;
        assert!(good, "the fresh image of {plan:?} is not good");
        Case { plan, size, expected, salt, target }
    }
}

/// The words of a target before its build.
pub fn filled(words: usize, salt: u16) -> Vec<u16> {
    (0..words).map(|k| word((k * 31 + usize::from(salt)) % 65536)).collect()
}

/// All cases of a seed: the plans chosen by hand, every named fault twice,
/// and `count` random good plans, each with wrong targets and faulty plans.
pub fn collect(seed: u64, count: usize) -> Vec<Case> {
    let mut rng = Rng::new(seed);
    let faults = faults::all();
    let mut cases = by_hand(&mut rng);
    for fault in &faults {
        cases.extend([named(&mut rng, fault), named(&mut rng, fault)]);
    }
    let of_plan = faults::of_number(numbers::PLAN);
    for _ in 0..count {
        cases.extend(family(&mut rng, &faults, &of_plan));
    }
    cases
}

/// The cases chosen by hand, whose numbers the model must give.
fn by_hand(rng: &mut Rng) -> Vec<Case> {
    let mut cases = Vec::new();
    for (plan, target_words, number) in special::all(rng) {
        let case = Case::judged(plan, target_words, rng.word());
        let start = &case.plan[..case.plan.len().min(20)];
        assert_eq!(case.expected, number, "{start:?} in a target of {target_words} words");
        cases.push(case);
    }
    cases
}

/// A named fault on the first random plan that can have it.
fn named(rng: &mut Rng, fault: &Fault) -> Case {
    loop {
        let draft = Draft::random(rng);
        if let Some(faulty) = fault.apply(rng, &draft) {
            return refused(rng, &faulty, total(&draft));
        }
    }
}

/// A random good plan in a target of T words, and cases made from it.
pub fn family(rng: &mut Rng, faults: &[Fault], of_plan: &[Fault]) -> Vec<Case> {
    let draft = Draft::random(rng);
    let total = total(&draft);
    let faulty = faults::any(rng, &draft, faults);
    let doubly = faults::two(rng, &draft, of_plan);
    let wrong = another(rng, total);
    vec![
        Case::judged(draft.words(), total, rng.word()),
        Case::judged(draft.words(), wrong, rng.word()),
        refused(rng, &faulty, total),
        refused(rng, &doubly, total),
        noise(rng, &draft),
        noise(rng, &draft),
    ]
}

/// T of a good draft.
fn total(draft: &Draft) -> usize {
    plan::size(&draft.words()).expect("the draft is good")
}

/// A faulty plan, most often in the target of the good one it was made from.
fn refused(rng: &mut Rng, faulty: &Draft, total: usize) -> Case {
    let target_words = if rng.percent(70) { total } else { another(rng, total) };
    Case::judged(faulty.words(), target_words, rng.word())
}

/// A count of words that is not T.
fn another(rng: &mut Rng, total: usize) -> usize {
    let any = rng.below(2 * total);
    let near = [total - 1, total + 1, total - 1, total + 1];
    let far = [0, 1, 17, 18, total / 2, 2 * total, 32768, any];
    loop {
        let words = *rng.pick(&[&near[..], &far].concat());
        if words != total {
            return words;
        }
    }
}

/// A plan with one word changed, most often before the programs. It may stay
/// good; the target is that of the changed plan or that of the old one.
fn noise(rng: &mut Rng, draft: &Draft) -> Case {
    let mut words = draft.words();
    let reach = if rng.percent(85) { words.len() - draft.programs.len() } else { words.len() };
    let place = rng.below(reach);
    words[place] = rng.changed(words[place], 40);
    let own = plan::size(&words).ok().filter(|&own| own <= LARGEST_RANDOM_TOTAL);
    let old = total(draft);
    let target_words = if rng.percent(70) { own.unwrap_or(old) } else { old };
    Case::judged(words, target_words, rng.word())
}

#[cfg(test)]
mod tests {
    use super::*;

    #[test]
    fn a_target_is_filled_by_its_salt() {
        assert_eq!(filled(0, 9), []);
        assert_eq!(filled(4, 65530), [65530, 25, 56, 87]);
        assert_eq!(filled(2116, 0)[2114..], [65534, 29]);
    }

    #[test]
    fn a_refused_case_keeps_its_target() {
        let case = Case::judged(vec![1, 1, 1, 1, 1, 1, 2, 7, 7], 3, 5);
        assert_eq!((case.expected, case.size), (11, Err(11)));
        assert_eq!(case.target, [5, 36, 67]);
    }

    #[test]
    fn the_size_call_and_the_build_agree() {
        for case in collect(6, 20) {
            let words = case.target.len();
            match case.expected {
                0 => assert_eq!(case.size, Ok(words)),
                12 => assert!(case.size.is_ok_and(|total| total != words)),
                number => assert_eq!(case.size, Err(number)),
            }
            let kept = case.target == filled(words, case.salt);
            assert_eq!(kept, case.expected != 0);
        }
    }

    #[test]
    fn the_same_seed_gives_the_same_cases() {
        let plans = |seed| collect(seed, 3).into_iter().map(|c| c.plan).collect::<Vec<_>>();
        assert!(plans(7) == plans(7));
        assert!(plans(7) != plans(8));
    }
}
