//! Plans with right and wrong targets.

use crate::call::Call;
use model::building::faults::Fault;
use model::building::{family, filled, Case, Draft};
use model::good;
use model::layout::{word, Layout, LARGEST_TOTAL};
use model::rng::Rng;

/// The size and the build of a good plan, and of faulty ones made from it.
pub fn calls(rng: &mut Rng, faults: &[Fault], of_plan: &[Fault]) -> Vec<Call> {
    family(rng, faults, of_plan).into_iter().flat_map(of_case).collect()
}

/// The size and the build of a plan whose T is the largest, one less or one more.
pub fn large(rng: &mut Rng) -> Vec<Call> {
    let frame = good::frame(rng);
    let total = LARGEST_TOTAL + rng.below(3) - 1;
    let length = total - Layout::new(frame).first_segment - (frame.tasks - 1);
    let mut pairs = vec![(1, 0); frame.tasks];
    pairs[rng.below(frame.tasks)] = (word(length), word(rng.below(length + 1)));
    let plan = Draft::new(rng, frame, &pairs).words();
    let target_words = *rng.pick(&[total, total, LARGEST_TOTAL]);
    of_case(Case::judged(plan, target_words, rng.word())).into()
}

/// The size and the build of a case's plan.
fn of_case(case: Case) -> [Call; 2] {
    let target = filled(case.target.len(), case.salt);
    [Call::Size { plan: case.plan.clone() }, Call::Build { plan: case.plan, target }]
}
