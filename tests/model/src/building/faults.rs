//! Plans with one named fault, which gives number 3 or 11.

use super::draft::{any_words, Draft, Pair};
use crate::layout::{LARGEST_TASKS, LARGEST_TOTAL};
use crate::numbers;
use crate::plan;
use crate::rng::Rng;

/// Changes a good draft; nothing where this draft cannot have the fault.
type Change = dyn Fn(&mut Rng, &mut Draft) -> Option<()>;

/// A row of a constant table of faults that give number 11.
type Row = (&'static str, fn(&mut Rng, &mut Draft) -> Option<()>);

/// The count of a plan's words before its pairs.
pub const FRAME_WORDS: usize = 5;

/// One fault of a plan, and the number it must give.
pub struct Fault {
    pub name: String,
    pub expected: u16,
    change: Box<Change>,
}

impl Fault {
    fn new(
        name: impl Into<String>,
        expected: u16,
        change: impl Fn(&mut Rng, &mut Draft) -> Option<()> + 'static,
    ) -> Fault {
        Fault { name: name.into(), expected, change: Box::new(change) }
    }

    /// A good draft with this fault, or nothing where it cannot have it.
    pub fn apply(&self, rng: &mut Rng, draft: &Draft) -> Option<Draft> {
        let mut faulty = draft.clone();
        (self.change)(rng, &mut faulty)?;
        let words = faulty.words();
        assert_eq!(plan::size(&words), Err(self.expected), "fault \"{}\" of {words:?}", self.name);
        Some(faulty)
    }
}

/// Every fault of a plan.
pub fn all() -> Vec<Fault> {
    let rows = [COUNTS.as_slice(), &LENGTHS, &TOTALS].concat();
    let rest = rows.into_iter().map(|(name, change)| Fault::new(name, numbers::PLAN, change));
    under_five_words().into_iter().chain(out_of_range()).chain(rest).collect()
}

/// Every fault of a plan that gives this number.
pub fn of_number(number: u16) -> Vec<Fault> {
    all().into_iter().filter(|fault| fault.expected == number).collect()
}

/// One fault of the list that this good draft can have, carried out.
pub fn any(rng: &mut Rng, draft: &Draft, faults: &[Fault]) -> Draft {
    loop {
        if let Some(faulty) = rng.pick(faults).apply(rng, draft) {
            return faulty;
        }
    }
}

/// A value out of range on top of one fault of the list, so that the order
/// of the tests decides.
pub fn two(rng: &mut Rng, draft: &Draft, faults: &[Fault]) -> Draft {
    let mut faulty = any(rng, draft, faults);
    let &(_, place, value) = rng.pick(&OUT_OF_RANGE);
    if let Some(word) = faulty.frame.get_mut(place) {
        *word = value;
    }
    faulty
}

/// A place in the frame and a value out of its range.
const OUT_OF_RANGE: [(&str, usize, u16); 17] = [
    ("N 0", 0, 0),
    ("N 17", 0, 17),
    ("N 257", 0, 257),
    ("N 65535", 0, 65535),
    ("S 0", 1, 0),
    ("CI 0", 2, 0),
    ("CI 33", 2, 33),
    ("CI 257", 2, 257),
    ("CI 65535", 2, 65535),
    ("CO 0", 3, 0),
    ("CO 33", 3, 33),
    ("CO 257", 3, 257),
    ("CO 65535", 3, 65535),
    ("CM 0", 4, 0),
    ("CM 33", 4, 33),
    ("CM 257", 4, 257),
    ("CM 65535", 4, 65535),
];

fn out_of_range() -> Vec<Fault> {
    let fault = |(name, place, value): (&str, usize, u16)| {
        Fault::new(name, numbers::OUT_OF_RANGE, move |_, draft| {
            draft.frame[place] = value;
            Some(())
        })
    };
    OUT_OF_RANGE.into_iter().map(fault).collect()
}

fn under_five_words() -> Vec<Fault> {
    let fault = |count: usize| {
        Fault::new(format!("cut to {count} words"), numbers::PLAN, move |_, draft| {
            draft.cut(count);
            Some(())
        })
    };
    (0..FRAME_WORDS).map(fault).collect()
}

/// Pairs or program words missing, and words left over.
const COUNTS: [Row; 12] = [
    ("every pair missing", |_, draft| {
        draft.cut(FRAME_WORDS);
        Some(())
    }),
    ("last pair missing", |_, draft| {
        draft.pairs.pop();
        draft.programs.clear();
        Some(())
    }),
    ("half of the last pair missing", |_, draft| {
        draft.cut(FRAME_WORDS + 2 * draft.pairs.len() - 1);
        Some(())
    }),
    ("a program word missing", |_, draft| draft.programs.pop().map(|_| ())),
    ("every program word missing", |_, draft| {
        draft.programs.pop()?;
        draft.programs.clear();
        Some(())
    }),
    ("cut anywhere after the frame", |rng, draft| {
        let count = rng.between(FRAME_WORDS, draft.words().len() - 1);
        draft.cut(count);
        Some(())
    }),
    ("a word left over", |rng, draft| {
        draft.programs.push(rng.word());
        Some(())
    }),
    ("a word 0 left over", |_, draft| {
        draft.programs.push(0);
        Some(())
    }),
    ("many words left over", |rng, draft| {
        let count = rng.between(2, 100);
        draft.programs.extend(any_words(rng, count));
        Some(())
    }),
    ("a pair left over", |_, draft| {
        draft.pairs.push(Pair { length: 1, program: 0 });
        Some(())
    }),
    ("N one more, no words for a pair", |_, draft| {
        let fits = draft.pairs.len() < LARGEST_TASKS && draft.programs.len() < 2;
        fits.then(|| draft.frame[0] += 1)
    }),
    ("N one less", |_, draft| (draft.pairs.len() > 1).then(|| draft.frame[0] -= 1)),
];

/// L = 0, P > L, and a P that the program words do not agree with.
const LENGTHS: [Row; 11] = [
    ("L 0 with P 0", |rng, draft| choose(rng, draft, |pair| pair.program == 0).map(|pair| pair.length = 0)),
    ("L 0 with a program", |rng, draft| choose(rng, draft, |pair| pair.program > 0).map(|pair| pair.length = 0)),
    ("L one less than P", |rng, draft| {
        choose(rng, draft, |pair| pair.program > 0).map(|pair| pair.length = pair.program - 1)
    }),
    ("P one more than L, each word there", |rng, draft| {
        let pair = choose(rng, draft, |_| true)?;
        let more = pair.length + 1 - pair.program;
        pair.program = pair.length + 1;
        draft.programs.extend(any_words(rng, usize::from(more)));
        Some(())
    }),
    ("P one more than L, its words missing", |rng, draft| {
        choose(rng, draft, |_| true).map(|pair| pair.program = pair.length + 1)
    }),
    ("P 65535", |rng, draft| choose(rng, draft, |_| true).map(|pair| pair.program = 65535)),
    ("P more than L by 256", |rng, draft| choose(rng, draft, |_| true).map(|pair| pair.program += pair.length + 256)),
    ("P one more within L, its word missing", |rng, draft| {
        choose(rng, draft, |pair| pair.program < pair.length).map(|pair| pair.program += 1)
    }),
    ("P one less, its word left over", |rng, draft| {
        choose(rng, draft, |pair| pair.program > 0).map(|pair| pair.program -= 1)
    }),
    ("L and P exchanged", |rng, draft| {
        let pair = choose(rng, draft, |pair| pair.program < pair.length)?;
        (pair.length, pair.program) = (pair.program, pair.length);
        Some(())
    }),
    ("P more than L, another P less by as much", |_, draft| shift(draft)),
];

/// T over the largest, as a plain number.
const TOTALS: [Row; 5] = [
    ("T one over the largest", |rng, draft| {
        let total = plan::size(&draft.words()).ok()?;
        let more = u16::try_from(LARGEST_TOTAL + 1 - total).ok()?;
        choose(rng, draft, |_| true).map(|pair| pair.length += more)
    }),
    ("T over the largest by its highest bit", |rng, draft| {
        choose(rng, draft, |_| true).map(|pair| pair.length += 32768)
    }),
    ("L 65535", |rng, draft| choose(rng, draft, |_| true).map(|pair| pair.length = 65535)),
    ("every L 65535", |_, draft| {
        draft.pairs.iter_mut().for_each(|pair| pair.length = 65535);
        Some(())
    }),
    ("T right only mod 65536", |_, draft| {
        let [first, second, ..] = &mut draft.pairs[..] else { return None };
        first.length += 40000;
        second.length += 25536;
        Some(())
    }),
];

/// A random pair among those that fit.
fn choose<'a>(rng: &mut Rng, draft: &'a mut Draft, fits: fn(&Pair) -> bool) -> Option<&'a mut Pair> {
    let mut fitting: Vec<&mut Pair> = draft.pairs.iter_mut().filter(|pair| fits(pair)).collect();
    let chosen = (!fitting.is_empty()).then(|| rng.below(fitting.len()))?;
    Some(fitting.swap_remove(chosen))
}

/// Makes one P a word too long for its L and another shorter by as much, so
/// that the programs together still have the right count of words.
fn shift(draft: &mut Draft) -> Option<()> {
    let [first, second, ..] = &mut draft.pairs[..] else { return None };
    let more = second.length + 1 - second.program;
    first.program = first.program.checked_sub(more)?;
    second.program += more;
    Some(())
}

#[cfg(test)]
mod tests {
    use super::*;

    #[test]
    fn every_fault_applies_to_some_plan_and_gives_its_number() {
        let mut rng = Rng::new(4);
        let drafts: Vec<Draft> = (0..300).map(|_| Draft::random(&mut rng)).collect();
        for fault in all() {
            let applied = drafts.iter().filter(|d| fault.apply(&mut rng, d).is_some());
            assert!(applied.count() > 0, "fault \"{}\" never applies", fault.name);
        }
    }

    #[test]
    fn out_of_range_comes_before_all_but_under_five_words() {
        let mut rng = Rng::new(5);
        let faults = of_number(numbers::PLAN);
        for _ in 0..500 {
            let draft = Draft::random(&mut rng);
            let words = two(&mut rng, &draft, &faults).words();
            let expected = if words.len() < FRAME_WORDS { 11 } else { 3 };
            assert_eq!(plan::size(&words), Err(expected));
        }
    }
}
