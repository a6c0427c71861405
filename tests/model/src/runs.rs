//! A run: the events of a list on an image, up to the first refused one.

use crate::check;
use crate::events::happen;
use crate::image::Kernel;
use crate::numbers::{self, require};

/// The words of one event.
pub const EVENT_WORDS: usize = 3;

/// What a run comes back with, and the image's words after it.
#[derive(Clone, Debug, PartialEq, Eq)]
pub struct Ran {
    /// How many events were taken.
    pub taken: usize,
    /// The number that refused the run or stopped it, 0 where none did.
    pub number: u16,
    /// The image's words: those before the run with the taken events.
    pub image: Vec<u16>,
}

/// Carries out the events of a list, one after another, until one is refused.
/// A refused run takes 0 events and changes nothing.
pub fn run(image: &[u16], list: &[u16]) -> Ran {
    match accept(image, list) {
        Ok(kernel) => until_refused(kernel, list),
        Err(number) => Ran { taken: 0, number, image: image.to_vec() },
    }
}

/// The kernel that a run begins with, or the number that refuses the run: the
/// image is tested before the list's length.
pub fn accept(image: &[u16], list: &[u16]) -> Result<Kernel, u16> {
    let kernel = check::accept(image)?;
    require(list.len().is_multiple_of(EVENT_WORDS), numbers::EVENT)?;
    Ok(kernel)
}

/// Carries out the events up to the first refused one, which changes nothing.
fn until_refused(mut kernel: Kernel, list: &[u16]) -> Ran {
    let mut taken = 0;
    for words in events(list) {
        if let Err(number) = happen(&mut kernel, words) {
            return Ran { taken, number, image: kernel.encode() };
        }
        taken += 1;
    }
    Ran { taken, number: numbers::GOOD, image: kernel.encode() }
}

/// The whole events of a list, three words each.
pub fn events(list: &[u16]) -> impl Iterator<Item = [u16; EVENT_WORDS]> + '_ {
    list.chunks_exact(EVENT_WORDS).map(|words| [words[0], words[1], words[2]])
}

#[cfg(test)]
mod tests {
    use super::*;
    use crate::changes::{differences, Change};
    use crate::plan;

    const TICK: [u16; 3] = [0, 0, 0];
    const LETTER: [u16; 3] = [1, 0, 65];
    const DONE: [u16; 3] = [2, 0, 0];
    /// A tick is not of a device.
    const MALFORMED: [u16; 3] = [0, 1, 0];

    /// The paper's eleven events, of which the last is refused.
    const PAPERS: [[u16; 3]; 11] = [TICK, TICK, TICK, LETTER, TICK, TICK, TICK, TICK, TICK, DONE, DONE];

    /// The paper's image: tables at 18 27 32 34 39 44 49 51, segment at 53.
    fn papers_image() -> Vec<u16> {
        plan::accept(&[1, 2, 1, 1, 1, 4, 2, 4656, 4672]).expect("a good plan").encode()
    }

    /// Taken and number of a run on the paper's image, and what it changes.
    fn on_papers(events: &[[u16; 3]]) -> (usize, u16, Vec<Change>) {
        let before = papers_image();
        let ran = run(&before, &events.concat());
        (ran.taken, ran.number, differences(&before, &ran.image))
    }

    /// The number of a refused run, which must take and change nothing.
    fn refusal(image: &[u16], list: &[u16]) -> u16 {
        let ran = run(image, list);
        assert_eq!((ran.taken, ran.image.as_slice()), (0, image));
        assert_ne!(ran.number, 0);
        ran.number
    }

    #[test]
    fn the_papers_run_takes_ten_events() {
        let by_hand = vec![(17, 0), (18, 2), (21, 65), (26, 8)];
        assert_eq!(on_papers(&PAPERS), (10, 9, by_hand.clone()));
        assert_eq!(on_papers(&PAPERS[..10]), (10, 0, by_hand));
    }

    #[test]
    fn the_image_holds_the_taken_events() {
        let order = vec![(17, 1), (18, 1), (26, 96)];
        let waits = vec![(17, 0), (18, 1), (26, 96), (29, 0), (32, 3)];
        let woken = vec![(18, 1), (26, 96), (36, 1), (38, 65)];
        let delivered = vec![(17, 1), (18, 1), (21, 65)];
        let asked = vec![(17, 0), (18, 2), (21, 65), (26, 128)];
        let turned = vec![(18, 2), (21, 65), (26, 128)];
        let printed = vec![(17, 1), (18, 2), (21, 65), (49, 1), (50, 65)];
        let faulted = vec![(17, 0), (18, 2), (21, 65), (26, 8), (49, 1), (50, 65)];
        assert_eq!(on_papers(&[]), (0, 0, vec![]));
        assert_eq!(on_papers(&PAPERS[..1]), (1, 0, order));
        assert_eq!(on_papers(&PAPERS[..2]), (2, 0, waits.clone()));
        assert_eq!(on_papers(&PAPERS[..3]), (3, 0, waits));
        assert_eq!(on_papers(&PAPERS[..4]), (4, 0, woken));
        assert_eq!(on_papers(&PAPERS[..5]), (5, 0, delivered));
        assert_eq!(on_papers(&PAPERS[..6]), (6, 0, asked));
        assert_eq!(on_papers(&PAPERS[..7]), (7, 0, turned));
        assert_eq!(on_papers(&PAPERS[..8]), (8, 0, printed));
        assert_eq!(on_papers(&PAPERS[..9]), (9, 0, faulted));
    }

    #[test]
    fn a_run_stops_at_the_first_refused_event() {
        let order = vec![(17, 1), (18, 1), (26, 96)];
        assert_eq!(on_papers(&[MALFORMED, TICK, TICK]), (0, 7, vec![]));
        assert_eq!(on_papers(&[DONE, MALFORMED]), (0, 9, vec![]));
        assert_eq!(on_papers(&[TICK, MALFORMED, DONE, TICK]), (1, 7, order.clone()));
        assert_eq!(on_papers(&[TICK, DONE, MALFORMED, TICK]), (1, 9, order));
        let full = vec![(36, 1), (38, 65)];
        assert_eq!(on_papers(&[LETTER, LETTER, TICK]), (1, 8, full));
    }

    #[test]
    fn an_idle_tick_is_taken() {
        let (_, _, waits) = on_papers(&[TICK, TICK]);
        assert_eq!(on_papers(&[TICK; 1000]), (1000, 0, waits));
    }

    #[test]
    fn a_list_that_is_no_multiple_of_three_words_is_7_and_takes_nothing() {
        let list = PAPERS.concat();
        for length in (1..33).filter(|length| length % 3 != 0) {
            assert_eq!(refusal(&papers_image(), &list[..length]), 7);
        }
        let refused_first = [DONE, DONE].concat();
        assert_eq!(refusal(&papers_image(), &refused_first[..5]), 7);
    }

    #[test]
    fn the_image_is_tested_before_the_list() {
        let image = papers_image();
        let with = |place: usize, new: u16| {
            let mut words = papers_image();
            words[place] = new;
            words
        };
        let bad = [
            (1, image[..17].to_vec()),
            (1, vec![]),
            (2, with(0, 19285)),
            (3, with(2, 17)),
            (4, with(15, 54)),
            (5, image[..56].to_vec()),
            (5, with(52, 3)),
            (6, with(17, 3)),
        ];
        let list = PAPERS.concat();
        for (number, image) in bad {
            for words in [0, 1, 2, 3, 31, 33] {
                assert_eq!(refusal(&image, &list[..words]), number);
            }
            assert_eq!(refusal(&image, &MALFORMED), number);
        }
    }
}
