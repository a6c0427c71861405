//! The check of an image: numbers 1 to 6, in the paper's order.

use crate::image::Kernel;
use crate::layout::{Frame, Layout, EDITION, HEADER_WORDS, LARGEST_TOTAL, MARK, TOTAL};
use crate::numbers::{self, require};
use crate::rules;

/// The number that any list of words gets, 0 for a good image.
pub fn check(words: &[u16]) -> u16 {
    accept(words).err().unwrap_or(numbers::GOOD)
}

/// The kernel that a good image stands for, or the number that refuses it.
pub fn accept(words: &[u16]) -> Result<Kernel, u16> {
    let layout = lay_out(words)?;
    let kernel = Kernel::decode(words, &layout).ok_or(numbers::OTHER_RULE)?;
    require(rules::hold(&kernel), numbers::OTHER_RULE)?;
    Ok(kernel)
}

/// Where the parts of an image stand, or the number, 1 to 5, that refuses it.
pub fn lay_out(words: &[u16]) -> Result<Layout, u16> {
    require(words.len() >= HEADER_WORDS, numbers::UNDER_HEADER)?;
    require(words[..2] == [MARK, EDITION], numbers::MARK_OR_EDITION)?;
    let frame = Frame::read(&words[2..7]).ok_or(numbers::OUT_OF_RANGE)?;
    let layout = Layout::new(frame);
    require(words[7..16] == layout.offsets(), numbers::OFFSET)?;
    require(segments_fill_the_image(words, &layout), numbers::SEGMENT_OR_TOTAL)?;
    Ok(layout)
}

/// Whether the segments stand packed from the first one's offset to T, and
/// the image ends there.
fn segments_fill_the_image(words: &[u16], layout: &Layout) -> bool {
    let total = usize::from(words[TOTAL]);
    total <= LARGEST_TOTAL
        && words.len() == total
        && words.len() >= layout.first_segment
        && end_of_segments(words, layout) == Some(total)
}

/// The place after the last segment, if every base is the packed one and no
/// length is 0. The image reaches at least to the first segment.
fn end_of_segments(words: &[u16], layout: &Layout) -> Option<usize> {
    let mut end = layout.first_segment;
    for i in 0..layout.frame.tasks {
        let entry = layout.segment(i);
        let base = usize::from(words[entry]);
        let length = usize::from(words[entry + 1]);
        if base != end || length == 0 {
            return None;
        }
        end += length;
    }
    Some(end)
}

#[cfg(test)]
mod tests {
    use super::*;
    use crate::plan;

    /// The paper's image: tables at 18 27 32 34 39 44 49 51, segment at 53.
    fn papers_image() -> Vec<u16> {
        plan::accept(&[1, 2, 1, 1, 1, 4, 2, 4656, 4672]).expect("a good plan").encode()
    }

    /// The check of the paper's image with some of its words changed.
    fn check_with(changes: &[(usize, u16)]) -> u16 {
        let mut words = papers_image();
        changes.iter().for_each(|&(place, value)| words[place] = value);
        check(&words)
    }

    #[test]
    fn the_count_of_words_decides_between_1_and_5() {
        let mut words = papers_image();
        assert_eq!(check(&[]), 1);
        assert_eq!(check(&words[..17]), 1);
        assert_eq!(check(&words[..18]), 5);
        assert_eq!(check(&words[..53]), 5);
        assert_eq!(check(&words[..56]), 5);
        assert_eq!(check(&words), 0);
        words.push(0);
        assert_eq!(check(&words), 5);
        words.resize(57 + 65536, 0);
        assert_eq!(check(&words), 5);
    }

    #[test]
    fn header_words_give_2_to_5() {
        assert_eq!(check_with(&[(0, 0)]), 2);
        assert_eq!(check_with(&[(1, 2)]), 2);
        assert_eq!(check_with(&[(2, 17)]), 3);
        assert_eq!(check_with(&[(3, 0)]), 3);
        assert_eq!(check_with(&[(6, 33)]), 3);
        assert_eq!(check_with(&[(2, 2)]), 4);
        assert_eq!(check_with(&[(15, 54)]), 4);
        assert_eq!(check_with(&[(16, 58)]), 5);
        assert_eq!(check_with(&[(51, 52)]), 5);
        assert_eq!(check_with(&[(52, 3)]), 5);
    }

    #[test]
    fn the_lowest_number_wins() {
        let mut words = papers_image();
        words[17] = 3;
        assert_eq!(check(&words), 6);
        words.pop();
        assert_eq!(check(&words), 5);
        words[7] = 0;
        assert_eq!(check(&words), 4);
        words[3] = 0;
        assert_eq!(check(&words), 3);
        words[1] = 0;
        assert_eq!(check(&words), 2);
        assert_eq!(check(&words[..17]), 1);
    }

    #[test]
    fn ready_queue_and_clock_rules() {
        assert_eq!(check_with(&[(17, 0)]), 0);
        assert_eq!(check_with(&[(17, 3)]), 6);
        assert_eq!(check_with(&[(31, 1)]), 6);
        assert_eq!(check_with(&[(29, 0)]), 6);
        assert_eq!(check_with(&[(32, 5), (26, 4)]), 6);
        assert_eq!(check_with(&[(32, 5), (26, 4), (29, 0)]), 6);
        assert_eq!(check_with(&[(32, 5), (26, 4), (29, 0), (17, 0)]), 0);
        assert_eq!(check_with(&[(32, 5), (26, 0), (29, 0), (17, 0)]), 6);
    }

    #[test]
    fn flags_and_peer_of_a_ready_task() {
        let good = [0, 1, 2, 4, 24, 26, 32, 128, 130];
        assert!(good.iter().all(|&flags| check_with(&[(26, flags)]) == 0));
        let broken = [3, 28, 36, 160, 256, 32768, 65535];
        assert!(broken.iter().all(|&flags| check_with(&[(26, flags)]) == 6));
        assert_eq!(check_with(&[(33, 1)]), 6);
        assert_eq!(check_with(&[(32, 6)]), 6);
    }

    #[test]
    fn ports_and_characters() {
        assert_eq!(check_with(&[(36, 1), (38, 255)]), 0);
        assert_eq!(check_with(&[(36, 1), (38, 256)]), 6);
        assert_eq!(check_with(&[(46, 1), (48, 65535)]), 0);
        assert_eq!(check_with(&[(49, 1), (50, 255)]), 0);
        assert_eq!(check_with(&[(49, 1), (50, 256)]), 6);
        assert_eq!(check_with(&[(49, 2)]), 6);
        assert_eq!(check_with(&[(50, 1)]), 6);
        assert_eq!(check_with(&[(41, 1)]), 6);
        assert_eq!(check_with(&[(41, 1), (49, 1)]), 0);
        assert_eq!(check_with(&[(41, 1), (43, 256), (49, 1)]), 6);
    }

    /// The slots of the three buffers stand at 38, 43 and 48, that of the ready
    /// queue at 31.
    #[test]
    fn free_slots_hold_0() {
        for slot in [38, 43, 48] {
            for old in [1, 65, 256, 32768, 65535] {
                assert_eq!(check_with(&[(slot, old)]), 6);
            }
        }
        let stopped = [(32, 5), (26, 4), (29, 0), (17, 0)];
        assert_eq!(check_with(&stopped), 0);
        assert_eq!(check_with(&[&stopped[..], &[(31, 1)]].concat()), 6);
        assert_eq!(check_with(&[&stopped[..], &[(31, 65535)]].concat()), 6);
        assert_eq!(check_with(&[(36, 1), (46, 1)]), 0);
        assert_eq!(check_with(&[(36, 1), (46, 1), (43, 1)]), 6);
    }

    /// The paper's image as a kernel left it that kept taken words: after its
    /// fifth event, and after its tenth.
    #[test]
    fn an_image_with_its_taken_words_is_6() {
        let delivered = [(17, 1), (18, 1), (21, 65)];
        assert_eq!(check_with(&delivered), 0);
        assert_eq!(check_with(&[&delivered[..], &[(38, 65)]].concat()), 6);
        let printed = [(17, 0), (18, 2), (21, 65), (26, 8)];
        assert_eq!(check_with(&printed), 0);
        assert_eq!(check_with(&[&printed[..], &[(38, 65), (43, 65)]].concat()), 6);
        assert_eq!(check_with(&[&printed[..], &[(43, 65)]].concat()), 6);
    }

    #[test]
    fn each_waiting_status_asks_for_its_pending_and_buffer() {
        let waiting = |status: u16, pending: u16, more: &[(usize, u16)]| {
            let wait = [(32, status), (26, 32 * pending), (29, 0), (17, 0)];
            check_with(&[&wait, more].concat())
        };
        assert_eq!(waiting(1, 1, &[(46, 1)]), 0);
        assert_eq!(waiting(1, 1, &[]), 6);
        assert_eq!(waiting(1, 2, &[(46, 1)]), 6);
        assert_eq!(waiting(1, 1, &[(46, 1), (20, 1)]), 6);
        assert_eq!(waiting(1, 1, &[(46, 1), (20, 1), (33, 1)]), 6);
        assert_eq!(waiting(2, 2, &[]), 0);
        assert_eq!(waiting(2, 2, &[(46, 1)]), 6);
        assert_eq!(waiting(3, 3, &[]), 0);
        assert_eq!(waiting(3, 3, &[(36, 1)]), 6);
        assert_eq!(waiting(3, 3, &[(33, 1), (20, 1)]), 6);
        assert_eq!(waiting(4, 4, &[(41, 1), (49, 1), (21, 255)]), 0);
        assert_eq!(waiting(4, 4, &[(41, 1), (49, 1), (21, 256)]), 6);
        assert_eq!(waiting(4, 4, &[(49, 1)]), 6);
        assert_eq!(waiting(4, 3, &[(41, 1), (49, 1)]), 6);
    }
}
