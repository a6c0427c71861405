//! A plan, its fresh image, and building that image in a target.

use crate::image::{Flags, Kernel, Port, Task};
use crate::layout::{word, Frame, Layout, LARGEST_TOTAL};
use crate::numbers;
use crate::queue::Queue;

/// Builds a plan's fresh image in a target: the number that comes back, and
/// the target's words after it. A refused build leaves them as they were.
pub fn build(plan: &[u16], target: &[u16]) -> (u16, Vec<u16>) {
    match image_of(plan, target.len()) {
        Ok(image) => (numbers::GOOD, image),
        Err(number) => (number, target.to_vec()),
    }
}

/// T, the count of words that a plan needs, or the number that refuses the
/// plan.
pub fn size(plan: &[u16]) -> Result<usize, u16> {
    accept(plan).map(|kernel| kernel.total())
}

/// The fresh image of a plan for a target of so many words.
fn image_of(plan: &[u16], target_words: usize) -> Result<Vec<u16>, u16> {
    let kernel = accept(plan)?;
    if kernel.total() != target_words {
        return Err(numbers::TARGET);
    }
    Ok(kernel.encode())
}

/// The fresh kernel of a plan, or the number that refuses the plan.
pub fn accept(plan: &[u16]) -> Result<Kernel, u16> {
    if plan.len() < 5 {
        return Err(numbers::PLAN);
    }
    let frame = Frame::read(plan).ok_or(numbers::OUT_OF_RANGE)?;
    let segments = read_segments(&plan[5..], &frame).ok_or(numbers::PLAN)?;
    let length: usize = segments.iter().map(Vec::len).sum();
    if Layout::new(frame).first_segment + length > LARGEST_TOTAL {
        return Err(numbers::PLAN);
    }
    Ok(fresh(&frame, segments))
}

/// The segments that the pairs and programs after the frame give, if none is
/// missing, none is out of bounds and no word is left over.
fn read_segments(words: &[u16], frame: &Frame) -> Option<Vec<Vec<u16>>> {
    let (pairs, mut programs) = words.split_at_checked(2 * frame.tasks)?;
    let mut segments = Vec::new();
    for pair in pairs.chunks_exact(2) {
        let (length, program_length) = (usize::from(pair[0]), usize::from(pair[1]));
        if length == 0 || program_length > length {
            return None;
        }
        let (program, rest) = programs.split_at_checked(program_length)?;
        let mut segment = program.to_vec();
        segment.resize(length, 0);
        segments.push(segment);
        programs = rest;
    }
    programs.is_empty().then_some(segments)
}

/// The kernel in which every task is ready and nothing has happened yet.
fn fresh(frame: &Frame, segments: Vec<Vec<u16>>) -> Kernel {
    let mut ready = Queue::fresh(frame.tasks);
    (0..frame.tasks).for_each(|task| ready.append(word(task)));
    Kernel {
        slice: frame.slice,
        clock: frame.slice,
        ready,
        tasks: segments.into_iter().map(|segment| fresh_task(frame, segment)).collect(),
        messages: vec![vec![Queue::fresh(frame.message); frame.tasks]; frame.tasks],
    }
}

fn fresh_task(frame: &Frame, segment: Vec<u16>) -> Task {
    Task {
        registers: [0, word(segment.len()), 0, 0, 0, 0, 0, 0],
        flags: Flags::default(),
        status: 0,
        peer: 0,
        input: Queue::fresh(frame.input),
        output: Queue::fresh(frame.output),
        port: Port::default(),
        segment,
    }
}

#[cfg(test)]
mod tests {
    use super::*;
    use crate::check::check;

    const PAPERS: [u16; 9] = [1, 2, 1, 1, 1, 4, 2, 4656, 4672];
    const SMALLEST: [u16; 7] = [1, 1, 1, 1, 1, 1, 0];

    /// The image that a good plan gives in a target of T words.
    fn image(plan: &[u16], total: usize) -> Vec<u16> {
        let (number, image) = build(plan, &vec![9; total]);
        assert_eq!(number, 0);
        assert_eq!(check(&image), 0);
        image
    }

    /// The number of a refused build, which must leave its target as it was.
    fn refusal(plan: &[u16], target_words: usize) -> u16 {
        let before: Vec<u16> = (0..target_words).map(|k| (k % 251) as u16 + 1).collect();
        let (number, after) = build(plan, &before);
        assert_ne!(number, 0);
        assert_eq!(after, before);
        number
    }

    /// A plan of 16 tasks whose segments all have one length and no program.
    fn sixteen(capacity: u16, length: u16) -> Vec<u16> {
        [vec![16, 1, capacity, capacity, capacity], [length, 0].repeat(16)].concat()
    }

    #[test]
    fn the_papers_plan_gives_its_57_words() {
        let by_hand: [&[u16]; 10] = [
            &[19284, 1, 1, 2, 1, 1, 1, 18, 27, 32, 34, 39, 44, 49, 51, 53, 57, 2],
            &[0, 4, 0, 0, 0, 0, 0, 0, 0],
            &[0, 0, 1, 1, 0],
            &[0, 0],
            &[0, 0, 0, 1, 0],
            &[0, 0, 0, 1, 0],
            &[0, 0, 0, 1, 0],
            &[0, 0],
            &[53, 4],
            &[4656, 4672, 0, 0],
        ];
        assert_eq!(size(&PAPERS), Ok(57));
        assert_eq!(image(&PAPERS, 57), by_hand.concat());
    }

    #[test]
    fn the_smallest_image_has_54_words() {
        assert_eq!(size(&SMALLEST), Ok(54));
        let image = image(&SMALLEST, 54);
        assert_eq!(image[51..], [53, 1, 0]);
        assert_eq!(check(&image[..53]), 5);
    }

    #[test]
    fn two_tasks_are_ready_in_order() {
        let plan = [2, 9, 1, 2, 3, 2, 1, 3, 3, 10, 20, 21, 22];
        let image = image(&plan, 109);
        assert_eq!(image[7..18], [18, 36, 42, 46, 56, 68, 96, 100, 104, 109, 9]);
        assert_eq!(image[36..42], [0, 0, 2, 2, 0, 1]);
        assert_eq!(image[100..], [104, 2, 106, 3, 10, 0, 20, 21, 22]);
        assert_eq!(image[19], 2);
        assert_eq!(image[28], 3);
    }

    #[test]
    fn the_largest_tables_end_at_10646() {
        let plan = sixteen(32, 1);
        assert_eq!(size(&plan), Ok(10662));
        let image = image(&plan, 10662);
        assert_eq!(image[15..18], [10646, 10662, 1]);
        assert_eq!(image[162..166], [0, 0, 16, 16]);
        assert!((0..16).eq(image[166..182].iter().copied()));
        assert_eq!(image[10644..10648], [10661, 1, 0, 0]);
    }

    #[test]
    fn a_plan_under_5_words_is_11_before_3() {
        for count in 0..5 {
            assert_eq!(refusal(&[0; 5][..count], 54), 11);
            assert_eq!(refusal(&SMALLEST[..count], 0), 11);
            assert_eq!(size(&SMALLEST[..count]), Err(11));
        }
        assert_eq!(refusal(&[0; 5], 54), 3);
    }

    #[test]
    fn each_number_out_of_its_range_is_3() {
        let outside = [(0, 17), (0, 65535), (1, 0), (2, 33), (2, 65535), (3, 33), (4, 33)];
        let zeros = (0..5).map(|place| (place, 0));
        for (place, value) in outside.into_iter().chain(zeros) {
            let mut plan = SMALLEST;
            plan[place] = value;
            assert_eq!(refusal(&plan, 54), 3);
            assert_eq!(size(&plan), Err(3));
        }
    }

    #[test]
    fn what_is_missing_or_left_over_is_11() {
        for count in 5..9 {
            assert_eq!(refusal(&PAPERS[..count], 57), 11);
            assert_eq!(size(&PAPERS[..count]), Err(11));
        }
        assert_eq!(refusal(&[1, 2, 1, 1, 1, 4, 2, 4656, 4672, 0], 57), 11);
        assert_eq!(refusal(&[2, 1, 1, 1, 1, 1, 0], 54), 11);
        assert_eq!(refusal(&[2, 1, 1, 1, 1, 1, 0, 1], 54), 11);
        assert_eq!(refusal(&[1, 1, 1, 1, 1, 1, 0, 1, 0], 54), 11);
    }

    #[test]
    fn a_program_fills_its_segment_at_most() {
        assert_eq!(image(&[1, 1, 1, 1, 1, 2, 0], 55)[53..], [0, 0]);
        assert_eq!(image(&[1, 1, 1, 1, 1, 2, 1, 7], 55)[53..], [7, 0]);
        assert_eq!(image(&[1, 1, 1, 1, 1, 2, 2, 7, 8], 55)[53..], [7, 8]);
        assert_eq!(refusal(&[1, 1, 1, 1, 1, 2, 3, 7, 8, 9], 55), 11);
        assert_eq!(refusal(&[1, 1, 1, 1, 1, 0, 0], 53), 11);
        assert_eq!(refusal(&[1, 1, 1, 1, 1, 0, 1, 7], 53), 11);
    }

    #[test]
    fn a_total_over_32768_is_11() {
        assert_eq!(size(&[1, 1, 1, 1, 1, 32715, 0]), Ok(32768));
        assert_eq!(image(&[1, 1, 1, 1, 1, 32715, 0], 32768)[16], 32768);
        assert_eq!(refusal(&[1, 1, 1, 1, 1, 32716, 0], 32769), 11);
        assert_eq!(refusal(&[1, 1, 1, 1, 1, 32716, 0], 32768), 11);
        assert_eq!(refusal(&[1, 1, 1, 1, 1, 65535, 0], 52), 11);
        assert_eq!(size(&[2, 1, 1, 1, 1, 65535, 0, 1, 0]), Err(11));
        assert_eq!(size(&sixteen(1, 65535)), Err(11));
        assert_eq!(refusal(&sixteen(32, 65535), 10630), 11);
    }

    #[test]
    fn a_target_of_another_count_of_words_is_12() {
        for target_words in [0, 53, 55, 108, 54 + 65536] {
            assert_eq!(refusal(&SMALLEST, target_words), 12);
        }
        assert_eq!(refusal(&[1, 1, 1, 1, 1, 32715, 0], 32767), 12);
        assert_eq!(refusal(&[1, 1, 1, 1, 1, 32715, 0], 32769), 12);
    }

    #[test]
    fn of_two_faults_the_first_tested_decides() {
        assert_eq!(refusal(&[17, 1, 1, 1], 0), 11);
        assert_eq!(refusal(&[17, 1, 1, 1, 1], 0), 3);
        assert_eq!(refusal(&[1, 1, 1, 33, 1, 0, 0], 0), 3);
        assert_eq!(refusal(&[1, 0, 1, 1, 1, 65535, 0], 0), 3);
        assert_eq!(refusal(&[1, 1, 1, 1, 0, 1, 0, 9], 0), 3);
        assert_eq!(refusal(&[1, 1, 1, 1, 1, 1, 2, 7, 7], 53), 11);
        assert_eq!(refusal(&[1, 1, 1, 1, 1, 65535, 0], 0), 11);
        assert_eq!(refusal(&[1, 1, 1, 1, 1, 1, 0, 9], 55), 11);
    }
}
