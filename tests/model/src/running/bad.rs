//! Runs on bad images of each number. The image is tested before the list's
//! length, so a list that would be refused changes nothing of that.

use super::random::events;
use super::Course;
use crate::damage::{self, Damage};
use crate::good;
use crate::image::Kernel;
use crate::layout::LARGEST_TOTAL;
use crate::lively;
use crate::rng::Rng;

/// How many bad images there are of each number.
const IMAGES: usize = 5;
/// The most events of a list for them.
const MOST_EVENTS: usize = 8;
/// An event of an unknown kind.
const UNKNOWN: [u16; 3] = [3, 0, 0];
/// The numbers of bad images.
pub const NUMBERS: [u16; 6] = [1, 2, 3, 4, 5, 6];

/// Bad images of each number, each with lists of every sort.
pub fn all(seed: u64) -> Vec<Course> {
    let mut rng = Rng::new(seed);
    let mut courses = Vec::new();
    for number in NUMBERS {
        let damages = damage::of_number(number);
        courses.extend((0..IMAGES).map(|_| course(&mut rng, &damages, number)));
    }
    courses
}

/// A bad image with an empty list, a good one, one whose first event is
/// refused and one of no multiple of three words.
fn course(rng: &mut Rng, damages: &[Damage], number: u16) -> Course {
    let frame = good::frame(rng);
    let kernel = lively::kernel(rng, frame);
    let image = damaged(rng, &kernel, damages);
    let most = rng.between(1, MOST_EVENTS);
    let list = events(rng, &kernel, most);
    let refused = [UNKNOWN.to_vec(), list.clone()].concat();
    let cut = list[..list.len() - rng.between(1, 2)].to_vec();
    let mut course = Course::on(image);
    for list in [vec![], list, refused, cut] {
        let case = course.judge(list);
        assert_eq!((case.taken, case.number), (0, number));
    }
    course
}

/// A damaged image that is no longer than a good one can be.
pub fn damaged(rng: &mut Rng, kernel: &Kernel, damages: &[Damage]) -> Vec<u16> {
    loop {
        let words = damage::any(rng, kernel, damages);
        if words.len() <= LARGEST_TOTAL {
            return words;
        }
    }
}
