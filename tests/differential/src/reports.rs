//! The calls of the C library that count and that tell a share, declared here as `include/kernel.h` has them.

use crate::call::Answer;
use crate::lent::Lent;
use kernel::c::Ran;

extern "C" {
    fn kernel_report(
        image: *mut u16,
        words: usize,
        events: *const u16,
        event_words: usize,
        counts: *mut u32,
        entries: usize,
    ) -> Ran;
    fn kernel_share(counts: *const u32, entries: usize, task: u16, share: *mut f64) -> u16;
}

/// A run that counts, of the events in the second room on the image in the first.
pub fn report(words: &mut [Lent<u16>], counts: &mut Lent<u32>) -> Answer {
    let [image, events] = words else { unreachable!("a report has an image and events") };
    let (image, image_words) = (image.pointer(), image.len());
    let (events, event_words) = (events.pointer(), events.len());
    // SAFETY: a pointer leads to as many as the length beside it says, no two rooms share any, and nobody else has the
    // rooms during the call.
    let Ran { taken, number } =
        unsafe { kernel_report(image, image_words, events, event_words, counts.pointer(), counts.len()) };
    Answer::Report { number, taken }
}

/// A task's share, written to a place that is lent as bits.
pub fn share(counts: &mut Lent<u32>, task: u16, share: &mut Lent<u64>) -> Answer {
    let place = share.pointer().cast::<f64>();
    // SAFETY: as above; a place for 64 bits is one for an f64.
    let told = unsafe { kernel_share(counts.pointer(), counts.len(), task, place) };
    Answer::Share { told }
}
