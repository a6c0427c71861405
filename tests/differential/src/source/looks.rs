//! Looks into images, good and bad, and the first broken rules of images.

use crate::call::Call;
use model::cases::family;
use model::damage::Damage;
use model::image::Kernel;
use model::junk;
use model::looking::{random, Damages, Look};
use model::rng::Rng;

/// Of so many batches of looks one is into images that may be bad.
const BATCHES_TO_A_BAD_ONE: usize = 4;

/// Looks of every call into a good image, or into one and damaged ones made from it.
pub fn calls(rng: &mut Rng, damages: &[Damage]) -> Vec<Call> {
    let kernel = random::kernel(rng);
    if rng.below(BATCHES_TO_A_BAD_ONE) > 0 {
        return into(rng, &kernel, &kernel.encode());
    }
    let images = family(rng, &kernel, damages);
    images.iter().flat_map(|image| into(rng, &kernel, image)).collect()
}

/// The first broken rules of images in which they are broken by name or at random, of a good one and of random lists.
pub fn broken(rng: &mut Rng, damages: &Damages) -> Vec<Call> {
    let mut images = damages.family(rng);
    let degree = *rng.pick(&junk::DEGREES);
    images.push(junk::list(rng, degree));
    images.into_iter().map(|image| Call::Look { image, look: Look::BrokenRule }).collect()
}

/// Looks of every call into an image that is a kernel's, or made from it, and its first broken rule.
pub fn into(rng: &mut Rng, kernel: &Kernel, image: &[u16]) -> Vec<Call> {
    let mut looks = random::looks(rng, kernel);
    looks.push(Look::BrokenRule);
    looks.into_iter().map(|look| Call::Look { image: image.to_vec(), look }).collect()
}
