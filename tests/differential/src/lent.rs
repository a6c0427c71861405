//! A buffer of words, of bytes or of counts, or the place for a share, that is lent, with guards on both sides.

use crate::call::{Buffer, Call};
use model::rng::Rng;

/// The most guards on a side. Any count of them occurs, so a buffer of words begins at any even address, and one of bytes
/// at any address.
const MOST_GUARDS: usize = 16;

/// What a buffer is made of: words, bytes, counts, or the bits of a share.
pub trait Unit: Copy + PartialEq {
    /// Any of its values.
    fn any(rng: &mut Rng) -> Self;
}

impl Unit for u16 {
    fn any(rng: &mut Rng) -> u16 {
        rng.any_word()
    }
}

impl Unit for u8 {
    fn any(rng: &mut Rng) -> u8 {
        rng.any_word().to_le_bytes()[0]
    }
}

impl Unit for u32 {
    fn any(rng: &mut Rng) -> u32 {
        u32::from(rng.any_word()) << 16 | u32::from(rng.any_word())
    }
}

impl Unit for u64 {
    fn any(rng: &mut Rng) -> u64 {
        u64::from(u32::any(rng)) << 32 | u64::from(u32::any(rng))
    }
}

/// The words, or bytes, of a buffer in a room with guards before and after them.
pub struct Lent<T> {
    room: Vec<T>,
    before: Vec<T>,
    after: Vec<T>,
}

/// A word, or a byte, that is not what the model says.
#[derive(Debug, PartialEq, Eq)]
pub struct Difference<T> {
    /// Its place, counted from the buffer's first; a guard has one outside the buffer.
    pub place: i64,
    pub found: T,
    pub expected: T,
}

/// The rooms of a call: those of its words, of its bytes, of its counts, and of a share.
pub struct Rooms {
    pub words: Vec<Lent<u16>>,
    pub texts: Vec<Lent<u8>>,
    pub counts: Vec<Lent<u32>>,
    pub shares: Vec<Lent<u64>>,
}

impl Rooms {
    /// A room for each buffer of the call.
    pub fn new(rng: &mut Rng, call: &Call) -> Rooms {
        Rooms {
            words: rooms(rng, &call.buffers()),
            texts: rooms(rng, &call.texts()),
            counts: rooms(rng, &call.counts()),
            shares: rooms(rng, &call.shares()),
        }
    }
}

/// A room for each buffer.
fn rooms<T: Unit>(rng: &mut Rng, buffers: &[Buffer<T>]) -> Vec<Lent<T>> {
    buffers.iter().map(|(_, units)| Lent::new(rng, units)).collect()
}

impl<T: Unit> Lent<T> {
    /// A room of its own for these words or bytes, with guards of any count and any value.
    pub fn new(rng: &mut Rng, words: &[T]) -> Lent<T> {
        let [before, after] = [(); 2].map(|()| guards(rng));
        Lent { room: [&before, words, &after].concat(), before, after }
    }

    /// The count of words, or bytes, that are lent.
    pub fn len(&self) -> usize {
        self.room.len() - self.before.len() - self.after.len()
    }

    /// The first that is lent. The pointer is good for the guards too, so that a stray write is seen.
    pub fn pointer(&mut self) -> *mut T {
        self.room.as_mut_ptr().wrapping_add(self.before.len())
    }

    /// The words, or bytes, that are lent.
    pub fn words(&mut self) -> &mut [T] {
        let end = self.before.len() + self.len();
        &mut self.room[self.before.len()..end]
    }

    /// The first that is not the expected one, the guards included.
    pub fn difference(&self, expected: &[T]) -> Option<Difference<T>> {
        assert_eq!(self.len(), expected.len(), "the model changed a length");
        let whole = self.before.iter().chain(expected).chain(&self.after);
        let mut pairs = self.room.iter().zip(whole).enumerate();
        let (at, (&found, &expected)) = pairs.find(|(_, (found, expected))| found != expected)?;
        Some(Difference { place: at as i64 - self.before.len() as i64, found, expected })
    }
}

fn guards<T: Unit>(rng: &mut Rng) -> Vec<T> {
    (0..rng.between(1, MOST_GUARDS)).map(|_| T::any(rng)).collect()
}

#[cfg(test)]
mod tests {
    use super::*;

    /// Three words that are lent, one of the room's changed, counted from the first that is lent.
    fn with_change(place: isize) -> Option<Difference<u16>> {
        let mut lent = Lent::new(&mut Rng::new(1), &[5, 6, 7]);
        let at = lent.before.len().checked_add_signed(place).expect("a guard word");
        lent.room[at] ^= 1;
        lent.difference(&[5, 6, 7])
    }

    #[test]
    fn words_as_they_were_differ_in_nothing() {
        let mut lent = Lent::new(&mut Rng::new(1), &[5u16, 6, 7]);
        assert_eq!(lent.words(), [5, 6, 7]);
        assert_eq!(lent.difference(&[5, 6, 7]), None);
        assert_eq!(Lent::<u16>::new(&mut Rng::new(1), &[]).difference(&[]), None);
        assert_eq!(Lent::new(&mut Rng::new(1), b"text").difference(b"text"), None);
    }

    #[test]
    fn a_changed_word_is_found() {
        assert_eq!(with_change(0), Some(Difference { place: 0, found: 4, expected: 5 }));
        assert_eq!(with_change(2), Some(Difference { place: 2, found: 6, expected: 7 }));
    }

    #[test]
    fn a_changed_guard_is_found() {
        assert_eq!(with_change(-1).map(|difference| difference.place), Some(-1));
        assert_eq!(with_change(3).map(|difference| difference.place), Some(3));
    }

    #[test]
    fn a_changed_byte_is_found() {
        let lent = Lent::new(&mut Rng::new(1), b"text");
        let by_hand = Difference { place: 1, found: b'e', expected: b'a' };
        assert_eq!(lent.difference(b"taxt"), Some(by_hand));
    }
}
