//! Queues in place: head, tail, length, capacity, then the slots.

use std::mem;

pub const HEAD: usize = 0;
pub const TAIL: usize = 1;
pub const LENGTH: usize = 2;
pub const CAPACITY: usize = 3;
pub const SLOTS: usize = 4;

/// A queue lent from an image; its capacity is the count of its slots.
pub struct Queue<'a> {
    words: &'a mut [u16; SLOTS],
    slots: &'a mut [u16],
}

impl<'a> Queue<'a> {
    /// The queue in a part of the image.
    #[inline(always)]
    pub fn new(part: &'a mut [u16]) -> Queue<'a> {
        let (words, slots) = part.split_first_chunk_mut().expect("a queue");
        Queue { words, slots }
    }

    #[inline(always)]
    pub fn is_empty(&self) -> bool {
        self.words[LENGTH] == 0
    }

    #[inline(always)]
    pub fn is_full(&self) -> bool {
        usize::from(self.words[LENGTH]) == self.slots.len()
    }

    /// The slot after one, 0 after the last.
    #[inline(always)]
    fn step(&self, at: u16) -> u16 {
        if usize::from(at) + 1 == self.slots.len() {
            0
        } else {
            at + 1
        }
    }

    /// The first word of a queue that is not empty.
    #[inline(always)]
    pub fn first(&self) -> u16 {
        self.slots[usize::from(self.words[HEAD])]
    }

    /// Appends to a queue that has room.
    #[inline(always)]
    pub fn append(&mut self, word: u16) {
        let tail = self.words[TAIL];
        self.slots[usize::from(tail)] = word;
        self.words[TAIL] = self.step(tail);
        self.words[LENGTH] += 1;
    }

    /// Takes from a queue that is not empty, and leaves 0 in the slot.
    #[inline(always)]
    pub fn take(&mut self) -> u16 {
        let head = self.words[HEAD];
        let word = mem::take(&mut self.slots[usize::from(head)]);
        self.words[HEAD] = self.step(head);
        self.words[LENGTH] -= 1;
        word
    }

    /// Takes the first word, which is given, and appends it: the length stays.
    /// The slots are one where the queue is full, so the store comes last.
    #[inline(always)]
    pub fn turn(&mut self, first: u16) {
        let [head, tail, ..] = *self.words;
        self.slots[usize::from(head)] = 0;
        self.words[HEAD] = self.step(head);
        self.slots[usize::from(tail)] = first;
        self.words[TAIL] = self.step(tail);
    }
}

/// Buffers of one capacity that follow one another.
pub struct Buffers<'a> {
    words: &'a mut [u16],
    width: usize,
}

impl<'a> Buffers<'a> {
    #[inline(always)]
    pub fn new(words: &'a mut [u16], capacity: usize) -> Buffers<'a> {
        Buffers { words, width: SLOTS + capacity }
    }

    /// The buffer at an index.
    #[inline(always)]
    pub fn at(&mut self, index: usize) -> Queue<'_> {
        Queue::new(&mut self.words[index * self.width..][..self.width])
    }
}
