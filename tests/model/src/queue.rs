//! A queue: the words it holds, and its free slots.

use crate::layout::{word, QUEUE_LEAD};
use std::collections::VecDeque;

/// A queue whose leading words keep the rules. Its slots are a ring: read
/// from the head on, first come the words held and then the free slots'.
#[derive(Clone, Debug, PartialEq, Eq)]
pub struct Queue {
    pub head: usize,
    pub held: VecDeque<u16>,
    pub free: VecDeque<u16>,
}

impl Queue {
    /// An empty queue of zeros.
    pub fn fresh(capacity: usize) -> Queue {
        Queue { head: 0, held: VecDeque::new(), free: VecDeque::from(vec![0; capacity]) }
    }

    /// The queue that stands at the start of the words, or nothing where its
    /// leading words break a rule.
    pub fn decode(words: &[u16], capacity: usize) -> Option<Queue> {
        let lead = words[..QUEUE_LEAD].iter().map(|&w| usize::from(w)).collect::<Vec<_>>();
        let [head, tail, length, named] = lead[..] else { return None };
        let sound = named == capacity
            && head < capacity
            && tail < capacity
            && length <= capacity
            && (head + length) % capacity == tail;
        sound.then(|| {
            let mut held = VecDeque::from(words[QUEUE_LEAD..QUEUE_LEAD + capacity].to_vec());
            held.rotate_left(head);
            let free = held.split_off(length);
            Queue { head, held, free }
        })
    }

    /// The queue's words: head, tail, length, capacity and the slots.
    pub fn encode(&self) -> Vec<u16> {
        let mut slots: VecDeque<u16> = self.held.iter().chain(&self.free).copied().collect();
        slots.rotate_right(self.head);
        let tail = (self.head + self.held.len()) % self.capacity();
        let lead = [self.head, tail, self.held.len(), self.capacity()].map(word);
        lead.into_iter().chain(slots).collect()
    }

    pub fn capacity(&self) -> usize {
        self.held.len() + self.free.len()
    }

    pub fn is_empty(&self) -> bool {
        self.held.is_empty()
    }

    pub fn is_full(&self) -> bool {
        self.free.is_empty()
    }

    /// Whether every free slot holds 0.
    pub fn is_clear(&self) -> bool {
        self.free.iter().all(|&word| word == 0)
    }

    /// Stores a word in the first free slot.
    pub fn append(&mut self, word: u16) {
        self.free.pop_front().expect("a queue that is appended to has a free slot");
        self.held.push_back(word);
    }

    /// Takes the first word and leaves 0 in its slot.
    pub fn take(&mut self) -> u16 {
        let word = self.held.pop_front().expect("a queue that is taken from holds a word");
        self.free.push_back(0);
        self.head = (self.head + 1) % self.capacity();
        word
    }
}

#[cfg(test)]
mod tests {
    use super::*;

    #[test]
    fn a_taken_slot_becomes_0() {
        let mut queue = Queue::fresh(2);
        queue.append(7);
        queue.append(8);
        assert_eq!(queue.encode(), [0, 0, 2, 2, 7, 8]);
        assert_eq!(queue.take(), 7);
        assert_eq!(queue.encode(), [1, 0, 1, 2, 0, 8]);
        queue.append(9);
        assert_eq!(queue.encode(), [1, 1, 2, 2, 9, 8]);
        assert_eq!([queue.take(), queue.take()], [8, 9]);
        assert_eq!(queue.encode(), [1, 1, 0, 2, 0, 0]);
    }

    #[test]
    fn decoding_reads_round_the_end() {
        let words = [2, 1, 2, 3, 20, 30, 10];
        let queue = Queue::decode(&words, 3).expect("a sound queue");
        assert_eq!(queue.held, [10, 20]);
        assert_eq!(queue.free, [30]);
        assert_eq!(queue.encode(), words);
    }

    #[test]
    fn a_queue_is_clear_where_its_free_slots_hold_0() {
        let clear = [[0, 1, 1, 3, 7, 0, 0], [1, 2, 1, 3, 0, 0, 0], [2, 2, 0, 3, 0, 0, 0], [1, 1, 3, 3, 7, 8, 9]];
        let others = [[0, 1, 1, 3, 7, 8, 0], [0, 1, 1, 3, 0, 0, 1], [1, 2, 1, 3, 3, 0, 0], [2, 2, 0, 3, 0, 65535, 0]];
        let is_clear = |words: &[u16; 7]| Queue::decode(words, 3).expect("a sound queue").is_clear();
        assert!(clear.iter().all(is_clear));
        assert!(!others.iter().any(is_clear));
    }

    #[test]
    fn unsound_leading_words_are_refused() {
        for lead in [[2, 0, 0, 2], [0, 2, 2, 2], [0, 1, 3, 2], [0, 1, 0, 2], [0, 0, 0, 1]] {
            let words = [lead.to_vec(), vec![0, 0]].concat();
            assert_eq!(Queue::decode(&words, 2), None);
        }
    }
}
