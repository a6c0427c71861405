//! The programs of the workloads.

use crate::assembler::*;

/// Eight sums and other reckonings a turn, in a loop of 100 turns that begins
/// again.
pub fn arithmetic() -> Program {
    let mut p = Program::default();
    p.load(3, 3);
    p.load(4, 65521);
    p.load(6, 100);
    let again = p.here();
    p.load(7, 0);
    let turn = p.here();
    p.add(2, 3);
    p.copy(5, 2);
    p.multiply(5, 4);
    p.exclusive_or(5, 3);
    p.quotient(5, 3);
    p.and(5, 4);
    p.subtract(4, 5);
    p.or(4, 3);
    p.load(5, 1);
    p.add(7, 5);
    p.compare(7, 6);
    p.jump_if(LESS, turn);
    p.jump(again);
    p
}

/// Adds 1 to each of 64 words by a subroutine, and begins again.
pub fn fetch_store_call() -> Program {
    let mut p = Program::default();
    p.load(3, 1);
    let again = p.here();
    p.load(2, 64);
    p.load(4, 128);
    let turn = p.here();
    p.call(0);
    p.compare(2, 4);
    p.jump_if(LESS, turn);
    p.jump(again);
    p.aim(turn, p.here());
    p.fetch(5, 2);
    p.add(5, 3);
    p.store(5, 2);
    p.add(2, 3);
    p.give_back();
    p
}

/// Sends to a peer, receives from it and begins again.
pub fn serve(peer: u16) -> Program {
    let mut p = Program::default();
    p.load(2, peer);
    p.load(4, 1);
    let turn = p.here();
    p.service(SEND);
    p.service(RECEIVE);
    p.add(3, 4);
    p.jump(turn);
    p
}

/// Receives from a peer, sends to it and begins again.
pub fn give_answer(peer: u16) -> Program {
    let mut p = Program::default();
    p.load(2, peer);
    let turn = p.here();
    p.service(RECEIVE);
    p.service(SEND);
    p.jump(turn);
    p
}

/// One of 16 tasks in a ring: sends to the next, receives from the one before,
/// and adds the word to words that lie all over its segment.
pub fn ring(me: u16, length: u16) -> Program {
    let mut p = Program::default();
    p.load(6, 61);
    p.load(7, length);
    let again = p.here();
    p.load(4, 64);
    let turn = p.here();
    p.load(2, (me + 1) % 16);
    p.service(SEND);
    p.load(2, (me + 15) % 16);
    p.service(RECEIVE);
    p.fetch(5, 4);
    p.add(5, 3);
    p.store(5, 4);
    p.add(3, 6);
    p.add(4, 6);
    p.compare(4, 7);
    p.jump_if(LESS, turn);
    p.jump(again);
    p
}

/// Puts out one character after another.
pub fn print() -> Program {
    let mut p = Program::default();
    p.load(4, 1);
    p.load(5, 127);
    let turn = p.here();
    p.service(OUTPUT);
    p.add(3, 4);
    p.and(3, 5);
    p.jump(turn);
    p
}

/// Puts out what comes in.
pub fn echo() -> Program {
    let mut p = Program::default();
    p.service(INPUT);
    p.service(OUTPUT);
    p.jump(0);
    p
}
