//! The order code: one order of one task.

mod code;

pub use code::{Order, Reckoning, LAST_OP};

use crate::image::Task;
use std::cmp::Ordering;

/// The errors of an order that faults.
pub mod error {
    /// An address outside the segment.
    pub const ADDRESS: u16 = 1;
    /// An unknown op or a bad field.
    pub const ORDER: u16 = 2;
    /// An unknown service.
    pub const SERVICE: u16 = 3;
    /// A zero divisor.
    pub const DIVISOR: u16 = 4;
}

/// The register that holds the next order's address.
pub const NEXT: usize = 0;
/// The register that holds the stack pointer.
pub const STACK: usize = 1;

/// Carries out the order at R0. A fault gives its error, and sets it in the
/// flags and nothing else.
pub fn order(task: &mut Task) -> Result<(), u16> {
    let mut after = task.clone();
    let outcome = carry_out(&mut after);
    match outcome {
        Ok(()) => *task = after,
        Err(error) => task.flags.error = error,
    }
    outcome
}

/// Carries out the order at R0; a fault may leave it half done.
fn carry_out(task: &mut Task) -> Result<(), u16> {
    match Order::decode(next_word(task)?)? {
        Order::Load { to } => task.registers[to] = next_word(task)?,
        Order::Copy { to, from } => task.registers[to] = task.registers[from],
        Order::Fetch { to, at } => task.registers[to] = fetch(task, task.registers[at])?,
        Order::Store { from, at } => store(task, task.registers[at], task.registers[from])?,
        Order::Reckon { how, to, by } => {
            task.registers[to] = how.of(task.registers[to], task.registers[by])?;
        }
        Order::Compare { left, right } => {
            task.flags.cc = compared(task.registers[left], task.registers[right]);
        }
        Order::Jump => task.registers[NEXT] = next_word(task)?,
        Order::JumpIf { cc } => {
            let n = next_word(task)?;
            if task.flags.cc == cc {
                task.registers[NEXT] = n;
            }
        }
        Order::Call => call(task)?,
        Order::Return => give_back(task)?,
        Order::Service { number } => task.flags.pending = number,
    }
    Ok(())
}

/// The word at R0, which moves past it.
fn next_word(task: &mut Task) -> Result<u16, u16> {
    let word = fetch(task, task.registers[NEXT])?;
    task.registers[NEXT] = task.registers[NEXT].wrapping_add(1);
    Ok(word)
}

fn fetch(task: &Task, address: u16) -> Result<u16, u16> {
    task.segment.get(usize::from(address)).copied().ok_or(error::ADDRESS)
}

fn store(task: &mut Task, address: u16, word: u16) -> Result<(), u16> {
    let cell = task.segment.get_mut(usize::from(address)).ok_or(error::ADDRESS)?;
    *cell = word;
    Ok(())
}

/// The value of cc for two words.
fn compared(left: u16, right: u16) -> u16 {
    match left.cmp(&right) {
        Ordering::Equal => 0,
        Ordering::Less => 1,
        Ordering::Greater => 2,
    }
}

fn call(task: &mut Task) -> Result<(), u16> {
    let n = next_word(task)?;
    let top = task.registers[STACK].wrapping_sub(1);
    store(task, top, task.registers[NEXT])?;
    task.registers[STACK] = top;
    task.registers[NEXT] = n;
    Ok(())
}

fn give_back(task: &mut Task) -> Result<(), u16> {
    let top = task.registers[STACK];
    task.registers[NEXT] = fetch(task, top)?;
    task.registers[STACK] = top.wrapping_add(1);
    Ok(())
}

#[cfg(test)]
mod tests {
    use super::*;
    use crate::image::Flags;
    use crate::plan;

    /// The only task of an image, with these words, registers and cc.
    fn task(segment: &[u16], registers: [u16; 8], cc: u16) -> Task {
        let length = segment.len() as u16;
        let plan = [&[1, 1, 1, 1, 1, length, length], segment].concat();
        let mut kernel = plan::accept(&plan).expect("a good plan");
        kernel.tasks[0].registers = registers;
        kernel.tasks[0].flags.cc = cc;
        kernel.tasks.remove(0)
    }

    /// The task after an order that is done.
    fn after(mut task: Task) -> Task {
        assert_eq!(order(&mut task), Ok(()));
        task
    }

    /// The registers after a one-word order at address 0, with cc 1, which
    /// must leave words and flags as they were.
    fn registers(first_word: u16, registers: [u16; 8]) -> [u16; 8] {
        let before = task(&[first_word, 21, 22], registers, 1);
        let after = after(before.clone());
        assert_eq!((after.segment, after.flags), (before.segment, before.flags));
        after.registers
    }

    /// The error of an order that faults, which must change nothing else.
    fn fault(before: Task) -> u16 {
        let mut after = before.clone();
        let error = order(&mut after).expect_err("a fault");
        let mut expected = before;
        expected.flags.error = error;
        assert_eq!(after, expected);
        error
    }

    #[test]
    fn load_and_copy() {
        let loaded = after(task(&[0x0150, 777], [0; 8], 0));
        assert_eq!(loaded.registers, [2, 0, 0, 0, 0, 777, 0, 0]);
        assert_eq!(after(task(&[0x0100, 777], [0; 8], 0)).registers[0], 777);
        assert_eq!(registers(0x0256, [0, 0, 0, 0, 0, 8, 9, 0]), [1, 0, 0, 0, 0, 9, 9, 0]);
        assert_eq!(registers(0x0250, [0, 0, 0, 0, 0, 8, 9, 0]), [1, 0, 0, 0, 0, 1, 9, 0]);
    }

    #[test]
    fn fetch_and_store() {
        assert_eq!(registers(0x0345, [0, 0, 0, 0, 9, 2, 0, 0]), [1, 0, 0, 0, 22, 2, 0, 0]);
        assert_eq!(registers(0x0340, [0, 0, 0, 0, 9, 2, 0, 0]), [1, 0, 0, 0, 21, 2, 0, 0]);
        let stored = after(task(&[0x0445, 21, 22], [0, 0, 0, 0, 9, 2, 0, 0], 0));
        assert_eq!(stored.segment, [0x0445, 21, 9]);
        assert_eq!(stored.registers, [1, 0, 0, 0, 9, 2, 0, 0]);
        let own = after(task(&[0x0405, 21, 22], [0; 8], 0));
        assert_eq!(own.segment, [1, 21, 22]);
        for outside in [3, 4, 65535] {
            assert_eq!(fault(task(&[0x0345, 21, 22], [0, 0, 0, 0, 0, outside, 0, 0], 2)), 1);
            assert_eq!(fault(task(&[0x0445, 21, 22], [0, 0, 0, 0, 0, outside, 0, 0], 2)), 1);
        }
    }

    #[test]
    fn reckoning() {
        let result = |word, ra, rb| registers(word, [0, 0, ra, rb, 0, 0, 0, 0])[2];
        assert_eq!(result(0x0523, 65535, 3), 2);
        assert_eq!(result(0x0623, 3, 5), 65534);
        assert_eq!(result(0x0723, 65535, 65535), 1);
        assert_eq!(result(0x0823, 65535, 256), 255);
        assert_eq!(result(0x0923, 1000, 256), 232);
        assert_eq!(result(0x0A23, 0b1100, 0b1010), 0b1000);
        assert_eq!(result(0x0B23, 0b1100, 0b1010), 0b1110);
        assert_eq!(result(0x0C23, 0b1100, 0b1010), 0b0110);
        assert_eq!(fault(task(&[0x0823], [0, 0, 7, 0, 0, 0, 0, 0], 2)), 4);
        assert_eq!(fault(task(&[0x0923], [0, 0, 7, 0, 0, 0, 0, 0], 2)), 4);
    }

    #[test]
    fn compare_is_unsigned() {
        for (left, right, cc) in [(7, 7, 0), (0, 65535, 1), (65535, 0, 2), (6, 7, 1), (7, 6, 2)] {
            for old in 0..3 {
                let before = task(&[0x0D23], [0, 0, left, right, 0, 0, 0, 0], old);
                let after = after(before);
                assert_eq!(after.flags, Flags { cc, error: 0, pending: 0 });
                assert_eq!(after.registers, [1, 0, left, right, 0, 0, 0, 0]);
            }
        }
    }

    #[test]
    fn jumps() {
        assert_eq!(after(task(&[0x0E00, 65535], [0; 8], 0)).registers[0], 65535);
        for cc in 0..3 {
            for a in 0..3 {
                let next = if a == cc { 500 } else { 2 };
                let after = after(task(&[0x0F00 + 16 * a, 500], [0; 8], cc));
                assert_eq!(after.registers[0], next);
            }
        }
        assert_eq!(fault(task(&[0x0F20], [0; 8], 1)), 1);
        assert_eq!(fault(task(&[0x0F20], [0; 8], 2)), 1);
    }

    #[test]
    fn call_and_return() {
        let called = after(task(&[9, 0x1000, 500, 8], [1, 4, 0, 0, 0, 0, 0, 0], 0));
        assert_eq!(called.registers[..2], [500, 3]);
        assert_eq!(called.segment, [9, 0x1000, 500, 3]);
        let over_n = after(task(&[0x1000, 500], [0, 2, 0, 0, 0, 0, 0, 0], 0));
        assert_eq!((over_n.registers[0], over_n.segment), (500, vec![0x1000, 2]));
        assert_eq!(fault(task(&[0x1000, 500], [0; 8], 2)), 1);
        assert_eq!(fault(task(&[0x1000, 500], [0, 3, 0, 0, 0, 0, 0, 0], 2)), 1);
        let returned = after(task(&[0x1100, 21], [0, 1, 0, 0, 0, 0, 0, 0], 0));
        assert_eq!(returned.registers[..2], [21, 2]);
        assert_eq!(fault(task(&[0x1100, 21], [0, 2, 0, 0, 0, 0, 0, 0], 2)), 1);
    }

    #[test]
    fn services() {
        for number in 1..=4 {
            let after = after(task(&[0x1200 + 16 * number], [0; 8], 2));
            assert_eq!(after.flags, Flags { cc: 2, error: 0, pending: number });
            assert_eq!(after.registers[0], 1);
        }
        assert_eq!(fault(task(&[0x1200], [0; 8], 2)), 3);
        assert_eq!(fault(task(&[0x1250], [0; 8], 2)), 3);
        assert_eq!(fault(task(&[0x1251], [0; 8], 2)), 2);
    }

    #[test]
    fn the_first_words_address_is_tested_first() {
        for next in [1, 2, 65535] {
            assert_eq!(fault(task(&[0x0145], [next, 0, 0, 0, 0, 0, 0, 0], 1)), 1);
        }
        assert_eq!(fault(task(&[0x0145], [0; 8], 1)), 2);
        assert_eq!(fault(task(&[0x0140], [0; 8], 1)), 1);
    }
}
