//! The values of names, labels and sums.

use super::lines::Lines;
use std::collections::hash_map::{Entry, HashMap};

/// A step of a sum; the operands of an operation stand before it.
#[derive(Clone, Copy)]
pub enum Step<'a> {
    /// None where it is over 65535.
    Number(Option<u16>),
    Name(&'a [u8]),
    Add,
    Subtract,
    Multiply,
}

/// A value, none where it or a part of it is out of range.
type Value = Option<u16>;

/// A name that is not given.
struct Missing;

/// The values of the names and labels, and room to work a sum.
#[derive(Default)]
pub struct Values<'a> {
    given: HashMap<&'a [u8], Value>,
    stack: Vec<Value>,
}

impl<'a> Values<'a> {
    /// Gives all names. Comes back with where the first line out of range
    /// starts, or fails with where the first line starts that uses a name not
    /// given above or gives one again.
    pub fn give_names(&mut self, names: &Lines<'a>) -> Result<Option<usize>, usize> {
        let mut too_large = None;
        for (given, sum) in names.given.iter().zip(&names.sums) {
            let value = self.sum(&names.steps[sum.steps.clone()]).map_err(|Missing| sum.start)?;
            if !self.give(given.name, value) {
                return Err(given.start);
            }
            if value.is_none() {
                too_large.get_or_insert(sum.start);
            }
        }
        Ok(too_large)
    }

    /// Fills in the words of a script that are sums. Comes back with where the
    /// first line out of range starts, or fails with where the first line
    /// starts that uses a name not given or gives one again.
    pub fn fill_words(&mut self, script: &mut Lines<'a>) -> Result<Option<usize>, usize> {
        let given_again = self.give_labels(script);
        let mut too_large = None;
        for sum in &script.sums {
            let missing = |Missing| given_again.map_or(sum.start, |start| start.min(sum.start));
            match self.sum(&script.steps[sum.steps.clone()]).map_err(missing)? {
                Some(value) => script.words[sum.place] = value,
                None => _ = too_large.get_or_insert(sum.start),
            }
        }
        given_again.map_or(Ok(too_large), Err)
    }

    /// Gives all labels. Comes back with where the first line starts that gives
    /// one again.
    fn give_labels(&mut self, script: &Lines<'a>) -> Option<usize> {
        let mut given_again = None;
        for label in &script.given {
            if !self.give(label.name, u16::try_from(label.place).ok()) {
                given_again.get_or_insert(label.start);
            }
        }
        given_again
    }

    /// Gives a name its value, unless it has one already.
    fn give(&mut self, name: &'a [u8], value: Value) -> bool {
        match self.given.entry(name) {
            Entry::Occupied(_) => false,
            Entry::Vacant(free) => {
                free.insert(value);
                true
            }
        }
    }

    /// Works a sum.
    fn sum(&mut self, steps: &[Step<'a>]) -> Result<Value, Missing> {
        self.stack.clear();
        for step in steps {
            let value = match step {
                Step::Number(number) => *number,
                Step::Name(name) => *self.given.get(name).ok_or(Missing)?,
                Step::Add => self.operation(u16::checked_add),
                Step::Subtract => self.operation(u16::checked_sub),
                Step::Multiply => self.operation(u16::checked_mul),
            };
            self.stack.push(value);
        }
        Ok(self.stack.pop().flatten())
    }

    /// Takes two operands and works them.
    fn operation(&mut self, work: fn(u16, u16) -> Value) -> Value {
        let (right, left) = (self.stack.pop()?, self.stack.pop()?);
        work(left?, right?)
    }
}
