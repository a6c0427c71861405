//! The model's vectors, compared with what each kernel does.

use crate::kernels::{Kernel, OnTexts};
use baseline::{Printed, Size};
use std::fs;

type Outcome = Result<(), String>;

/// Added to the kind of a record that is wrong on purpose.
const WRONG: u16 = 256;

/// Compares a kernel with every record of a file, and with none that is wrong
/// on purpose may it agree. Gives how many there were; a kernel without calls on
/// texts has none in a file of prints.
pub fn compare(kernel: &Kernel, file: &str) -> Result<usize, String> {
    let bytes = fs::read(file).map_err(|error| format!("{file}: {error}"))?;
    let words: Vec<u16> = bytes.chunks_exact(2).map(|pair| u16::from_le_bytes([pair[0], pair[1]])).collect();
    let mut reader = Reader { left: &words, image: Vec::new() };
    let mut cases = 0;
    while !reader.left.is_empty() {
        let first = reader.word();
        let kind = first % WRONG;
        let outcome = match kind {
            1 => reader.check(kernel),
            2 => reader.build(kernel),
            3 => {
                reader.stand();
                continue;
            }
            5 => reader.event(kernel),
            6 => reader.run(kernel),
            8 => match kernel.texts {
                Some(texts) => reader.print(texts),
                None => return Ok(0),
            },
            _ => Err("a kind that is not known".into()),
        };
        cases += 1;
        let outcome = match outcome {
            outcome if first < WRONG => outcome,
            Ok(()) => Err("agrees with what is wrong".into()),
            Err(_) => Ok(()),
        };
        outcome.map_err(|what| format!("{}: {file}: case {cases}, kind {kind}: {what}", kernel.name))?;
    }
    Ok(cases)
}

/// What is left of a file, and the image that stands.
struct Reader<'a> {
    left: &'a [u16],
    image: Vec<u16>,
}

impl<'a> Reader<'a> {
    fn word(&mut self) -> u16 {
        self.words(1)[0]
    }

    fn count(&mut self) -> usize {
        let pair = self.words(2);
        usize::from(pair[0]) + (usize::from(pair[1]) << 16)
    }

    fn words(&mut self, count: usize) -> &'a [u16] {
        let (words, left) = self.left.split_at(count);
        self.left = left;
        words
    }

    /// So many bytes, two to a word; the high byte of a last odd one is left.
    fn bytes(&mut self, count: usize) -> Vec<u8> {
        let words = self.words(count.div_ceil(2));
        words.iter().flat_map(|word| word.to_le_bytes()).take(count).collect()
    }

    /// The image that stands with so many pairs of place and word changed.
    fn changed(&mut self, pairs: usize) -> Vec<u16> {
        let mut image = self.image.clone();
        for pair in self.words(2 * pairs).chunks_exact(2) {
            image[usize::from(pair[0])] = pair[1];
        }
        image
    }

    fn stand(&mut self) {
        self.word();
        let count = self.count();
        self.image = self.words(count).to_vec();
    }

    fn check(&mut self, kernel: &Kernel) -> Outcome {
        let expected = self.word();
        let count = self.count();
        let image = self.words(count).to_vec();
        same("number", (kernel.check)(&image), expected)
    }

    fn build(&mut self, kernel: &Kernel) -> Outcome {
        let expected = self.word();
        let (plan_words, target_words) = (self.count(), self.count());
        let salt = usize::from(self.word());
        let number = self.word();
        let size = Size { words: self.count() as u64, number };
        let plan = self.words(plan_words).to_vec();
        let mut target: Vec<u16> = (0..target_words).map(|k| (31 * k + salt) as u16).collect();
        let after = if expected == 0 { self.words(target_words).to_vec() } else { target.clone() };
        same("number", (kernel.build)(&plan, &mut target), expected)?;
        same_units("word", &target, &after)?;
        same("size", (kernel.size)(&plan), size)
    }

    fn event(&mut self, kernel: &Kernel) -> Outcome {
        let expected = self.word();
        let changes = self.count();
        let event = self.words(3);
        let answer = self.words(2);
        let after = self.changed(changes);
        let told = (kernel.event)(&mut self.image, [event[0], event[1], event[2]]);
        same("number and answer", [told.number, told.kind, told.task], [expected, answer[0], answer[1]])?;
        same_units("word", &self.image, &after)
    }

    fn run(&mut self, kernel: &Kernel) -> Outcome {
        let expected = self.word();
        let list_words = self.count();
        let taken = self.count();
        let changes = self.count();
        let list = self.words(list_words).to_vec();
        let after = self.changed(changes);
        let ran = (kernel.run)(&mut self.image, &list);
        same("taken and number", (ran.taken, ran.number), (taken as u64, expected))?;
        same_units("word", &self.image, &after)
    }

    fn print(&mut self, texts: OnTexts) -> Outcome {
        let number = self.word();
        let (list_words, stored_words) = (self.count(), self.count());
        let buffer_bytes = self.count();
        let salt = usize::from(self.word());
        let size_number = self.word();
        let size = Printed { bytes: self.count() as u64, number: size_number };
        let (text_bytes, stored_bytes) = (self.count(), self.count());
        let list = again(self.words(stored_words).to_vec(), list_words);
        let text = again(self.bytes(stored_bytes), text_bytes);
        let mut buffer: Vec<u8> = (0..buffer_bytes).map(|k| (31 * k + salt) as u8).collect();
        let after = [&text, &buffer[text_bytes..]].concat();
        same("number and bytes", (texts.print)(&list, &mut buffer), Printed { bytes: text_bytes as u64, number })?;
        same_units("byte", &buffer, &after)?;
        same("size", (texts.print_size)(&list), size)
    }
}

/// So many units: what is stored of them, again and again.
fn again<T: Clone>(stored: Vec<T>, count: usize) -> Vec<T> {
    stored.into_iter().cycle().take(count).collect()
}

fn same<T: PartialEq + std::fmt::Debug>(what: &str, given: T, expected: T) -> Outcome {
    if given == expected {
        return Ok(());
    }
    Err(format!("{what} is {given:?}, expected {expected:?}"))
}

/// Whether two lists of words or bytes are equal, or the first place where they
/// are not.
pub fn same_units<T: Copy + PartialEq + std::fmt::Debug>(unit: &str, given: &[T], expected: &[T]) -> Outcome {
    same(&format!("count of {unit}s"), given.len(), expected.len())?;
    match given.iter().zip(expected).position(|(given, expected)| given != expected) {
        None => Ok(()),
        Some(place) => same(&format!("{unit} {place}"), given[place], expected[place]),
    }
}
