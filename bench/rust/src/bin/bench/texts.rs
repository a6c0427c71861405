//! The texts of the workloads, made by chance from a seed.

use crate::chance::Chance;
use std::fmt::Write;

/// A list of names, and a script that uses them.
pub struct Texts {
    pub names: String,
    pub script: String,
}

impl Texts {
    /// How many lines the two have.
    pub fn lines(&self) -> usize {
        self.names.lines().count() + self.script.lines().count()
    }
}

/// What a mixed script is made of.
#[derive(Clone, Copy)]
pub struct Mix {
    pub lines: usize,
    pub labels: usize,
    pub names: usize,
}

const NAMES: [&str; 8] = ["size", "limit", "first_slot", "count", "buffer", "row", "total_words", "step"];
const LABELS: [&str; 8] = ["loop", "next", "done", "again", "read_line", "put_word", "retry", "exit"];
const REGISTERS: [&str; 12] =
    ["copy", "fetch", "store", "add", "subtract", "multiply", "quotient", "remainder", "and", "or", "xor", "compare"];
const JUMPS: [&str; 5] = ["jump", "jumpeq", "jumplt", "jumpgt", "call"];
const ALONE: [&str; 6] = ["return", "return", "send", "receive", "input", "output"];
const COMMENTS: [&str; 4] =
    ["; the next one", "; R3 holds the count", "; until all are done: see above", "; (a + b) * 2"];

/// The largest value of a name in a mixed script.
const LARGEST: usize = 200;

/// A script of orders, sums, comments and blanks, as one would be written.
pub fn mixed(mix: Mix, seed: u64) -> Texts {
    let mut maker = Maker { chance: Chance(seed), mix, text: String::new() };
    (0..mix.lines).for_each(|k| maker.script_line(k));
    Texts { script: maker.text, names: given_names(mix.names, seed) }
}

/// Names of 400 letters, of which no two differ in more than two.
pub fn long_names(count: usize) -> Vec<String> {
    let named = |k: usize| {
        let mut name = [b'a'; 400];
        name[k % 400] += 1 + (k / 400) as u8;
        name.map(char::from).iter().collect()
    };
    (0..count).map(named).collect()
}

/// Names of six letters that differ in the last three.
pub fn short_names(count: usize) -> Vec<String> {
    let letter = |k: usize| char::from(b'a' + (k % 26) as u8);
    (0..count).map(|k| format!("key{}{}{}", letter(k / 676), letter(k / 26), letter(k))).collect()
}

/// Gives all names, and uses each four times, two on a line, from all over the
/// list.
pub fn uses(names: &[String]) -> Texts {
    let mut texts = Texts { names: String::new(), script: String::new() };
    for (k, name) in names.iter().enumerate() {
        let _ = writeln!(texts.names, "{name} = {k}");
    }
    for k in 0..2 * names.len() {
        let (one, other) = (&names[3373 * k % names.len()], &names[2741 * k % names.len()]);
        let _ = writeln!(texts.script, "load r{} {one} + {other}", k % 8);
    }
    texts
}

fn name(k: usize) -> String {
    format!("{}_{k}", NAMES[k % NAMES.len()])
}

fn label(k: usize) -> String {
    format!("{}_{k}", LABELS[k % LABELS.len()])
}

/// The names of a mixed script; every other one by one above it, as far as its
/// value is not over the largest.
fn given_names(count: usize, seed: u64) -> String {
    let mut chance = Chance(seed);
    let mut text = String::new();
    let mut values: Vec<usize> = Vec::new();
    for k in 0..count {
        let number = 1 + chance.below(99);
        let above = chance.below(k.max(1));
        let sum = values.get(above).map_or(0, |value| (value + number) * 2 - 1);
        if k % 2 == 0 || sum > LARGEST {
            let _ = writeln!(text, "{} = {number}", name(k));
            values.push(number);
        } else {
            let _ = writeln!(text, "{} = ({} + {number}) * 2 - 1", name(k), name(above));
            values.push(sum);
        }
    }
    text
}

/// A mixed script so far.
struct Maker {
    chance: Chance,
    mix: Mix,
    text: String,
}

impl Maker {
    /// Line k; the labels stand at equal distances.
    fn script_line(&mut self, k: usize) {
        let distance = self.mix.lines / self.mix.labels;
        if k.is_multiple_of(distance) && k / distance < self.mix.labels {
            let _ = write!(self.text, "{}:", label(k / distance));
        }
        let body = match self.chance.below(100) {
            0..8 => String::new(),
            8..16 => (*self.chance.of(&COMMENTS)).into(),
            16..36 => format!("    load r{} {}", self.chance.below(8), self.sum()),
            36..72 => self.two_registers(),
            72..88 => format!("\t{} {}", self.chance.of(&JUMPS), self.aim()),
            88..95 => format!("\t{}", self.chance.of(&ALONE)),
            _ => format!("    {}", self.sum()),
        };
        self.text.push_str(&body);
        if self.chance.below(5) == 0 {
            let _ = write!(self.text, "  {}", self.chance.of(&COMMENTS));
        }
        self.text.push('\n');
    }

    fn two_registers(&mut self) -> String {
        format!("    {} r{} r{}", self.chance.of(&REGISTERS), self.chance.below(8), self.chance.below(8))
    }

    /// A label, sometimes with a distance.
    fn aim(&mut self) -> String {
        let label = label(self.chance.below(self.mix.labels));
        match self.chance.below(8) {
            0 => format!("{label} + 2"),
            _ => label,
        }
    }

    /// A sum, in range with names up to the largest.
    fn sum(&mut self) -> String {
        let (one, other) = (name(self.chance.below(self.mix.names)), name(self.chance.below(self.mix.names)));
        let (digit, number) = (self.chance.below(10), self.chance.below(1000));
        match self.chance.below(7) {
            0 | 1 => number.to_string(),
            2 => one,
            3 => format!("{one} + {number}"),
            4 => format!("{one} * {digit} + {number}"),
            5 => format!("({one} + {digit}) * {digit}"),
            _ => format!("{one} * (2 + {other}) - 1"),
        }
    }
}
