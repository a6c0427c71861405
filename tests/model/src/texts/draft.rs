//! Good texts in lines, so that each line can be wrong alone.

use super::sums::{sum, Known};
use super::writing;
use crate::layout::word;
use crate::rng::Rng;
use crate::translate::Text;
use std::collections::BTreeSet;

/// The most lines of a random text.
const MOST_NAMES: usize = 6;
const MOST_SCRIPT: usize = 14;
/// The brackets that are open at most in a random sum.
const DEPTH: usize = 8;

/// Orders by what stands after their names.
const TWO_REGISTERS: [&str; 12] =
    ["copy", "fetch", "store", "add", "subtract", "multiply", "quotient", "remainder", "and", "or", "xor", "compare"];
const ONE_SUM: [&str; 5] = ["jump", "jumpeq", "jumplt", "jumpgt", "call"];
const NOTHING: [&str; 5] = ["return", "send", "receive", "input", "output"];

/// Two texts.
#[derive(Clone, Debug, Default)]
pub struct Draft {
    pub names: Vec<Line>,
    pub script: Vec<Line>,
    /// Whether the last line of each text lacks its byte 10.
    pub open: [bool; 2],
}

/// A line: the name or label that it gives, its tokens before the sum, those
/// of the sum, and all of it written.
#[derive(Clone, Debug, Default)]
pub struct Line {
    pub gives: Option<String>,
    pub lead: Vec<String>,
    pub sum: Vec<String>,
    pub bytes: Vec<u8>,
}

impl Line {
    /// The same line with its tokens written anew.
    pub fn written(mut self, rng: &mut Rng) -> Line {
        let tokens = [self.lead.as_slice(), &self.sum].concat();
        self.bytes = writing::line(rng, &tokens);
        self
    }

    /// A line of the names that gives a name the value of a sum.
    pub fn naming(rng: &mut Rng, name: &str, sum: Vec<String>) -> Line {
        let lead = vec![name.into(), "=".into()];
        Line { gives: Some(name.into()), lead, sum, bytes: vec![] }.written(rng)
    }

    /// A line of any tokens, with a blank between any two.
    pub fn of_tokens(rng: &mut Rng, tokens: &str) -> Line {
        let lead = tokens.split_whitespace().map(String::from).collect();
        Line { lead, ..Line::default() }.written(rng)
    }
}

impl Draft {
    /// Good texts: names of which each uses those above it, and a script that
    /// uses all names and labels.
    pub fn random(rng: &mut Rng) -> Draft {
        let mut fresh = distinct_names(rng, MOST_NAMES + MOST_SCRIPT);
        let (names, mut known) = random_names(rng, &mut fresh);
        let plans: Vec<Plan> = (0..rng.below(MOST_SCRIPT + 1)).map(|_| Plan::random(rng, &mut fresh)).collect();
        known.extend(labels(&plans));
        let script = plans.into_iter().map(|plan| plan.line(rng, &known)).collect();
        let open = [rng.percent(20), rng.percent(20)];
        Draft { names, script, open }
    }

    pub fn text(&self, text: Text) -> &Vec<Line> {
        match text {
            Text::Names => &self.names,
            Text::Script => &self.script,
        }
    }

    pub fn text_mut(&mut self, text: Text) -> &mut Vec<Line> {
        match text {
            Text::Names => &mut self.names,
            Text::Script => &mut self.script,
        }
    }

    /// The bytes of both texts.
    pub fn bytes(&self) -> [Vec<u8>; 2] {
        [written(&self.names, self.open[0]), written(&self.script, self.open[1])]
    }

    /// Where a line begins in its text.
    pub fn start(&self, text: Text, line: usize) -> usize {
        self.text(text)[..line].iter().map(|line| line.bytes.len() + 1).sum()
    }
}

/// Lines with their bytes 10. An empty last line always has its own, for
/// without it there would be no such line.
fn written(lines: &[Line], open: bool) -> Vec<u8> {
    let mut bytes: Vec<u8> = lines.iter().flat_map(|line| line.bytes.iter().copied().chain([b'\n'])).collect();
    if open && lines.last().is_some_and(|line| !line.bytes.is_empty()) {
        bytes.pop();
    }
    bytes
}

/// So many names, no two the same.
fn distinct_names(rng: &mut Rng, count: usize) -> Vec<String> {
    let mut names = BTreeSet::new();
    while names.len() < count {
        names.insert(writing::name(rng));
    }
    let mut names: Vec<String> = names.into_iter().collect();
    rng.shuffle(&mut names);
    names
}

/// Lines of the names, and what they give.
fn random_names(rng: &mut Rng, fresh: &mut Vec<String>) -> (Vec<Line>, Known) {
    let mut lines = Vec::new();
    let mut known = Known::new();
    for _ in 0..rng.below(MOST_NAMES + 1) {
        match fresh.pop().filter(|_| rng.percent(85)) {
            Some(name) => {
                let (tokens, value) = sum(rng, &known, DEPTH);
                lines.push(Line::naming(rng, &name, tokens));
                known.push((name, value));
            }
            None => lines.push(Line::default().written(rng)),
        }
    }
    (lines, known)
}

/// A line of the script before its sum is chosen.
struct Plan {
    label: Option<String>,
    /// The tokens of the order before its sum.
    order: Vec<String>,
    has_sum: bool,
}

impl Plan {
    fn random(rng: &mut Rng, fresh: &mut Vec<String>) -> Plan {
        let label = fresh.pop().filter(|_| rng.percent(30));
        let (order, has_sum) = match rng.below(10) {
            0 => (vec![], false),
            1..=2 => (vec!["load".into(), register(rng)], true),
            3..=4 => (vec![(*rng.pick(&TWO_REGISTERS)).into(), register(rng), register(rng)], false),
            5..=6 => (vec![(*rng.pick(&ONE_SUM)).into()], true),
            7 => (vec![(*rng.pick(&NOTHING)).into()], false),
            _ => (vec![], true),
        };
        Plan { label, order, has_sum }
    }

    fn words(&self) -> usize {
        usize::from(!self.order.is_empty()) + usize::from(self.has_sum)
    }

    /// The line with a sum that uses what is known.
    fn line(self, rng: &mut Rng, known: &Known) -> Line {
        let label = self.label.iter().flat_map(|label| [label.clone(), ":".into()]);
        let lead = label.chain(self.order).collect();
        let sum = if self.has_sum { sum(rng, known, DEPTH).0 } else { vec![] };
        Line { gives: self.label, lead, sum, bytes: vec![] }.written(rng)
    }
}

fn register(rng: &mut Rng) -> String {
    format!("r{}", rng.below(8))
}

/// The labels, each with the number of words above it.
fn labels(plans: &[Plan]) -> Known {
    let mut place = 0;
    let mut known = Known::new();
    for plan in plans {
        known.extend(plan.label.clone().map(|label| (label, word(place))));
        place += plan.words();
    }
    known
}
