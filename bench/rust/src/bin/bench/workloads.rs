//! The workloads: an image, and what is done with it.

use crate::assembler::Program;
use crate::chance::Chance;
use crate::kernels::RUST;
use crate::lists::program;
use crate::programs::*;
use crate::texts::{long_names, mixed, short_names, uses, Mix, Texts};

/// Events of one run.
const EVENTS: usize = 60_000;
/// The largest T.
const LARGEST: usize = 32768;
/// The most words that are printed, and the longest line of a printed text.
const LONGEST_LIST: usize = 32715;
const LONGEST_LINE: usize = 16;

const TICK: [u16; 3] = [0, 0, 0];

/// What is measured.
pub enum Work {
    /// One run over a list; the unit is an event.
    Run(Vec<u16>),
    /// So many checks; the unit is a call.
    Checks(usize),
    /// So many builds of a plan in the image; the unit is a call.
    Builds(usize, Vec<u16>),
    /// So many single calls of `event` with a tick; the unit is a call.
    Ticks(usize),
    /// A translation of each of some texts to a part of the image; the unit is
    /// a line.
    Translations(Vec<Texts>),
    /// A print of a program to a text of its size; the unit is a line of it.
    Print(Printable),
}

/// Words, and how many bytes and lines their text has.
pub struct Printable {
    pub words: Vec<u16>,
    bytes: usize,
    lines: usize,
}

pub struct Workload {
    pub name: String,
    pub image: Vec<u16>,
    pub work: Work,
}

impl Work {
    /// How many events, calls or lines are timed together.
    pub fn units(&self) -> usize {
        match self {
            Work::Run(list) => list.len() / 3,
            Work::Checks(count) | Work::Builds(count, _) | Work::Ticks(count) => *count,
            Work::Translations(all) => all.iter().map(Texts::lines).sum(),
            Work::Print(program) => program.lines,
        }
    }

    /// How many bytes are printed.
    pub fn text_bytes(&self) -> usize {
        match self {
            Work::Print(program) => program.bytes,
            _ => 0,
        }
    }
}

/// N programs, the slice, one capacity for all buffers, and the segments'
/// length.
struct Setting {
    programs: Vec<Program>,
    slice: u16,
    capacity: u16,
    lengths: Vec<usize>,
}

impl Setting {
    /// Each task with a segment of 160 words.
    fn small(programs: Vec<Program>, slice: u16, capacity: u16) -> Setting {
        let lengths = vec![160; programs.len()];
        Setting { programs, slice, capacity, lengths }
    }

    /// Segments of one length, the last one longer, that fill T to 32768.
    fn large(programs: Vec<Program>, slice: u16, capacity: u16) -> Setting {
        let n = programs.len();
        let left = LARGEST - first_segment(n, usize::from(capacity));
        let mut lengths = vec![left / n; n];
        lengths[n - 1] += left % n;
        Setting { programs, slice, capacity, lengths }
    }

    fn plan(&self) -> Vec<u16> {
        let c = self.capacity;
        let mut plan = vec![self.programs.len() as u16, self.slice, c, c, c];
        for (program, length) in self.programs.iter().zip(&self.lengths) {
            plan.extend([*length as u16, program.words().len() as u16]);
        }
        self.programs.iter().for_each(|program| plan.extend(program.words()));
        plan
    }

    fn image(&self) -> Vec<u16> {
        let total = first_segment(self.programs.len(), usize::from(self.capacity)) + self.lengths.iter().sum::<usize>();
        let mut image = vec![0; total];
        assert_eq!((RUST.build)(&self.plan(), &mut image), 0);
        image
    }
}

/// The offset of the first segment, for one capacity of all buffers.
fn first_segment(n: usize, capacity: usize) -> usize {
    18 + 9 * n + 4 + n + 2 * n + (2 * n + n * n) * (4 + capacity) + 4 * n
}

/// Every workload, in the order of the table.
pub fn all() -> Vec<Workload> {
    let mut all = vec![
        ticks("arithmetic, N 1, S 1000", &arithmetics(1, 1000)),
        ticks("fetch/store/call/return, N 1, S 100", &Setting::small(vec![fetch_store_call()], 100, 1)),
        ticks("ping-pong, N 2, S 10", &Setting::small(vec![serve(1), give_answer(0)], 10, 1)),
        ticks("round robin, N 16, S 1", &arithmetics(16, 1)),
        ticks("ring, N 16, S 10, capacities 32, T 32768", &rings()),
        output_heavy(),
        echoes(),
    ];
    all.extend(same_loop());
    all.extend(calls());
    all
}

/// Texts to translate, and words to print, in the order of their table.
pub fn texts() -> Vec<Workload> {
    vec![
        mixed_texts(1, Mix { lines: 30_000, labels: 1000, names: 500 }),
        mixed_texts(10, Mix { lines: 3000, labels: 100, names: 50 }),
        mixed_texts(100, Mix { lines: 300, labels: 10, names: 10 }),
        translations("8192 names of 400 letters, nearly alike".into(), vec![uses(&long_names(8192))]),
        translations("8192 names of 6 letters, nearly alike".into(), vec![uses(&short_names(8192))]),
        print_back(LONGEST_LIST),
    ]
}

/// So many texts of one mix.
fn mixed_texts(count: u64, mix: Mix) -> Workload {
    let name = format!("{} lines, {} labels, {} names", mix.lines, mix.labels, mix.names);
    translations(name, (1..=count).map(|seed| mixed(mix, seed)).collect())
}

/// A translation of each text, to a target with room for all.
fn translations(name: String, all: Vec<Texts>) -> Workload {
    Workload { name, image: (0..=u16::MAX).collect(), work: Work::Translations(all) }
}

/// A print of so many words to a text of its size.
fn print_back(count: usize) -> Workload {
    let words = program(count, 1);
    let mut text = vec![0; LONGEST_LINE * count];
    let printed = baseline::print(&words, &mut text);
    let bytes = printed.bytes as usize;
    let lines = text[..bytes].iter().filter(|byte| **byte == b'\n').count();
    let work = Work::Print(Printable { words, bytes, lines });
    Workload { name: format!("print, {count} words"), image: Vec::new(), work }
}

fn arithmetics(n: usize, slice: u16) -> Setting {
    Setting::small(vec![arithmetic(); n], slice, 1)
}

/// 16 tasks in a ring that use all of T.
fn rings() -> Setting {
    Setting::large((0..16).map(|me| ring(me, 1382)).collect(), 10, 32)
}

/// A run of ticks alone.
fn ticks(name: &str, setting: &Setting) -> Workload {
    Workload { name: name.into(), image: setting.image(), work: Work::Run(TICK.repeat(EVENTS)) }
}

/// The same loop for 1, 4 and 16 tasks, at T small and large.
fn same_loop() -> Vec<Workload> {
    let mut all = Vec::new();
    for n in [1, 4, 16] {
        let programs = vec![arithmetic(); n];
        let settings = [Setting::small(programs.clone(), 100, 1), Setting::large(programs, 100, 1)];
        for setting in settings {
            let name = format!("same loop, S 100, N {n}, T {}", setting.image().len());
            all.push(ticks(&name, &setting));
        }
    }
    all
}

/// Calls that each test an image or make one.
fn calls() -> Vec<Workload> {
    let small = arithmetics(1, 1000).image();
    let busy = busy_ring();
    let plan = rings().plan();
    let named = |name: &str, image: &[u16], work| Workload { name: name.into(), image: image.to_vec(), work };
    vec![
        named(&format!("check, N 1, T {}", small.len()), &small, Work::Checks(10_000)),
        named("check, N 16, T 32768", &busy, Work::Checks(1_000)),
        named("check, words in every buffer, N 16, T 32768", &crowded_ring(), Work::Checks(1_000)),
        named("build, N 16, T 32768", &busy, Work::Builds(100, plan)),
        named(&format!("event, N 1, T {}", small.len()), &small, Work::Ticks(10_000)),
        named("event, N 16, T 32768", &busy, Work::Ticks(1_000)),
    ]
}

/// The ring after 10,000 ticks, with full input buffers.
fn busy_ring() -> Vec<u16> {
    let mut image = rings().image();
    let inputs = (0..16).flat_map(|device| [1, device, 65].repeat(32));
    let list: Vec<u16> = TICK.repeat(10_000).into_iter().chain(inputs).collect();
    assert_eq!((RUST.run)(&mut image, &list).number, 0);
    image
}

/// The ring with words in every buffer: of any count, from any slot on, and each
/// eighth buffer full. Its ports are busy.
fn crowded_ring() -> Vec<u16> {
    const N: usize = 16;
    const CAPACITY: usize = 32;
    let mut image = rings().image();
    let mut chance = Chance(1);
    let buffers = 2 * N + N * N;
    let first = first_segment(N, CAPACITY) - 4 * N - buffers * (4 + CAPACITY);
    let (parts, ports) = image[first..].split_at_mut(buffers * (4 + CAPACITY));
    for (k, queue) in parts.chunks_exact_mut(4 + CAPACITY).enumerate() {
        let head = chance.below(CAPACITY);
        let count = if k % 8 == 7 { CAPACITY } else { 1 + chance.below(CAPACITY - 1) };
        queue[..3].copy_from_slice(&[head, (head + count) % CAPACITY, count].map(|word| word as u16));
        let largest = if k < 2 * N { 255 } else { 65535 };
        (0..count).for_each(|word| queue[4 + (head + word) % CAPACITY] = 1 + chance.below(largest) as u16);
    }
    ports[..2 * N].copy_from_slice(&[1, 65].repeat(N));
    assert_eq!((RUST.check)(&image), 0);
    image
}

/// Four tasks that print: an output is done after every four ticks.
fn output_heavy() -> Workload {
    let setting = Setting::small(vec![print(); 4], 10, 4);
    with_devices("output-heavy, N 4, S 10", &setting, 4, |device| vec![[2, device, 0]])
}

/// Four tasks that echo: after every five ticks a character comes in and an
/// output is done.
fn echoes() -> Workload {
    let setting = Setting::small(vec![echo(); 4], 10, 4);
    with_devices("echo, N 4, S 10", &setting, 5, |device| vec![[1, device, 97 + device], [2, device, 0]])
}

/// A run in which after so many ticks a device, each in its turn, reports what
/// it can: an event that would be refused is left out.
fn with_devices(name: &str, setting: &Setting, period: usize, reports: fn(u16) -> Vec<[u16; 3]>) -> Workload {
    let image = setting.image();
    let mut after = image.clone();
    let mut list = Vec::new();
    for device in (0..setting.programs.len() as u16).cycle() {
        let events = vec![TICK; period].into_iter().chain(reports(device));
        list.extend(events.filter(|event| (RUST.run)(&mut after, event).number == 0).flatten());
        if list.len() >= 3 * EVENTS {
            break;
        }
    }
    Workload { name: name.into(), image, work: Work::Run(list) }
}
