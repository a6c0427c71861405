//! The calls of the library, and what comes back from them.

use model::looking::{Look, Seen};

/// One call, with the words and the bytes that it is lent. A round trip is two: the words are printed to the text, and the
/// printed text is translated to the target.
pub enum Call {
    Check { image: Vec<u16> },
    Size { plan: Vec<u16> },
    Build { plan: Vec<u16>, target: Vec<u16> },
    Event { image: Vec<u16>, event: [u16; 3] },
    Run { image: Vec<u16>, events: Vec<u16> },
    Translate { names: Vec<u8>, script: Vec<u8>, target: Vec<u16> },
    RefusedLine { names: Vec<u8>, script: Vec<u8>, room: u64 },
    Print { words: Vec<u16>, text: Vec<u8> },
    PrintSize { words: Vec<u16> },
    RoundTrip { words: Vec<u16>, text: Vec<u8>, target: Vec<u16> },
    Look { image: Vec<u16>, look: Look },
    Report { image: Vec<u16>, events: Vec<u16>, counts: Vec<u32> },
    Share { counts: Vec<u32>, task: u16, bits: u64 },
}

/// What a call answers.
#[derive(Clone, Copy, Debug, PartialEq, Eq)]
pub enum Answer {
    Check {
        number: u16,
    },
    Size {
        number: u16,
        words: u64,
    },
    Build {
        number: u16,
    },
    Event {
        number: u16,
        kind: u16,
        task: u16,
    },
    Run {
        number: u16,
        taken: u64,
    },
    Translate {
        number: u16,
        text: u16,
        words: u64,
    },
    RefusedLine {
        start: u64,
        bytes: u64,
    },
    Print {
        number: u16,
        bytes: u64,
    },
    PrintSize {
        number: u16,
        bytes: u64,
    },
    RoundTrip {
        printed: u64,
        number: u16,
        words: u64,
    },
    Look(Seen),
    Report {
        number: u16,
        taken: u64,
    },
    /// 1 where there is a share, else 0.
    Share {
        told: u16,
    },
}

/// The names of the calls, in the order of their cases.
pub const NAMES: [&str; 18] = [
    "kernel_check",
    "kernel_size",
    "kernel_build",
    "kernel_event",
    "kernel_run",
    "kernel_translate",
    "kernel_refused_line",
    "kernel_print",
    "kernel_print_size",
    "kernel_print and kernel_translate",
    "kernel_task",
    "kernel_port",
    "kernel_register",
    "kernel_queue_length",
    "kernel_queue_word",
    "kernel_broken_rule",
    "kernel_report",
    "kernel_share",
];

/// The place among the names of the first call that looks into an image.
pub const LOOKS: usize = 10;
/// The places of the calls that count, and that tell a share.
pub const REPORT: usize = 16;
pub const SHARE: usize = 17;

/// The most bytes of a text, or words of a list, that are shown.
const MOST_SHOWN: usize = 500;

/// What a buffer is, and its words or bytes.
pub type Buffer<'a, T> = (&'static str, &'a [T]);

impl Call {
    /// Each buffer of words that the call is lent, with its words before the call.
    pub fn buffers(&self) -> Vec<Buffer<'_, u16>> {
        match self {
            Call::Check { image } | Call::Event { image, .. } | Call::Look { image, .. } => vec![("image", image)],
            Call::Size { plan } => vec![("plan", plan)],
            Call::Build { plan, target } => vec![("plan", plan), ("target", target)],
            Call::Run { image, events } | Call::Report { image, events, .. } => {
                vec![("image", image), ("events", events)]
            }
            Call::Translate { target, .. } => vec![("target", target)],
            Call::RefusedLine { .. } | Call::Share { .. } => vec![],
            Call::Print { words, .. } | Call::PrintSize { words } => vec![("words", words)],
            Call::RoundTrip { words, target, .. } => vec![("words", words), ("target", target)],
        }
    }

    /// Each buffer of bytes that the call is lent, with its bytes before the call.
    pub fn texts(&self) -> Vec<Buffer<'_, u8>> {
        match self {
            Call::Translate { names, script, .. } | Call::RefusedLine { names, script, .. } => {
                vec![("names", names), ("script", script)]
            }
            Call::Print { text, .. } | Call::RoundTrip { text, .. } => vec![("text", text)],
            _ => vec![],
        }
    }

    /// The counts that the call is lent, as they are before it.
    pub fn counts(&self) -> Vec<Buffer<'_, u32>> {
        match self {
            Call::Report { counts, .. } | Call::Share { counts, .. } => vec![("counts", counts)],
            _ => vec![],
        }
    }

    /// The place for a share that the call is lent, as the bits of what it holds before.
    pub fn shares(&self) -> Vec<Buffer<'_, u64>> {
        match self {
            Call::Share { bits, .. } => vec![("share as bits", std::slice::from_ref(bits))],
            _ => vec![],
        }
    }

    /// The call in a few words: its name, its event, room or list, the start of each text, and the length of each buffer.
    pub fn title(&self) -> String {
        let own = match self {
            Call::Event { event, .. } => format!(", event {event:?}"),
            Call::Look { look, .. } => format!(", {look:?}"),
            Call::RefusedLine { room, .. } => format!(", room of {room} words"),
            Call::Report { counts, .. } => format!(", counts {counts:?}"),
            Call::Share { counts, task, .. } => format!(", task {task}, counts {counts:?}"),
            Call::Print { words, .. } | Call::PrintSize { words } | Call::RoundTrip { words, .. } => {
                format!(", list {:?}", &words[..words.len().min(MOST_SHOWN)])
            }
            _ => String::new(),
        };
        let bytes = |(name, bytes): &Buffer<u8>| {
            let shown = bytes[..bytes.len().min(MOST_SHOWN)].escape_ascii();
            format!(", {name} of {} bytes \"{shown}\"", bytes.len())
        };
        let words = |(name, words): &Buffer<u16>| format!(", {name} of {} words", words.len());
        let texts: String = self.texts().iter().map(bytes).collect();
        let buffers: String = self.buffers().iter().map(words).collect();
        format!("{}{own}{texts}{buffers}", NAMES[self.place()])
    }

    /// The call's place among the names.
    pub fn place(&self) -> usize {
        match self {
            Call::Check { .. } => 0,
            Call::Size { .. } => 1,
            Call::Build { .. } => 2,
            Call::Event { .. } => 3,
            Call::Run { .. } => 4,
            Call::Translate { .. } => 5,
            Call::RefusedLine { .. } => 6,
            Call::Print { .. } => 7,
            Call::PrintSize { .. } => 8,
            Call::RoundTrip { .. } => 9,
            Call::Look { look, .. } => LOOKS + look.call(),
            Call::Report { .. } => REPORT,
            Call::Share { .. } => SHARE,
        }
    }
}
