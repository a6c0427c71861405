//! The baseline in safe Rust: the paper's kernel, in place on an image of
//! 16-bit words. The image is the only state. Beside it a translator of texts
//! and a printer.
#![forbid(unsafe_code)]

mod check;
mod events;
mod kernel;
mod layout;
mod orders;
mod plans;
mod printing;
mod queues;
mod runs;
mod services;
mod texts;

/// What the calls come to, as the product tells it.
pub use ::kernel::c::{Printed, Ran, Size, Told, Translated};
pub use check::check;
pub use plans::{build, size};
pub use printing::{print, print_size};
pub use runs::{event, run};
pub use texts::{translate, translate_or_name, Refused};

/// The numbers that come back.
mod numbers {
    pub const UNDER_HEADER: u16 = 1;
    pub const MARK_OR_EDITION: u16 = 2;
    pub const OUT_OF_RANGE: u16 = 3;
    pub const OFFSET: u16 = 4;
    pub const SEGMENT_OR_TOTAL: u16 = 5;
    pub const OTHER_RULE: u16 = 6;
    pub const MALFORMED_EVENT: u16 = 7;
    pub const INPUT_FULL: u16 = 8;
    pub const PORT_IDLE: u16 = 9;
    pub const PLAN: u16 = 11;
    pub const TARGET: u16 = 12;
    pub const GRAMMAR: u16 = 13;
    pub const NOT_GIVEN: u16 = 14;
    pub const TOO_LARGE: u16 = 15;
    pub const NO_ROOM: u16 = 16;
}
