//! An independent model of the kernel, written from the paper and the requests alone.
//!
//! It decodes an image's words into structs, acts on the structs and encodes
//! them back. Its answers are stored as vectors that the kernel is compared
//! with, so it shares no code and no definitions with the kernel.

#![forbid(unsafe_code)]

pub mod breaches;
pub mod building;
pub mod cases;
pub mod changes;
pub mod check;
pub mod damage;
pub mod events;
pub mod good;
pub mod happening;
pub mod image;
pub mod junk;
pub mod layout;
pub mod lists;
pub mod lively;
pub mod looking;
pub mod numbers;
pub mod ordering;
pub mod orders;
pub mod plan;
pub mod printing;
pub mod queue;
pub mod reporting;
pub mod reports;
pub mod rng;
pub mod rules;
pub mod runner;
pub mod runner_files;
pub mod running;
pub mod runs;
pub mod texts;
pub mod translate;
pub mod vectors;
pub mod views;
pub mod which;
pub mod wrong;
