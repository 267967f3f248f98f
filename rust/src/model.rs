//! The rules in plain Rust, to be read beside them.
//!
//! Each function does what the quoted sentence above it says, in the same order.
//! Numbers have 64 bits where nothing may wrap. Nothing here is meant to be fast.

mod arithmetic;
mod bundles;
mod bytes;
mod check;
mod commands;
mod determinise;
mod engine;
mod exploration;
mod forward;
mod guest;
mod install;
mod instructions;
mod landings;
mod layout;
mod loading;
mod machine;
mod merge;
mod outputs;
mod policies;
mod precedence;
mod records;
mod rewrite;
pub mod words;

pub use bundles::bundles;
pub use bytes::{read, write};
pub use check::check;
pub use commands::Command;
pub use determinise::determinise;
pub use engine::{engine, engine_continue};
pub use forward::{check_forward, forward, most_steps};
pub use guest::Guest;
pub use install::{install, word_right};
pub use instructions::Instr;
pub use layout::{layout_right, mask};
pub use loading::load;
pub use machine::run;
pub use merge::merge;
pub use precedence::precedence;
pub use rewrite::rewrite;
