//! Runs guest routines on a drum controller, and keeps them to their sandbox by
//! rewriting and checking.
//!
//! - [`native`] (feature `native`) wraps the C library that firmware links.
//! - [`model`] implements the same rules a second time, in plain Rust, written
//!   from the rules alone. Tests compare the library with it.
//! - [`text`] reads and prints the text forms of routines, drums and policies, for
//!   the command `hemdroas` (feature `native`).
//!
//! Library and model share the types of this module and the numbers of [`names`],
//! so their answers can be compared directly.

#![deny(missing_docs)]

pub mod model;
pub mod names;
#[cfg(feature = "native")]
pub mod native;
pub mod text;
mod types;

pub use types::*;
