//! Compares the C library with the model on random and damaged inputs. A case is one
//! call of each on the same input. It passes if the answers, and all that was lent,
//! are the same afterwards.
//!
//! Each part has a file with the comparison of its function, which other parts call
//! too, and its cases. It requires that every number that the function can answer was
//! seen. Without the library, only the sample tray of the rules and the guest rule
//! are tested, on the model.

#[path = "../common/mod.rs"]
mod common;

mod guest;
mod tray;

#[cfg(feature = "native")]
mod bases;
#[cfg(feature = "native")]
mod ceilings;
#[cfg(feature = "native")]
mod check;
#[cfg(feature = "native")]
mod determinise;
#[cfg(feature = "native")]
mod engine;
#[cfg(feature = "native")]
mod forward;
#[cfg(feature = "native")]
mod install;
#[cfg(feature = "native")]
mod isolation;
#[cfg(feature = "native")]
mod landings;
#[cfg(feature = "native")]
mod layouts;
#[cfg(feature = "native")]
mod load;
#[cfg(feature = "native")]
mod merge;
#[cfg(feature = "native")]
mod old_lists;
#[cfg(feature = "native")]
mod precedence;
#[cfg(feature = "native")]
mod read;
#[cfg(feature = "native")]
mod registers;
#[cfg(feature = "native")]
mod rewrite;
#[cfg(feature = "native")]
mod run;
#[cfg(feature = "native")]
mod sample;
#[cfg(feature = "native")]
mod transparency;
#[cfg(feature = "native")]
mod word_right;
#[cfg(feature = "native")]
mod write;
