//! The text forms that people write: routines, drum files and policy files.
//!
//! Text becomes words and numbers here, and these become text. The library decides
//! whether they are right. For a text that cannot be read, the result is a list of
//! all its errors, each with its place.

mod assemble;
mod drum;
mod hints;
mod kinds;
mod listing;
mod names;
mod numbers;
mod objections;
mod policy;
mod refused_bytes;
mod said;
mod states;

pub use assemble::{assemble, Routine, Shown, Source};
pub use drum::{drum, drum_in_part, landings_text, Drum, Landings, NamedCell, Scales, LETTERS};
pub use hints::hint;
pub use kinds::{condition_name, Field};
pub use listing::{command, instruction, listing, Listed};
pub use names::Names;
pub use numbers::{number, scaled, scaled_text};
pub use objections::{backward, objections, Objection};
pub use policy::{policy, policy_text, Form, PolicyFile, Table};
pub use refused_bytes::refused_bytes;
pub use said::{is_unseen, Fault, Parsed, Place, LONGEST_LINE};
