//! The types that the library's wrappers and the model share.

mod answers;
mod engine;
mod layout;
mod machine;
mod policies;

pub use answers::{Answer, Ending, Refusal, RunAnswer};
pub use engine::{Engine, EngineAnswer, EngineRecord};
pub use layout::{Layout, LayoutArray};
pub use machine::{Machine, Record, Status};
pub use policies::{Ceilings, Determinised, Drawing, Made, Merged, Policy, Side};
