//! The root of lictor-core, which is not among the sources: modules and names as their users import them.

extern crate alloc;

pub mod ack;
pub mod chunk;
pub mod envelope;
pub mod fmath;
pub mod reason;
pub mod scores;
pub mod state;
pub mod verdict;

pub use ack::*;
pub use chunk::*;
pub use envelope::*;
pub use reason::*;
pub use scores::*;
pub use state::*;
pub use verdict::*;
