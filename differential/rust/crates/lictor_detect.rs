//! The root of lictor-detect, which is not among the sources.

pub mod brake;
pub mod conformal;
pub mod tier0;
pub mod tier1;
pub mod window;
