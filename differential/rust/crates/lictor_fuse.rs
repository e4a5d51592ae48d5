//! The root of lictor-fuse, which is not among the sources.

#![allow(unused_imports, unused_variables)] // fuse.rs still names what the outcome record replaces

pub mod fsm;
pub mod fuse;
pub mod tally;
