//! Makes journals, each from a profile's name and a seed: the same two give the same bytes on every machine.

pub mod bad;
pub mod draft;
pub mod floats;
pub mod long;
pub mod profiles;
pub mod rng;
pub mod settings;
pub mod walk;
pub mod walls;
