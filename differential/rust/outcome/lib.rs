//! What the detectors found out about one tick: the outcome record of 01-scope.md, kind 6.

use lictor_core::{MAX_D, NFEAT};

#[derive(Clone, Copy, Debug)]
pub struct Outcome {
    pub trips: u32,
    pub clamped_dims: u32,
    pub feasible: bool,
    pub margin: f64,
    pub s: f64,
    pub valid: u32,
    pub fired: u32,
    pub z: [f64; NFEAT],
    pub policy_row: [f64; MAX_D],
    pub clamped_row: [f64; MAX_D],
}
