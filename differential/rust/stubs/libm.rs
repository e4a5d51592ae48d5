//! Stands in for libm, which fmath.rs calls when its feature `std` is off. Both roots are correctly rounded.
//! The feature stays off because with it envelope.rs needs crates that are not at hand (toml, serde_json).

pub fn sqrt(x: f64) -> f64 {
    x.sqrt()
}
