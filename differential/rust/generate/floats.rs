//! Floats to send: ordinary ones, and every odd kind.

use crate::rng::Rng;

/// A number of ordinary size with a random mantissa, between -scale and scale.
pub fn plain(rng: &Rng, scale: f64) -> f64 {
    ((rng.bits() >> 11) as f64 / (1u64 << 52) as f64 - 1.0) * scale
}

/// Zeros, subnormals, ends of the range, and any finite bit pattern.
pub fn odd_finite(rng: &Rng) -> f64 {
    let size = match rng.below(10) {
        0 | 1 => 0.0,
        2 => f64::from_bits(rng.range(1, 3) as u64),
        3 => f64::from_bits(rng.bits() & ((1 << 52) - 1)),
        4 => f64::MIN_POSITIVE,
        5 => f64::MAX,
        6 => f64::MAX / rng.pick(&[2.0, 3.0, 1e3, 1e154]),
        7 => rng.pick(&[1e-9, 1e-160, 1e-155, 1e154, 1e160, 1.0, 2.25]),
        8 => f64::from_bits((rng.range(1, 2046) as u64) << 52),
        _ => loop {
            let x = f64::from_bits(rng.bits());
            if x.is_finite() {
                break x;
            }
        },
    };
    if rng.chance(500) {
        -size
    } else {
        size
    }
}

/// Infinities, and NaNs of any sign and payload.
pub fn not_finite(rng: &Rng) -> f64 {
    match rng.below(5) {
        0 => f64::INFINITY,
        1 => f64::NEG_INFINITY,
        2 => f64::NAN,
        3 => f64::from_bits(0x7ff0_0000_0000_0001),
        _ => f64::from_bits(rng.bits() | 0x7ff0_0000_0000_0001),
    }
}

/// A NaN of any sign and payload.
pub fn any_nan(rng: &Rng) -> f64 {
    match rng.below(3) {
        0 => f64::NAN,
        1 => f64::from_bits(0x7ff0_0000_0000_0001),
        _ => f64::from_bits(rng.bits() | 0x7ff0_0000_0000_0001),
    }
}

/// Any odd float.
pub fn odd(rng: &Rng) -> f64 {
    if rng.chance(350) {
        not_finite(rng)
    } else {
        odd_finite(rng)
    }
}

/// The next double above, for a finite one.
pub fn up(x: f64) -> f64 {
    let bits = x.to_bits();
    if x == 0.0 {
        f64::from_bits(1)
    } else if x > 0.0 {
        f64::from_bits(bits + 1)
    } else {
        f64::from_bits(bits - 1)
    }
}

pub fn down(x: f64) -> f64 {
    -up(-x)
}

/// A width that is accepted: ordinary, zero of both signs, the smallest and the largest.
pub fn width(rng: &Rng) -> f64 {
    match rng.below(6) {
        0 => rng.pick(&[0.0, -0.0, f64::from_bits(1), f64::MIN_POSITIVE, f64::MAX]),
        1 => odd_finite(rng).abs(),
        2 => rng.pick(&[0.25, 0.5, 1.0, 2.0]),
        _ => plain(rng, 1.0).abs(),
    }
}

/// A width that is refused: not finite, or below zero by much or little.
pub fn bad_width(rng: &Rng) -> f64 {
    match rng.below(3) {
        0 => rng.pick(&[-f64::from_bits(1), -1.0, f64::MIN, -f64::MIN_POSITIVE]),
        _ => not_finite(rng),
    }
}

/// A margin: near a half millimetre, near the ends of the printed range, near zero, or odd.
pub fn margin(rng: &Rng) -> f64 {
    let size = match rng.below(9) {
        0 | 1 => (2 * rng.below(8000) + 1) as f64 / 16.0,
        2 => rng.below(3000) as f64 / 2000.0,
        3 => rng.pick(&[999.999, 999.9995, 999.9994999, 999.9996, 1000.0, 1e6, 4503599627370496.0, 1e300]),
        4 => rng.pick(&[0.0, 0.0005, 0.00049, 0.0004999999999999999, 1e-9]),
        5 => odd_finite(rng).abs(),
        6 => plain(rng, 1.0).abs(),
        7 => rng.below(1000000) as f64 / 1000.0,
        _ => not_finite(rng),
    };
    let near = match rng.below(4) {
        0 if size.is_finite() => up(size),
        1 if size.is_finite() => down(size),
        _ => size,
    };
    if rng.chance(500) {
        -near
    } else {
        near
    }
}
