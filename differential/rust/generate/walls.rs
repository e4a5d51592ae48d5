//! Positions about the walls of the box, and widths about their distances (02-change-requests.md, Ask 7).

use oracle::records::Settings;

use crate::{
    draft::Draft,
    floats,
    rng::Rng,
    settings::{roomy, small},
    walk::{self, Mix, CALM, FAULTS},
};

/// A box of each kind: ordinary, flat, with zeros of both signs, wider than a double's range, far from zero, odd.
fn bounds(rng: &Rng) -> (f64, f64) {
    match rng.below(9) {
        0 => rng.pick(&[(0.0, -0.0), (-0.0, 0.0), (-0.0, -0.0), (0.0, 0.0)]),
        1 => {
            let x = floats::odd_finite(rng);
            (x, x)
        }
        2 => rng.pick(&[(f64::MIN, f64::MAX), (-1e308, 1e308), (f64::MIN, 0.0), (0.0, f64::MAX)]),
        3 => {
            let x = floats::plain(rng, 1e17);
            (x, floats::up(floats::up(x)))
        }
        4 => {
            let (a, b) = (floats::odd_finite(rng), floats::odd_finite(rng));
            if a > b {
                (b, a)
            } else {
                (a, b)
            }
        }
        5 => {
            let x = floats::plain(rng, 1.0);
            (x, x + floats::plain(rng, 1.0).abs())
        }
        _ => (-1.0, 1.0),
    }
}

/// A position: on a face, next to it, a width away from it, in the middle, far outside, or any.
fn place(lo: f64, hi: f64, w: f64, rng: &Rng) -> f64 {
    let exact = match rng.below(9) {
        0 => lo,
        1 => hi,
        2 => hi - w,
        3 => lo + w,
        4 => lo / 2.0 + hi / 2.0,
        5 => lo - rng.pick(&[1.0, w, 1e300]),
        6 => hi + rng.pick(&[1.0, w, 1e300]),
        7 => floats::odd_finite(rng),
        _ => floats::plain(rng, 1.5),
    };
    let near = match rng.below(4) {
        0 => floats::up(exact),
        1 => floats::down(exact),
        _ => exact,
    };
    if near.is_finite() {
        near
    } else {
        0.0
    }
}

fn reset_sometimes(draft: &mut Draft, rng: &Rng, per_mille: u32) {
    if rng.chance(per_mille) {
        draft.reset();
    }
}

/// A walk along the walls. Every component keeps its side for some ticks; fault ticks bring positions of the other side.
pub fn walls(rng: &Rng) -> Vec<Vec<u8>> {
    let mut s = small(rng);
    s.pos_dim = rng.pick(&[1, 8, s.pos_dim]);
    for c in 0..8 {
        (s.box_lo[c], s.box_hi[c]) = bounds(rng);
    }
    let w = match rng.below(4) {
        0 => {
            let (lo, hi) = (s.box_lo[0], s.box_hi[0]);
            let distance = hi - place(lo, hi, 0.5, rng);
            if distance.is_finite() && distance >= 0.0 {
                distance
            } else {
                0.25
            }
        }
        _ => floats::width(rng),
    };
    let mut draft = Draft::new(s);
    if rng.chance(900) {
        draft.width(w);
    }
    reset_sometimes(&mut draft, rng, 700);
    let mix = Mix { guard: 0, outcome_fault: 30, infeasible: 60, reset_over: 0, reset_other: 0, ..CALM };
    let stay = rng.pick(&[0, 500, 800]);
    for _ in 0..120 {
        reset_sometimes(&mut draft, rng, 60);
        let mut plan = walk::next(&draft, rng, &mix);
        for (c, x) in plan.pos.iter_mut().enumerate() {
            *x = if rng.chance(stay) { draft.rt().pos[c] } else { place(s.box_lo[c], s.box_hi[c], w, rng) };
        }
        if rng.chance(200) {
            let fault = rng.pick(&FAULTS);
            fault(&mut plan, &draft, rng);
        }
        draft.send(&plan, rng);
    }
    vec![draft.bytes]
}

/// One component, or all eight alike: a box, a position, and a width that is the distance, next to it, or far from it.
fn face(s: Settings, rng: &Rng) -> Vec<u8> {
    let (lo, hi) = (s.box_lo[0], s.box_hi[0]);
    let x = place(lo, hi, rng.pick(&[0.25, 1.0, 1e-9]), rng);
    let distance = rng.pick(&[hi - x, x - lo]);
    let w = match rng.below(4) {
        0 => floats::up(distance),
        1 => floats::down(distance),
        2 => rng.pick(&[0.0, -0.0, f64::MAX, f64::from_bits(1)]),
        _ => distance,
    };
    let mut draft = Draft::new(s);
    draft.width(if w.is_finite() && w >= 0.0 { w } else { 1.0 });
    reset_sometimes(&mut draft, rng, 800);
    for at in [x, lo, x, hi, floats::up(x), floats::down(x), floats::down(lo), floats::up(hi), x] {
        let mut plan = draft.good(0, rng);
        if at.is_finite() {
            plan.pos.fill(at);
        }
        draft.send(&plan, rng);
        reset_sometimes(&mut draft, rng, 50);
    }
    draft.bytes
}

pub fn faces(rng: &Rng) -> Vec<Vec<u8>> {
    let mut journals = Vec::new();
    for _ in 0..10 {
        let mut s = roomy();
        s.pos_dim = rng.pick(&[1, 1, 8]);
        let (lo, hi) = if rng.chance(300) { sizes_apart(rng) } else { bounds(rng) };
        (s.box_lo, s.box_hi) = ([lo; 8], [hi; 8]);
        journals.push(face(s, rng));
    }
    journals
}

/// Faces so far from each other in size that a distance is rounded.
fn sizes_apart(rng: &Rng) -> (f64, f64) {
    let small = floats::plain(rng, rng.pick(&[1e-16, 1e-15, 1e-10]));
    let large = rng.pick(&[1.0, 2.0, 1024.0, 1e6]);
    if rng.chance(500) {
        (-large, small)
    } else {
        (small, large)
    }
}
