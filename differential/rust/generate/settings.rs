//! Settings to run under.

use oracle::records::Settings;

use crate::{floats, rng::Rng};

pub const OBSERVE: u8 = 0;
pub const ENFORCE: u8 = 1;
pub const EE_DELTA: u8 = 1;
pub const JOINT_VELOCITY: u8 = 3;
pub const OFF: u8 = 0;
pub const PROJECT: u8 = 1;
pub const AUTO: u8 = 0;
pub const ACK_ONLY: u8 = 1;

/// Ordinary settings with the smallest sizes: every limit leaves room.
pub fn roomy() -> Settings {
    Settings {
        mode: ENFORCE,
        kind: 0,
        clamp: PROJECT,
        rearm: ACK_ONLY,
        dim: 1,
        pos_dim: 1,
        k: 2,
        clear: 2,
        streak: 255,
        confirm: 1,
        watchdog: 2,
        max_rearms: 255,
        horizon: 1,
        exec: 1,
        max_clamps: 65535,
        brake: 65535,
        rearm_hold: 65535,
        hold: 65535,
        handoff: u32::MAX,
        tier0_enabled: 0x7f,
        calib_mask: 0xfff,
        window_mask: 0b11111,
        dt: 0.05,
        inv_dt: 20.0,
        a_max: 1.0,
        v_stop_eps: 0.01,
        warn_margin: 0.5,
        tau: 3.0,
        box_lo: [-1.0; 8],
        box_hi: [1.0; 8],
    }
}

/// Random settings whose limits are small, so that a few ticks reach them.
pub fn small(rng: &Rng) -> Settings {
    let horizon = if rng.chance(30) { 64 } else { rng.range(1, 4) };
    let mut s = Settings {
        mode: if rng.chance(250) { OBSERVE } else { ENFORCE },
        kind: rng.below(5) as u8,
        clamp: if rng.chance(250) { OFF } else { PROJECT },
        rearm: rng.below(2) as u8,
        dim: rng.range(1, 8) as u8,
        pos_dim: rng.range(1, 8) as u8,
        k: rng.pick(&[1, 2, 2, 3, 3, 4]),
        clear: rng.below(4) as u8,
        streak: rng.pick(&[0, 1, 2, 3, 4, 255, 255]),
        confirm: rng.below(4) as u8,
        watchdog: rng.below(4) as u8,
        max_rearms: rng.pick(&[0, 1, 2, 3, 255]),
        horizon: horizon as u16,
        exec: rng.range(1, horizon) as u16,
        max_clamps: rng.pick(&[0, 1, 2, 5, 60, 65535]),
        brake: rng.pick(&[0, 1, 2, 3, 5, 30]),
        rearm_hold: rng.below(4) as u16,
        hold: rng.below(6) as u16,
        handoff: rng.below(6) as u32,
        tier0_enabled: rng.pick(&[0x7f, 0x7f, 0x7f, 0x3f, 0x55, 0, 0x3ff]),
        calib_mask: rng.pick(&[0, 0xfff, 0xfff, 0x0f5, 0x801]),
        window_mask: (1 << rng.range(1, 6)) - 1,
        ..roomy()
    };
    if rng.chance(300) {
        s.box_lo = std::array::from_fn(|_| floats::plain(rng, 1.0));
        s.box_hi = s.box_lo.map(|lo| lo + floats::plain(rng, 1.0).abs());
    }
    if rng.chance(200) {
        s.tau = rng.pick(&[0.0, -0.0, -2.5, 1e-3, f64::INFINITY, f64::NEG_INFINITY]);
    }
    if rng.chance(200) {
        s.warn_margin = rng.pick(&[0.0, -0.0, 1e-17, 2.0, -1.0]);
    }
    s
}

/// Every limit at an end of its range or next to it.
pub fn extreme(rng: &Rng) -> Settings {
    let ends8 = |rng: &Rng| rng.pick(&[0u8, 0, 1, 2, 254, 255]);
    let ends16 = |rng: &Rng| rng.pick(&[0u16, 0, 1, 2, 65534, 65535]);
    let mut s = small(rng);
    s.k = rng.pick(&[0, 1, 2, 63, 64, 65, 255]);
    s.clear = ends8(rng);
    s.streak = ends8(rng);
    s.confirm = ends8(rng);
    s.watchdog = ends8(rng);
    s.max_rearms = ends8(rng);
    s.max_clamps = ends16(rng);
    s.brake = ends16(rng);
    s.rearm_hold = ends16(rng);
    s.hold = ends16(rng);
    s.handoff = rng.pick(&[0, 0, 1, 2, u32::MAX]);
    s.tier0_enabled = rng.pick(&[0, u32::MAX, rng.bits() as u32]);
    s.calib_mask = rng.pick(&[0, u32::MAX, rng.bits() as u32]);
    s.window_mask = any_window(rng);
    s
}

/// Any window mask: narrow, wide, with holes, with bit 63, none, all.
pub fn any_window(rng: &Rng) -> u64 {
    match rng.below(8) {
        0 => 0,
        1 => u64::MAX,
        2 => 1 << 63,
        3 => u64::MAX << rng.range(1, 63),
        4 => rng.bits(),
        5 => rng.bits() & rng.bits() | 1,
        _ => u64::MAX >> rng.range(1, 63),
    }
}

/// Settings whose floats are odd wherever the settings' check lets them be.
pub fn odd(rng: &Rng) -> Settings {
    let mut s = small(rng);
    for x in [&mut s.dt, &mut s.inv_dt, &mut s.a_max, &mut s.v_stop_eps, &mut s.warn_margin] {
        if rng.chance(400) {
            *x = floats::odd_finite(rng);
        }
    }
    if rng.chance(400) {
        s.tau = floats::odd_finite(rng);
    }
    for c in 0..8 {
        if rng.chance(300) {
            let (a, b) = (floats::odd_finite(rng), floats::odd_finite(rng));
            (s.box_lo[c], s.box_hi[c]) = if a > b { (b, a) } else { (a, b) };
        }
        if rng.chance(100) {
            (s.box_lo[c], s.box_hi[c]) = (0.0, -0.0);
        }
    }
    s
}
