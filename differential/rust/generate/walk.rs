//! Random walks: ticks chosen by the run state, with weights that say what a profile is after.

use lictor_core::FuseState;
use oracle::records::{Ack, Head, Settings};

use crate::{
    draft::{Draft, Plan},
    floats,
    rng::Rng,
};

/// How often things happen, each in a thousand ticks.
#[derive(Clone, Copy)]
pub struct Mix {
    /// a chunk is delivered
    pub chunk: u32,
    /// the host supplies a velocity
    pub velocity: u32,
    /// the arm stands still
    pub still: u32,
    /// soft trips, and an infeasible brake
    pub soft: u32,
    pub infeasible: u32,
    /// the outcome brings a fault bit, or bits above the tenth
    pub outcome_fault: u32,
    pub stray_bits: u32,
    /// the score is above tau, in the watch band, or at one of their ends
    pub hit: u32,
    pub warn: u32,
    pub edge: u32,
    /// an acknowledgement comes in Held or Escalated, or in another state, and it is one that can be accepted
    pub ack: u32,
    pub ack_elsewhere: u32,
    pub ack_good: u32,
    /// something that the guard faults
    pub guard: u32,
    /// ticks were missed, no more than the watchdog allows
    pub missed: u32,
    /// odd floats in all that the tick brings
    pub odd: u32,
    /// a reset comes in a state that is over (Fault, Terminated), or in another
    pub reset_over: u32,
    pub reset_other: u32,
}

pub const CALM: Mix = Mix {
    chunk: 250,
    velocity: 300,
    still: 700,
    soft: 60,
    infeasible: 30,
    outcome_fault: 3,
    stray_bits: 5,
    hit: 80,
    warn: 80,
    edge: 20,
    ack: 300,
    ack_elsewhere: 75,
    ack_good: 600,
    guard: 5,
    missed: 50,
    odd: 0,
    reset_over: 300,
    reset_other: 3,
};

pub fn walk(draft: &mut Draft, rng: &Rng, mix: &Mix, ticks: usize) {
    for _ in 0..ticks {
        let over = matches!(draft.state(), FuseState::Fault | FuseState::Terminated);
        if rng.chance(if over { mix.reset_over } else { mix.reset_other }) {
            draft.reset();
        }
        let plan = next(draft, rng, mix);
        draft.send(&plan, rng);
    }
}

/// One tick of a walk.
pub fn next(draft: &Draft, rng: &Rng, mix: &Mix) -> Plan {
    let s = draft.settings;
    let missed = if rng.chance(mix.missed) { rng.range(0, usize::from(s.watchdog)) as u8 } else { 0 };
    let mut plan = draft.good(missed, rng);
    if rng.chance(mix.chunk) {
        plan.deliver(&s, draft.rt().next_chunk_seq, rng);
    }
    motion(&mut plan, &s, rng, mix);
    detectors(&mut plan, &s, rng, mix);
    let heard = matches!(draft.state(), FuseState::Held | FuseState::Escalated);
    if rng.chance(if heard { mix.ack } else { mix.ack_elsewhere }) {
        plan.ack = Some(ack(draft, rng, mix.ack_good));
    }
    if rng.chance(mix.odd) {
        odd(&mut plan, rng);
    }
    if rng.chance(mix.guard) {
        let faults = rng.pick(&[1, 1, 1, 2, 3]);
        for _ in 0..faults {
            let fault = rng.pick(&FAULTS);
            fault(&mut plan, draft, rng);
        }
    }
    plan
}

fn motion(plan: &mut Plan, s: &Settings, rng: &Rng, mix: &Mix) {
    let still = rng.chance(mix.still);
    if !still {
        for x in &mut plan.pos {
            *x += floats::plain(rng, 0.2);
        }
    }
    if rng.chance(mix.velocity) {
        let speed = if still { rng.pick(&[0.0, s.v_stop_eps / 16.0]) } else { rng.pick(&[0.01, 1.0, 1e3]) };
        plan.velocity((0..s.pos_dim).map(|_| floats::plain(rng, speed)).collect());
    }
    plan.aux = (0..rng.pick(&[0, 0, 1, 4, 8])).map(|_| floats::plain(rng, 1.0)).collect();
    plan.ext = (0..rng.pick(&[0, 0, 1, 4])).map(|_| floats::plain(rng, 1.0)).collect();
}

fn detectors(plan: &mut Plan, s: &Settings, rng: &Rng, mix: &Mix) {
    let o = &mut plan.outcome;
    if rng.chance(mix.soft) {
        o.trips |= if rng.chance(700) { 1 << rng.below(6) } else { rng.range(1, 63) as u32 };
    }
    if rng.chance(mix.infeasible) {
        o.feasible = 0;
    }
    if rng.chance(mix.outcome_fault) {
        o.trips |= if rng.chance(600) { 1 << rng.range(6, 9) } else { (rng.range(1, 15) << 6) as u32 };
    }
    if rng.chance(mix.stray_bits) {
        o.trips |= if rng.chance(500) { 1 << rng.range(10, 31) } else { (rng.bits() as u32) & !0x3ff };
    }
    o.s = score(s, rng, mix);
    o.margin = if rng.chance(300) { floats::margin(rng) } else { floats::plain(rng, 2.0) };
    o.clamped_dims = rng.pick(&[0, 1, 0xff, rng.bits() as u32]);
    o.valid = rng.pick(&[0, 0xfff, rng.bits() as u32]);
    o.fired = rng.pick(&[0, 0, 1 << rng.below(12), rng.bits() as u32]);
    for x in o.z.iter_mut().chain(&mut o.policy_row).chain(&mut o.clamped_row) {
        *x = floats::plain(rng, 4.0);
    }
}

/// A score against tau and the watch band.
fn score(s: &Settings, rng: &Rng, mix: &Mix) -> f64 {
    let band = s.tau - s.warn_margin;
    if rng.chance(mix.edge) {
        let edge = rng.pick(&[s.tau, band, 0.0, -0.0]);
        return match rng.below(4) {
            0 if edge.is_finite() => floats::up(edge),
            1 if edge.is_finite() => floats::down(edge),
            _ => edge,
        };
    }
    if rng.chance(mix.hit) {
        return s.tau + floats::plain(rng, 2.0).abs() + 1e-3;
    }
    if rng.chance(mix.warn) {
        return band + (s.tau - band) * (floats::plain(rng, 0.5) + 0.5);
    }
    band - floats::plain(rng, 2.0).abs() - 1e-3
}

/// An acknowledgement: acceptable so many times in a thousand, else wrong in one or several ways.
pub fn ack(draft: &Draft, rng: &Rng, good: u32) -> Ack {
    let rt = draft.rt();
    // Nonces are kept over resets, so large steps are rare, and a slot at its last nonce gives way to one that is not.
    let used = rt.last_nonce.iter().position(|nonce| *nonce > 0 && *nonce < u64::MAX);
    let mut slot = used.filter(|_| rng.chance(500)).unwrap_or(rng.below(8)) as u8;
    if rt.last_nonce[usize::from(slot)] == u64::MAX && rng.chance(800) {
        slot = rt.last_nonce.iter().position(|nonce| *nonce < u64::MAX).map_or(slot, |open| open as u8);
    }
    let stored = rt.last_nonce[usize::from(slot)];
    let step = if rng.chance(60) { rng.pick(&[1 << 40, 1 << 63, u64::MAX]) } else { rng.pick(&[1, 1, 1, 2, 1000]) };
    let more = stored.saturating_add(step);
    let mut ack = Ack { decision: rng.pick(&[0, 0, 1, 2]), slot, nonce: more, handoff: rt.handoff_seq };
    if rng.chance(good) {
        return ack;
    }
    for _ in 0..rng.pick(&[1, 1, 1, 2]) {
        match rng.below(7) {
            0 => ack.slot = rng.pick(&[8, 9, 16, 255, slot.wrapping_add(8)]),
            1 => ack.handoff = rt.handoff_seq.wrapping_add(1),
            2 => ack.handoff = rt.handoff_seq.wrapping_sub(1),
            3 => ack.handoff = rng.pick(&[0, u32::MAX, rng.bits() as u32]),
            4 => ack.nonce = stored,
            5 => ack.nonce = stored.saturating_sub(rng.pick(&[1, 2, 1 << 40])),
            _ => ack.nonce = 0,
        }
    }
    ack
}

/// Odd floats, finite where the guard would fault others.
fn odd(plan: &mut Plan, rng: &Rng) {
    if rng.chance(400) && plan.tick.velocity == 0 && rng.chance(500) {
        let zeros = vec![0.0; plan.pos.len()];
        plan.velocity(zeros);
    }
    let observed = plan.pos.iter_mut().chain(&mut plan.vel).chain(&mut plan.aux).chain(&mut plan.ext);
    for x in observed {
        if rng.chance(500) {
            *x = floats::odd_finite(rng);
        }
    }
    let o = &mut plan.outcome;
    for x in o.z.iter_mut().chain(&mut o.policy_row).chain(&mut o.clamped_row) {
        if rng.chance(300) {
            *x = floats::odd(rng);
        }
    }
    if rng.chance(500) {
        o.s = floats::odd(rng);
    }
    if rng.chance(500) {
        o.margin = floats::odd(rng);
    }
}

type Fault = fn(&mut Plan, &Draft, &Rng);

/// Each spoils a tick in one way that the guard looks for. Those on a chunk add one if there is none.
pub const FAULTS: [Fault; 25] = [
    |p, _, rng| spoil(&mut p.pos, rng),
    |p, d, rng| {
        supply(p, d, rng);
        spoil(&mut p.vel, rng);
    },
    |p, _, rng| {
        p.aux.resize(rng.range(1, 8), 0.5);
        spoil(&mut p.aux, rng);
    },
    |p, _, rng| {
        p.ext.resize(rng.range(1, 4), 0.5);
        spoil(&mut p.ext, rng);
    },
    |p, d, rng| {
        head(p, d, rng);
        spoil(&mut p.chunk, rng);
    },
    |p, _, _| p.tick.schema = 1,
    |p, d, rng| {
        p.head = None;
        p.chunk.clear();
        p.tick.idx = rng.pick(&[d.settings.horizon, d.settings.horizon + 1, u16::MAX]);
    },
    |p, d, rng| {
        let idx = rng.pick(&[d.settings.horizon, d.settings.horizon + 1]);
        let t = p.tick.t;
        head(p, d, rng).t_emit = t.wrapping_sub(u32::from(idx));
        p.tick.idx = idx;
    },
    |p, _, rng| resize(&mut p.pos, rng),
    |p, d, rng| {
        supply(p, d, rng);
        resize(&mut p.vel, rng);
    },
    |p, _, rng| p.aux.resize(rng.range(9, 16), 0.5),
    |p, _, rng| p.ext.resize(rng.range(5, 16), 0.5),
    |p, d, rng| {
        let wrong = rng.pick(&[u16::from(d.settings.dim) + 1, u16::from(d.settings.dim) - 1]);
        head(p, d, rng).dim = wrong;
        fit(p);
    },
    |p, d, rng| {
        let wrong = rng.pick(&[d.settings.horizon + 1, d.settings.horizon - 1]);
        head(p, d, rng).horizon = wrong;
        fit(p);
    },
    |p, d, rng| {
        let wrong = rng.pick(&[d.settings.exec + 1, d.settings.exec - 1, 0, u16::MAX]);
        head(p, d, rng).exec = wrong;
    },
    |p, d, rng| {
        head(p, d, rng);
        resize(&mut p.chunk, rng);
    },
    |p, d, rng| {
        let other = rng.pick(&[1, u32::MAX, 5]);
        let head = head(p, d, rng);
        head.seq = head.seq.wrapping_add(other);
    },
    |p, d, rng| {
        let later = rng.pick(&[1, 1, 1000]);
        let t = p.tick.t;
        head(p, d, rng).t_emit = t.saturating_add(later);
    },
    |p, d, rng| {
        let earlier = rng.pick(&[1, 2, 65536]);
        let head = head(p, d, rng);
        head.t_emit = head.t_emit.saturating_sub(earlier);
    },
    |p, d, rng| {
        head(p, d, rng);
        p.tick.idx = rng.below(usize::from(d.settings.horizon)) as u16;
    },
    |p, _, _| {
        p.head = None;
        p.chunk.clear();
    },
    |p, _, rng| shift(p, rng.pick(&[1, u32::MAX, 2, 256, 65536, 1 << 31])),
    |p, _, rng| {
        let t = rng.pick(&[0, 1, u32::MAX, u32::MAX - 1, u32::MAX - 5, rng.bits() as u32]);
        shift(p, t.wrapping_sub(p.tick.t));
    },
    |p, d, rng| {
        let least = d.settings.watchdog.saturating_add(1);
        let missed = rng.pick(&[least, least, rng.range(usize::from(least), 255) as u8]);
        if d.rt().seq > 0 {
            shift(p, u32::from(missed).wrapping_sub(u32::from(p.tick.missed)));
        }
        p.tick.missed = missed;
    },
    |p, _, rng| p.tick.missed = p.tick.missed.wrapping_add(rng.pick(&[1, 255])),
];

/// Puts something that is not finite into a list that has values.
fn spoil(list: &mut [f64], rng: &Rng) {
    if !list.is_empty() {
        let at = rng.below(list.len());
        list[at] = floats::not_finite(rng);
    }
}

/// Too few values, or one too many.
fn resize(list: &mut Vec<f64>, rng: &Rng) {
    let n = list.len();
    let short = n == 512 || rng.chance(500);
    list.resize(if short { n.saturating_sub(rng.pick(&[1, n])) } else { n + 1 }, 0.5);
}

fn supply(plan: &mut Plan, draft: &Draft, rng: &Rng) {
    if plan.tick.velocity == 0 {
        plan.velocity((0..draft.settings.pos_dim).map(|_| floats::plain(rng, 1.0)).collect());
    }
}

fn head<'a>(plan: &'a mut Plan, draft: &Draft, rng: &Rng) -> &'a mut Head {
    if plan.head.is_none() {
        plan.deliver(&draft.settings, draft.rt().next_chunk_seq, rng);
    }
    plan.head.as_mut().expect("just delivered")
}

/// As many values as the head announces, if the list has room for them.
fn fit(plan: &mut Plan) {
    if let Some(head) = plan.head {
        let count = usize::from(head.horizon) * usize::from(head.dim);
        plan.chunk.resize(count.min(512), 0.5);
    }
}

/// Moves the clock of a tick, and the emit time of its chunk with it.
fn shift(plan: &mut Plan, by: u32) {
    plan.tick.t = plan.tick.t.wrapping_add(by);
    if let Some(head) = &mut plan.head {
        head.t_emit = head.t_emit.wrapping_add(by);
    }
}
