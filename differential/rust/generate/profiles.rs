//! The profiles by name. Most are walks under settings and weights of their own; the rest are in `bad` and `long`.

use lictor_core::FuseState;
use oracle::records::{Ack, Settings};

use crate::{
    bad,
    draft::{Draft, Plan},
    floats, long,
    rng::Rng,
    settings::{self, *},
    walk::{self, walk, Mix, CALM},
    walls,
};

/// How often a profile is run: with every seed, or with the first one alone.
#[derive(Clone, Copy, PartialEq)]
pub enum Often {
    EachSeed,
    Once,
}

pub struct Profile {
    pub name: &'static str,
    pub what: &'static str,
    pub often: Often,
    /// The journals of a seed.
    pub make: fn(&Rng) -> Vec<Vec<u8>>,
}

impl Profile {
    pub fn journals(&self, seed: u64) -> Vec<Vec<u8>> {
        (self.make)(&Rng::new(self.name, seed))
    }
}

const fn each(name: &'static str, what: &'static str, make: fn(&Rng) -> Vec<Vec<u8>>) -> Profile {
    Profile { name, what, often: Often::EachSeed, make }
}

const fn once(name: &'static str, what: &'static str, make: fn(&Rng) -> Vec<Vec<u8>>) -> Profile {
    Profile { name, what, often: Often::Once, make }
}

pub const PROFILES: [Profile; 37] = [
    each("mixed", "a bit of everything under small limits", |rng| {
        let s = small(rng);
        run(s, rng, &CALM, 300)
    }),
    each("stops", "braking, held, escalated, and acknowledgements of every kind", |rng| {
        let mut s = small(rng);
        s.brake = rng.pick(&[1, 2, 3, 30, 30]);
        let mix = Mix { infeasible: 200, still: 900, ack: 400, reset_over: 600, guard: 2, ..CALM };
        run(s, rng, &mix, 400)
    }),
    each("acks", "acknowledgements in every state, right and wrong in every way", acks),
    each("rearm", "automatic rearms and their limits", |rng| {
        let mut s = small(rng);
        s.rearm = AUTO;
        s.brake = 30;
        s.hold = rng.range(1, 8) as u16;
        s.k = rng.pick(&[1, 2, 3]);
        let mix = Mix { infeasible: 150, still: 950, chunk: 600, ack: 60, hit: 40, guard: 1, ..CALM };
        run(s, rng, &mix, 300)
    }),
    each("clamps", "clamps, streaks, budgets and clear-down", |rng| {
        let mut s = small(rng);
        s.clamp = rng.pick(&[OFF, PROJECT, PROJECT, PROJECT]);
        s.tier0_enabled = 0x3f;
        let mix = Mix { soft: 450, chunk: 500, infeasible: 5, hit: 20, warn: 30, still: 900, ack: 500, ..CALM };
        run(s, rng, &mix, 300)
    }),
    each("watch", "scores about tau, windows and their masks", |rng| {
        let mut s = small(rng);
        s.window_mask = if rng.chance(500) { any_window(rng) } else { s.window_mask };
        s.k = rng.pick(&[0, 1, 2, 3, 5, 60, 63, 64, 65, 255]);
        s.clear = rng.pick(&[0, 1, 2, 3, 5, 255]);
        let mix = Mix { hit: 250, warn: 250, edge: 200, infeasible: 3, soft: 20, still: 950, ack: 600, ..CALM };
        run(s, rng, &mix, 300)
    }),
    each("window64", "windows of 64 ticks, filled and emptied", |rng| {
        let s = Settings {
            window_mask: rng.pick(&[u64::MAX, u64::MAX, !1, !(1 << 40), 1 | 1 << 63]),
            k: rng.pick(&[40, 62, 63, 64, 65]),
            clear: rng.pick(&[1, 70, 255]),
            ..small(rng)
        };
        let hit = rng.pick(&[980, 1000]);
        let mix = Mix { hit, warn: 0, edge: 0, soft: 0, infeasible: 0, guard: 0, ack: 900, ..CALM };
        run(s, rng, &mix, 200)
    }),
    each("guard", "every cause that the guard knows, alone and together, from every state", |rng| {
        let mut s = small(rng);
        s.watchdog = rng.pick(&[0, 0, 1, 3, 254, 255]);
        let mix = Mix { guard: 250, reset_over: 500, infeasible: 100, ack: 200, missed: 200, ..CALM };
        run(s, rng, &mix, 300)
    }),
    each("outcome-faults", "fault bits and stray bits from the detectors, and every mask on them", |rng| {
        let mut s = small(rng);
        s.tier0_enabled = rng.pick(&[0, 0x7f, 0x3ff, u32::MAX, rng.bits() as u32]);
        let mix = Mix { outcome_fault: 100, stray_bits: 200, soft: 200, chunk: 500, ..CALM };
        run(s, rng, &mix, 200)
    }),
    each("limits", "every limit at an end of its range", |rng| {
        let s = extreme(rng);
        let mix = Mix { infeasible: 80, soft: 150, hit: 150, chunk: 400, still: 900, ..CALM };
        run(s, rng, &mix, 200)
    }),
    each("odd", "odd floats in the settings and in all that a tick brings", |rng| {
        let s = settings::odd(rng);
        let mix = Mix { odd: 500, infeasible: 100, still: 500, guard: 10, ..CALM };
        run(s, rng, &mix, 200)
    }),
    each("scores", "the tally's maxima: NaN, infinities and zeros of both signs", scores),
    each("warm-up", "NaN scores until a detector is ready, and brake factors of a NaN", |rng| {
        [warm_up(rng), overflowing(rng)].concat()
    }),
    each("margins", "margins about halves and the ends of the printed range", |rng| {
        let mut draft = Draft::new(Settings { clear: 0, ..roomy() });
        draft.reset();
        for _ in 0..150 {
            let mut plan = draft.good(0, rng);
            plan.outcome.margin = floats::margin(rng);
            draft.send(&plan, rng);
        }
        vec![draft.bytes]
    }),
    each("brake", "brake actions of the velocity kinds at all speeds", brake),
    each("roots", "norms whose every bit shows in the brake action", roots),
    each("standstill", "speeds at the limit of standing still, and next to it", standstill),
    each("holds", "hold and brake actions of the position kinds, boxes without zero", |rng| {
        let mut s = small(rng);
        s.mode = ENFORCE;
        s.kind = rng.pick(&[0, 2, 4]);
        s.brake = rng.pick(&[3, 10, 30]);
        s.box_lo = std::array::from_fn(|_| rng.pick(&[-1.0, -0.25, 0.0, -0.0, 0.5, 0.25]));
        s.box_hi = s.box_lo.map(|lo| rng.pick(&[lo, lo + 0.25, lo + 2.0]));
        if rng.chance(300) {
            s.box_lo[0] = 0.0;
            s.box_hi[0] = -0.0;
        }
        let mix = Mix { infeasible: 200, still: 400, guard: 20, ..CALM };
        run(s, rng, &mix, 200)
    }),
    each("shapes", "each pair of action and position sizes, full chunks, longest lists", shapes),
    each("clock", "missed ticks, the clock at its end, nonsense times", clock),
    each("idle", "ticks before any reset", idle),
    each("resets", "resets anywhere, with records waiting", resets),
    each("replays", "acknowledgements of the episodes before, after resets", replays),
    each("observe", "Observe: stops that pass the policy's row", |rng| {
        let mut s = small(rng);
        s.mode = OBSERVE;
        s.brake = rng.pick(&[0, 1, 2, 3, 30]);
        let mix = Mix { infeasible: 120, soft: 150, hit: 120, guard: 15, outcome_fault: 10, ack: 400, ..CALM };
        run(s, rng, &mix, 300)
    }),
    each("triples", "every three events in a row, from a state that the seed chooses", triples),
    each("walls", "positions about the walls of the box, with fault ticks and resets", walls::walls),
    each("faces", "on each face and next to it, and every width about the distance", walls::faces),
    each("widths", "kind 8 good and bad, late, again, cut, while records wait", bad::widths),
    each("refusals", "each cause of refusal, alone and with others", bad::refusals),
    each("bytes", "random bytes, and good journals damaged", bad::bytes),
    each("cuts", "a good journal cut anywhere", bad::cuts),
    once("codes", "every code, flag, size and settings float by itself", bad::codes),
    once("prefixes", "every prefix of a good journal", bad::prefixes),
    once("ends-8", "8-bit counters at their ends", long::ends8),
    once("long-armed", "clean_run at its end, chunk numbers above 16 bits", long::armed),
    once("long-clamps", "65535 clamps and more", long::clamps),
    once("long-stops", "brake, hold and handoff limits of 65535 and more", long::stops),
];

pub fn named(name: &str) -> Option<&'static Profile> {
    PROFILES.iter().find(|p| p.name == name)
}

/// A walk from a reset.
fn run(s: Settings, rng: &Rng, mix: &Mix, ticks: usize) -> Vec<Vec<u8>> {
    let mut draft = Draft::new(s);
    draft.reset();
    walk(&mut draft, rng, mix, ticks);
    vec![draft.bytes]
}

fn acks(rng: &Rng) -> Vec<Vec<u8>> {
    let mix =
        Mix { infeasible: 150, soft: 100, still: 900, guard: 10, ack: 800, ack_elsewhere: 800, ack_good: 350, ..CALM };
    let s = small(rng);
    let mut journals = run(s, rng, &mix, 250);
    for _ in 0..6 {
        // In Idle, where a journal has one clean tick.
        let mut draft = Draft::new(s);
        let mut plan = draft.good(0, rng);
        plan.ack = Some(walk::ack(&draft, rng, 100));
        draft.send(&plan, rng);
        journals.push(draft.bytes);
    }
    journals
}

fn scores(rng: &Rng) -> Vec<Vec<u8>> {
    let mut s = small(rng);
    s.calib_mask = rng.pick(&[0, 0xfff, 0xffff_ffff, 0x0f5, rng.bits() as u32]);
    let mut draft = Draft::new(s);
    draft.reset();
    for _ in 0..120 {
        if rng.chance(60) {
            draft.reset();
        }
        let mut plan = walk::next(&draft, rng, &CALM);
        plan.outcome.valid = rng.pick(&[0xfff, rng.bits() as u32]);
        let few = [f64::NAN, 0.0, -0.0, 1.0, -1.0, f64::INFINITY, f64::NEG_INFINITY, f64::from_bits(1)];
        for x in &mut plan.outcome.z {
            *x = rng.pick(&few);
        }
        plan.outcome.s = rng.pick(&few);
        draft.send(&plan, rng);
    }
    vec![draft.bytes]
}

/// After each reset the scores are NaN for a while, then numbers, with a NaN now and then.
fn warm_up(rng: &Rng) -> Vec<Vec<u8>> {
    let mut s = small(rng);
    s.calib_mask = rng.pick(&[0xfff, 1, rng.bits() as u32]);
    let mut draft = Draft::new(s);
    let mut left = 0;
    for tick in 0..150 {
        if tick == 0 && rng.chance(900) || rng.chance(30) {
            draft.reset();
            left = rng.below(20);
        }
        let nan = if left > 0 { rng.pick(&[900, 1000]) } else { 50 };
        left = left.saturating_sub(1);
        let mut plan = walk::next(&draft, rng, &CALM);
        let score = || if rng.chance(nan) { floats::any_nan(rng) } else { floats::plain(rng, 4.0) };
        plan.outcome.valid = rng.pick(&[0xfff, rng.bits() as u32]);
        plan.outcome.z = std::array::from_fn(|_| score());
        plan.outcome.s = score();
        draft.send(&plan, rng);
    }
    vec![draft.bytes]
}

/// Brake factors whose share is a NaN: an infinite a_max x dt over an infinite norm, or a norm that is a NaN.
fn overflowing(rng: &Rng) -> Vec<Vec<u8>> {
    let mut s = braking(rng);
    s.a_max = rng.pick(&[1e308, -1e308, 2.0]);
    s.dt = rng.pick(&[100.0, 1e10, 0.05]);
    s.inv_dt = rng.pick(&[0.0, -0.0, 20.0, 1e300]);
    while_braking(s, rng, 60, |plan, _, rng| {
        let places = plan.pos.len();
        let far: Vec<f64> = (0..places).map(|_| rng.pick(&[1e308, -1e308, 1e200, 0.0, 1.0])).collect();
        if rng.chance(500) {
            plan.velocity(far);
        } else {
            plan.pos = far;
        }
    })
}

/// Velocity kinds that never stand still, so that each tick shows a brake action.
fn braking(rng: &Rng) -> Settings {
    let mut s = small(rng);
    s.mode = ENFORCE;
    s.kind = rng.pick(&[EE_DELTA, JOINT_VELOCITY]);
    s.brake = 65535;
    s.confirm = 255;
    s.v_stop_eps = -1.0;
    s
}

/// Resets, begins to brake, and then sends so many ticks as `next` changes them.
fn while_braking(s: Settings, rng: &Rng, ticks: usize, next: fn(&mut Plan, &Draft, &Rng)) -> Vec<Vec<u8>> {
    let mut draft = Draft::new(s);
    for _ in 0..ticks {
        let begin = draft.state() != FuseState::Braking;
        if begin {
            draft.reset();
        }
        let mut plan = draft.good(0, rng);
        plan.outcome.feasible = u8::from(!begin);
        next(&mut plan, &draft, rng);
        draft.send(&plan, rng);
    }
    vec![draft.bytes]
}

fn brake(rng: &Rng) -> Vec<Vec<u8>> {
    let mut s = braking(rng);
    s.a_max = rng.pick(&[0.0, 1.0, 2.0, 10.0, -1.0, 1e308, -1e308, 1e-300, floats::odd_finite(rng)]);
    s.dt = rng.pick(&[0.05, 0.0, -0.05, 1.0, 10.0, 1e10, floats::odd_finite(rng)]);
    s.inv_dt = rng.pick(&[20.0, 0.0, -20.0, 1e300, floats::odd_finite(rng)]);
    while_braking(s, rng, 120, |plan, draft, rng| {
        let n = plan.pos.len();
        let speeds = (0..n).map(|_| match rng.below(6) {
            0 => rng.pick(&[0.0, -0.0, 1e308, -1e308, f64::MAX, 1e-300, 1e154]),
            1 => floats::odd_finite(rng),
            2 => floats::plain(rng, 1e-9),
            _ => floats::plain(rng, 2.0 * (draft.settings.a_max * draft.settings.dt).abs().clamp(1e-12, 1e12)),
        });
        let v: Vec<f64> = speeds.collect();
        if rng.chance(600) {
            plan.velocity(v);
        } else {
            plan.pos = v;
        }
    })
}

/// With a_max far below zero the factor is close to its size over the norm: an error of one place in a norm shows.
fn roots(rng: &Rng) -> Vec<Vec<u8>> {
    let mut s = braking(rng);
    s.kind = JOINT_VELOCITY;
    s.a_max = -rng.pick(&[1e30, 1e100, 1e200]);
    s.dt = 1.0;
    while_braking(s, rng, 120, |plan, _, rng| {
        let scale = rng.pick(&[1e-3, 1.0, 1e3, 1e8, 1e20, 1e60, 1e150, 1.3e154]);
        let v = plan.pos.iter().map(|_| floats::plain(rng, scale)).collect();
        plan.velocity(v);
    })
}

fn norm(v: &[f64]) -> f64 {
    lictor_core::fmath::norm(v, v.len())
}

fn standstill(rng: &Rng) -> Vec<Vec<u8>> {
    let mut s = small(rng);
    s.mode = ENFORCE;
    s.brake = 65535;
    s.confirm = rng.pick(&[2, 3, 255]);
    let scale = rng.pick(&[1.0, 1e-3, 1e100, 1.3e154, 1e-100, 1e-150, 1e-154, 1e-158, 1e-161, 1e-162]);
    let v: Vec<f64> = (0..s.pos_dim).map(|_| floats::plain(rng, scale)).collect();
    let limit = norm(&v);
    s.v_stop_eps = rng.pick(&[limit, limit, floats::up(limit), floats::down(limit), 0.0, -0.0]);
    if !s.v_stop_eps.is_finite() {
        s.v_stop_eps = f64::MAX;
    }
    let mut draft = Draft::new(s);
    for _ in 0..100 {
        let begin = !matches!(draft.state(), FuseState::Braking);
        if begin {
            draft.reset();
        }
        let mut plan = draft.good(0, rng);
        plan.outcome.feasible = u8::from(!begin);
        let mut near = v.clone();
        let at = rng.below(near.len());
        near[at] = match rng.below(6) {
            0 => floats::up(near[at]),
            1 => floats::down(near[at]),
            2 => -near[at],
            3 => floats::plain(rng, scale),
            4 => 0.0,
            _ => near[at],
        };
        plan.velocity(near);
        draft.send(&plan, rng);
    }
    vec![draft.bytes]
}

fn shapes(rng: &Rng) -> Vec<Vec<u8>> {
    let mut s = small(rng);
    s.horizon = rng.pick(&[1, 2, 63, 64]);
    s.exec = rng.pick(&[1, s.horizon]);
    let mut draft = Draft::new(s);
    draft.reset();
    let mix = Mix { infeasible: 100, soft: 100, chunk: 150, ..CALM };
    for _ in 0..25 {
        let mut plan = walk::next(&draft, rng, &mix);
        plan.aux.resize(rng.pick(&[0, 7, 8, 8, 9, 16]), 0.5);
        plan.ext.resize(rng.pick(&[0, 3, 4, 4, 5, 16]), 0.5);
        draft.send(&plan, rng);
        if rng.chance(400) {
            draft.reset();
        }
    }
    vec![draft.bytes]
}

fn clock(rng: &Rng) -> Vec<Vec<u8>> {
    let mut s = small(rng);
    s.watchdog = rng.pick(&[0, 3, 100, 255]);
    let mut draft = Draft::new(s);
    draft.reset();
    for _ in 0..120 {
        if rng.chance(30) {
            draft.reset();
        }
        let near_end = draft.rt().last_t >= u32::MAX - 600;
        let missed = if rng.chance(500) { rng.pick(&[0, 1, s.watchdog, rng.bits() as u8]) } else { 0 };
        let mut plan = draft.good(missed, rng);
        if rng.chance(300) {
            plan.deliver(&s, draft.rt().next_chunk_seq, rng);
        }
        if rng.chance(if near_end { 300 } else { 100 }) {
            plan.tick.t = match rng.below(5) {
                0 => u32::MAX,
                1 => u32::MAX - rng.below(600) as u32,
                2 => rng.pick(&[0, 1, plan.tick.t.wrapping_add(1), plan.tick.t.wrapping_sub(1)]),
                3 => rng.bits() as u32,
                _ => u32::MAX - u32::from(missed),
            };
            if rng.chance(800) {
                if let Some(head) = &mut plan.head {
                    head.t_emit = plan.tick.t.wrapping_sub(u32::from(plan.tick.idx));
                }
            }
        }
        draft.send(&plan, rng);
    }
    vec![draft.bytes]
}

fn idle(rng: &Rng) -> Vec<Vec<u8>> {
    let mut journals = Vec::new();
    for _ in 0..6 {
        let mut draft = Draft::new(small(rng));
        let mix = Mix { guard: 200, outcome_fault: 200, soft: 200, ack: 500, ..CALM };
        walk(&mut draft, rng, &mix, few_ticks(rng));
        journals.push(draft.bytes);
    }
    journals
}

fn few_ticks(rng: &Rng) -> usize {
    rng.pick(&[0, 1, 1, 2, 5])
}

fn resets(rng: &Rng) -> Vec<Vec<u8>> {
    let mut draft = Draft::new(small(rng));
    let mix = Mix { infeasible: 150, soft: 150, hit: 150, ack: 400, still: 900, reset_other: 50, ..CALM };
    for _ in 0..60 {
        walk(&mut draft, rng, &mix, few_ticks(rng));
        // Records that the next reset throws away.
        for _ in 0..rng.below(4) {
            let list = rng.below(5) as u8;
            draft.value(list, floats::odd(rng));
        }
        let plan = walk::next(&draft, rng, &mix);
        if rng.chance(500) {
            draft.outcome(&plan.outcome);
        }
        if rng.chance(300) {
            draft.ack(walk::ack(&draft, rng, 500));
        }
        if rng.chance(300) {
            plan.head.into_iter().for_each(|head| draft.head(head));
        }
        draft.reset();
    }
    if rng.chance(700) {
        walk(&mut draft, rng, &mix, 5);
    }
    vec![draft.bytes]
}

fn replays(rng: &Rng) -> Vec<Vec<u8>> {
    let mut s = small(rng);
    s.brake = 30;
    s.confirm = rng.pick(&[0, 1, 2]);
    s.rearm = rng.pick(&[AUTO, ACK_ONLY, ACK_ONLY]);
    s.hold = rng.pick(&[0, 1, 4]);
    s.handoff = rng.pick(&[3, 30]);
    let mix = Mix { infeasible: 400, still: 950, ack: 0, ack_elsewhere: 0, guard: 2, ..CALM };
    let mut draft = Draft::new(s);
    let mut came: Vec<Ack> = Vec::new();
    draft.reset();
    for _ in 0..300 {
        let over = matches!(draft.state(), FuseState::Fault | FuseState::Terminated);
        if rng.chance(if over { 700 } else { 40 }) {
            draft.reset();
        }
        let mut plan = walk::next(&draft, rng, &mix);
        let heard = matches!(draft.state(), FuseState::Held | FuseState::Escalated);
        if rng.chance(if heard { 700 } else { 100 }) {
            plan.ack = Some(replay(&came, &draft, rng));
            came.extend(plan.ack);
        }
        draft.send(&plan, rng);
    }
    vec![draft.bytes]
}

/// An acknowledgement that came before, as it was or with something changed, or a new one.
fn replay(came: &[Ack], draft: &Draft, rng: &Rng) -> Ack {
    if came.is_empty() || rng.chance(250) {
        return walk::ack(draft, rng, 900);
    }
    let rt = draft.rt();
    let old = came[rng.below(came.len())];
    let mut ack = Ack { handoff: rt.handoff_seq, ..old };
    let stored = rt.last_nonce.get(usize::from(old.slot)).copied().unwrap_or(0);
    match rng.below(9) {
        0 => return old,
        1 => ack.decision = rng.below(3) as u8,
        2 | 3 => ack.nonce = stored.saturating_add(1),
        4 => ack.nonce = stored.saturating_sub(1),
        5 => ack.slot = rng.below(8) as u8,
        _ => {}
    }
    ack
}

/// One event of a short sequence.
const EVENTS: [fn(&mut Plan, &Draft, &Rng); 11] = [
    |_, _, _| {},
    |p, d, rng| p.deliver(&d.settings, d.rt().next_chunk_seq, rng),
    |p, d, rng| {
        p.deliver(&d.settings, d.rt().next_chunk_seq, rng);
        p.outcome.trips = 1;
    },
    |p, _, _| p.outcome.trips = 0b100100,
    |p, _, _| p.outcome.feasible = 0,
    |p, d, _| p.outcome.s = d.settings.tau + 1.0,
    |p, d, _| p.outcome.s = d.settings.tau,
    |p, d, _| p.velocity(vec![1.0; usize::from(d.settings.pos_dim)]),
    |p, d, _| p.ack = Some(Ack { decision: 0, ..fresh(d) }),
    |p, d, _| p.ack = Some(Ack { decision: 1, ..fresh(d) }),
    |p, d, _| p.ack = Some(Ack { decision: 2, ..fresh(d) }),
];

/// An acknowledgement that can be accepted now.
fn fresh(draft: &Draft) -> Ack {
    let rt = draft.rt();
    Ack { decision: 0, slot: 3, nonce: rt.last_nonce[3].saturating_add(1), handoff: rt.handoff_seq }
}

fn triples(rng: &Rng) -> Vec<Vec<u8>> {
    let few = |rng: &Rng| rng.below(3);
    let s = Settings {
        mode: if rng.chance(200) { OBSERVE } else { ENFORCE },
        kind: rng.below(5) as u8,
        clamp: if rng.chance(200) { OFF } else { PROJECT },
        rearm: rng.below(2) as u8,
        k: rng.range(1, 3) as u8,
        clear: few(rng) as u8,
        streak: few(rng) as u8 + 1,
        confirm: few(rng) as u8,
        max_rearms: few(rng) as u8,
        max_clamps: few(rng) as u16,
        brake: rng.range(1, 4) as u16,
        rearm_hold: few(rng) as u16,
        hold: few(rng) as u16,
        handoff: few(rng) as u32,
        ..roomy()
    };
    // A few events that lead somewhere, kept if they end in the state that was drawn.
    let goal = rng.pick(&[
        FuseState::Armed,
        FuseState::Watching,
        FuseState::Clamped,
        FuseState::Braking,
        FuseState::Held,
        FuseState::Escalated,
        FuseState::Terminated,
    ]);
    let mut start = Vec::new();
    for _ in 0..200 {
        start = (0..rng.below(10)).map(|_| rng.below(EVENTS.len())).collect();
        let mut draft = Draft::new(s);
        draft.reset();
        start.iter().for_each(|event| send_event(&mut draft, *event, rng));
        if draft.state() == goal {
            break;
        }
    }
    let n = EVENTS.len();
    let mut draft = Draft::new(s);
    for triple in 0..n * n * n {
        draft.reset();
        let three = [triple % n, triple / n % n, triple / n / n];
        start.iter().chain(&three).for_each(|event| send_event(&mut draft, *event, rng));
    }
    vec![draft.bytes]
}

fn send_event(draft: &mut Draft, event: usize, rng: &Rng) {
    let mut plan = draft.good(0, rng);
    EVENTS[event](&mut plan, draft, rng);
    draft.send(&plan, rng);
}
