//! Long runs that bring counters to their ends.

use lictor_core::FuseState;
use oracle::records::{Ack, Settings};

use crate::{
    draft::{Draft, Plan},
    rng::Rng,
    settings::*,
};

/// Sends so many ticks as `change` makes them.
fn repeat(draft: &mut Draft, rng: &Rng, ticks: usize, change: impl Fn(&mut Plan, &Draft)) {
    for _ in 0..ticks {
        let mut plan = draft.good(0, rng);
        change(&mut plan, draft);
        draft.send(&plan, rng);
    }
}

fn resume(draft: &Draft) -> Option<Ack> {
    let rt = draft.rt();
    Some(Ack { decision: 0, slot: 7, nonce: rt.last_nonce[7].saturating_add(1), handoff: rt.handoff_seq })
}

/// 255 clamped chunks in a row; 254 ticks of standstill; more than 255 Resumes, from Held and from Escalated; more
/// than 255 handoffs; more than 255 automatic rearms asked for.
pub fn ends8(rng: &Rng) -> Vec<Vec<u8>> {
    let mut journals = Vec::new();
    let s = Settings { confirm: 255, clear: 255, hold: 2, ..roomy() };
    let mut draft = Draft::new(s);
    draft.reset();
    for _ in 0..258 {
        let mut plan = draft.good_with_chunk(0, rng);
        plan.outcome.trips = 1 << rng.below(6);
        draft.send(&plan, rng);
    }
    repeat(&mut draft, rng, 300, |_, _| {});
    journals.push(draft.bytes);

    let s = Settings { hold: 0, handoff: 1, ..roomy() };
    let mut draft = Draft::new(s);
    draft.reset();
    for turn in 0..600 {
        repeat(&mut draft, rng, 1, |p, _| p.outcome.feasible = 0);
        repeat(&mut draft, rng, 1, |_, _| {});
        if turn % 2 == 0 {
            repeat(&mut draft, rng, 1, |_, _| {});
        }
        repeat(&mut draft, rng, 1, |p, d| p.ack = resume(d));
    }
    journals.push(draft.bytes);

    let s = Settings { rearm: AUTO, rearm_hold: 0, hold: 3, handoff: 1, ..roomy() };
    let mut draft = Draft::new(s);
    draft.reset();
    for _ in 0..260 {
        repeat(&mut draft, rng, 1, |p, _| p.outcome.feasible = 0);
        repeat(&mut draft, rng, 1, |_, _| {});
        let plan = draft.good_with_chunk(0, rng);
        draft.send(&plan, rng);
    }
    repeat(&mut draft, rng, 10, |_, _| {});
    journals.push(draft.bytes);
    journals
}

/// 65540 clean ticks, each with a chunk.
pub fn armed(rng: &Rng) -> Vec<Vec<u8>> {
    let mut draft = Draft::new(Settings { clear: 255, ..roomy() });
    draft.reset();
    for _ in 0..65540 {
        let plan = draft.good_with_chunk(0, rng);
        draft.send(&plan, rng);
    }
    repeat(&mut draft, rng, 2, |p, d| p.outcome.s = d.settings.tau);
    repeat(&mut draft, rng, 260, |_, _| {});
    vec![draft.bytes]
}

/// More soft trips than clamps can count, under the largest limit and under one less.
pub fn clamps(rng: &Rng) -> Vec<Vec<u8>> {
    let mut journals = Vec::new();
    for max_clamps in [65535, 65534] {
        let mut draft = Draft::new(Settings { max_clamps, ..roomy() });
        draft.reset();
        repeat(&mut draft, rng, 65540, |p, _| p.outcome.trips = 0b1000);
        repeat(&mut draft, rng, 4, |_, _| {});
        journals.push(draft.bytes);
    }
    journals
}

/// The longest brake, the longest hold (let run out, and ended by an automatic rearm at its last moment), and a
/// handoff that outlasts 16 bits.
pub fn stops(rng: &Rng) -> Vec<Vec<u8>> {
    let s = Settings { rearm: AUTO, handoff: 70000, ..roomy() };
    let mut draft = Draft::new(s);
    draft.reset();
    let moving = |p: &mut Plan| p.velocity(vec![1.0]);
    repeat(&mut draft, rng, 1, |p, _| p.outcome.feasible = 0);
    repeat(&mut draft, rng, 65538, |p, _| moving(p));
    assert_eq!(draft.state(), FuseState::Fault);

    draft.reset();
    repeat(&mut draft, rng, 1, |p, _| p.outcome.feasible = 0);
    repeat(&mut draft, rng, 1, |_, _| {});
    repeat(&mut draft, rng, 65535, |_, _| {});
    let plan = draft.good_with_chunk(0, rng);
    draft.send(&plan, rng);
    assert_eq!(draft.state(), FuseState::Armed);

    draft.reset();
    repeat(&mut draft, rng, 1, |p, _| p.outcome.feasible = 0);
    repeat(&mut draft, rng, 1, |_, _| {});
    repeat(&mut draft, rng, 65536, |_, _| {});
    assert_eq!(draft.state(), FuseState::Escalated);
    repeat(&mut draft, rng, 70002, |_, _| {});
    assert_eq!(draft.state(), FuseState::Terminated);
    vec![draft.bytes]
}
