//! Acknowledgements over resets. What was consumed is remembered here, by the verdicts' own flag, and not read from the run state.

use std::collections::HashMap;

use lictor_core::{AckDecision, FuseState};
use oracle::journal::Ticked;

use crate::{
    counts::{product, Counts, Grid},
    hears,
    points::*,
};

/// In how many ticks an acknowledgement was consumed, and in how many the nonces that a reset keeps decided.
#[derive(Clone, Copy, Default)]
pub struct AckTicks {
    pub consumed: u64,
    /// consumed though the same slot and nonce was before, in the same journal
    pub twice: u64,
    /// not accepted, and after the Rust's own reset it would be
    pub stopped: u64,
    /// of these, the tick would consume it
    pub unconsumed: u64,
}

/// A journal so far. Episodes count from 0, which is the stretch before the first reset.
#[derive(Default)]
struct Journal {
    episode: u32,
    spent: HashMap<(u8, u64), (u32, AckDecision)>,
    /// the first episode in which it came and was not consumed
    unspent: HashMap<(u8, u64), u32>,
    /// by slot, the largest nonce that was consumed before the last reset, and since
    before: [u64; 8],
    since: [u64; 8],
    state: Option<FuseState>,
    carried: bool,
}

pub struct Spent {
    pub ticks: AckTicks,
    pub by_state: Grid,
    pub more: Counts<Replay>,
    now: Journal,
}

impl Spent {
    pub fn new() -> Self {
        let rows = product(&["Held", "Escalated"], &[" Resume", " Abort", " Retune"]);
        let columns = [
            ": spent in an episode before",
            ": below one that was",
            ": the next nonce, accepted",
            ": not consumed in an episode before, accepted",
        ];
        Self {
            ticks: AckTicks::default(),
            by_state: Grid::new("acknowledgements after a reset", &rows, &columns),
            more: Counts::new("nonces over resets"),
            now: Journal::default(),
        }
    }

    /// A new journal begins.
    pub fn begin(&mut self) {
        self.now = Journal::default();
    }

    /// Whether a reset of this journal came when a nonce was spent.
    pub fn carried(&self) -> bool {
        self.now.carried
    }

    /// Whether an acknowledgement was consumed since the last reset.
    pub fn since_reset(&self) -> bool {
        self.now.since != [0; 8]
    }

    pub fn reset(&mut self) {
        let now = &mut self.now;
        for (before, since) in now.before.iter_mut().zip(now.since) {
            *before = since.max(*before);
        }
        now.since = [0; 8];
        if now.before != [0; 8] {
            now.carried = true;
            let state = now.state.unwrap_or(FuseState::Armed) as usize - FuseState::Armed as usize;
            self.more.hit_nth(Replay::KeptArmed, state);
        }
        now.state = Some(FuseState::Armed);
        now.episode += 1;
    }

    pub fn ticked(&mut self, k: &Ticked) {
        self.now.state = Some(k.verdict.state);
    }

    /// The acknowledgement of a tick without a fault bit.
    pub fn acknowledged(&mut self, k: &Ticked) {
        let Some(ack) = k.input.ack else { return };
        let slot = usize::from(ack.operator_slot);
        if slot < 8 && ack.handoff_seq == k.before.handoff_seq && ack.nonce > self.now.since[slot] {
            self.acceptable_after_the_rusts_reset(k, slot);
        }
        let now = &mut self.now;
        let same = (ack.operator_slot, ack.nonce);
        if k.verdict.ack_consumed {
            self.ticks.consumed += 1;
            now.since[slot] = ack.nonce;
            let earlier = now.spent.insert(same, (now.episode, ack.decision));
            self.ticks.twice += u64::from(earlier.is_some());
        } else {
            now.unspent.entry(same).or_insert(now.episode);
        }
    }

    fn acceptable_after_the_rusts_reset(&mut self, k: &Ticked, slot: usize) {
        let Some(ack) = k.input.ack else { return };
        let (now, state) = (&self.now, k.before.state);
        let same = (ack.operator_slot, ack.nonce);
        let earlier = now.spent.get(&same).filter(|(episode, _)| *episode < now.episode);
        let accepted = ack.nonce > now.before[slot];
        if !accepted {
            self.ticks.stopped += 1;
            let takes = state == FuseState::Escalated || ack.decision != AckDecision::Retune;
            self.ticks.unconsumed += u64::from(hears(state) && takes);
        }
        if !hears(state) {
            return;
        }
        let row = usize::from(state == FuseState::Escalated) * 3 + ack.decision as usize;
        match (accepted, earlier) {
            (false, Some((episode, decision))) => {
                self.by_state.hit(row, 0);
                self.more.hit_if(Replay::ResetsBetween, episode + 1 < now.episode);
                self.more.hit_if(Replay::OtherDecision, *decision != ack.decision);
            }
            (false, None) => self.by_state.hit(row, 1),
            (true, _) => {
                if now.before[slot] > 0 && ack.nonce == now.before[slot] + 1 {
                    self.by_state.hit(row, 2);
                }
                if now.unspent.get(&same).is_some_and(|episode| *episode < now.episode) {
                    self.by_state.hit(row, 3);
                }
                let other = |slot| slot != ack.operator_slot && now.spent.contains_key(&(slot, ack.nonce));
                self.more.hit_if(Replay::OtherSlot, k.verdict.ack_consumed && (0..8).any(other));
            }
        }
        self.more.hit_if(Replay::LastNonce, now.before[slot] == u64::MAX);
    }
}
