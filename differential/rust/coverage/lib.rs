//! What a run reached, counted on the reference's side.
//!
//! Each point is a situation that a wrong port could get wrong. Points that no journal can reach are listed with the
//! reason, and it is reported if one is reached after all.

use std::io::{self, Write};

use lictor_core::{fmath, AckDecision, ActionSource, FuseState, ReasonCode, TripMask};
use oracle::{
    journal::{Observer, Ticked},
    records::{self, Settings, WIDTH},
};

mod counts;
mod points;
mod spent;

use counts::{product, Counts, Grid, Group, Named, Point};
use points::*;
pub use spent::AckTicks;
use spent::Spent;

/// A fact that later ticks of an episode need.
#[derive(Default)]
struct Memory {
    fault_position: bool,
    ticks: u32,
    resets: u32,
    settings: bool,
    ignored: Vec<(u8, u64)>,
    resumed_with_clamps: bool,
    /// a tick of the episode had a NaN as s
    nan_s: bool,
    /// a tick of the journal had a NaN in one of the three places
    nan: bool,
    width: Option<f64>,
    fault_ticks: u32,
    walls: Walls,
}

/// What the walls' points need of the ticks before.
#[derive(Default)]
struct Walls {
    /// the position at the clean tick before, since the reset
    clean: Option<Vec<f64>>,
    /// and the last one before the reset
    before_reset: Option<Vec<f64>>,
    /// positions of the fault ticks since that clean tick
    faults: Vec<Vec<f64>>,
    /// by component, whether `out` was its last line
    out: [bool; 8],
}

/// In how many ticks each maximum met a NaN.
#[derive(Clone, Copy, Default)]
pub struct NanTicks {
    pub s: u64,
    pub live_z: u64,
    pub factor: u64,
}

pub struct Coverage {
    pub ticks: u64,
    pub journals: u64,
    pub nan_ticks: NanTicks,
    rows: Counts<Row>,
    states: Grid,
    reasons: Grid,
    fault_ticks: Grid,
    guard_bits: Counts<Bits>,
    causes: Counts<Cause>,
    guard: Counts<Guard>,
    sources: Grid,
    actions: Grid,
    sizes: Grid,
    numbers: Counts<Refused>,
    pairs: Grid,
    acks: Grid,
    ack_more: Counts<AckMore>,
    spent: Spent,
    ends: Counts<End>,
    limits: Counts<Limit>,
    odd: Counts<Odd>,
    margins: Counts<Margin>,
    velocity: Counts<Velocity>,
    scored: Counts<Scored>,
    shapes: Counts<Shape>,
    widths: Counts<Width>,
    walls: Counts<Wall>,
    now: Memory,
}

impl Default for Coverage {
    fn default() -> Self {
        Self::new()
    }
}

impl Coverage {
    pub fn new() -> Self {
        let reasons = ReasonCode::ALL.map(|r| format!("{} {r:?}", r as u8));
        let acks = product(&STATES, &[" Resume", " Abort", " Retune"]);
        let actions = product(&KINDS, &[" brakes", " holds", " holds in a fault tick"]);
        let relations = [", dim below pos_dim", ", dim is pos_dim", ", dim above pos_dim"];
        let dims = [1, 2, 3, 4, 5, 6, 7, 8];
        Self {
            ticks: 0,
            journals: 0,
            nan_ticks: NanTicks::default(),
            rows: Counts::new("rows of fsm.rs")
                .never(Row::R17bClamped, "clamping off never enters Clamped")
                .never(Row::R19Watching, "entering Watching passes row 19, and nothing counts in Watching"),
            states: Grid::new("end states", &STATES, &MODES).never("every row leaves Idle", |state, _| state == 0),
            reasons: Grid::new("reasons", &reasons, &MODES)
                .never("no row gives it", |reason, _| reason == 27)
                .never("row 23 gives it in Observe alone", |reason, mode| (reason, mode) == (1, 1)),
            fault_ticks: Grid::new("fault ticks by the state they start from", &STATES, &MODES),
            guard_bits: Counts::new("guard bits"),
            causes: Counts::new("guard causes, each alone"),
            guard: Counts::new("about the guard"),
            sources: Grid::new("action sources", &["Policy", "Clamped", "Brake", "Hold"], &MODES)
                .never("Observe passes the policy row, or holds", |source, mode| mode == 0 && matches!(source, 1 | 2)),
            actions: Grid::new("brake and hold actions in Enforce", &actions, &relations),
            sizes: Grid::new("sizes", &dims.map(|n| format!("dim {n}")), &dims.map(|n| format!(", pos_dim {n}"))),
            numbers: Counts::new("refusals"),
            pairs: Grid::new("refusals with a later cause too", &PAIRS.map(|(a, b)| format!("{a} before {b}")), &[""]),
            acks: Grid::new("acknowledgements on ticks without a fault bit", &acks, AckClass::NAMES)
                .never("before a reset all nonces are 0", |row, class| {
                    row < 3 && class == AckClass::NonceBelow as usize
                }),
            ack_more: Counts::new("acknowledgements against other lines"),
            spent: Spent::new(),
            ends: Counts::new("counters at their ends"),
            limits: Counts::new("limits and masks"),
            odd: Counts::new("odd floats"),
            margins: Counts::new("printed margins"),
            velocity: Counts::new("velocity"),
            scored: Counts::new("window, scores, chunks, marks"),
            shapes: Counts::new("journals"),
            widths: Counts::new("kind 8"),
            walls: Counts::new("walls of the box"),
            now: Memory::default(),
        }
    }

    fn groups(&self) -> [&Group; 25] {
        [
            &self.rows.group,
            &self.states.group,
            &self.reasons.group,
            &self.fault_ticks.group,
            &self.guard_bits.group,
            &self.causes.group,
            &self.guard.group,
            &self.sources.group,
            &self.actions.group,
            &self.sizes.group,
            &self.numbers.group,
            &self.pairs.group,
            &self.acks.group,
            &self.ack_more.group,
            &self.spent.by_state.group,
            &self.spent.more.group,
            &self.ends.group,
            &self.limits.group,
            &self.odd.group,
            &self.margins.group,
            &self.velocity.group,
            &self.scored.group,
            &self.shapes.group,
            &self.widths.group,
            &self.walls.group,
        ]
    }

    /// A new journal begins.
    pub fn begin(&mut self) {
        self.journals += 1;
        self.now = Memory::default();
        self.spent.begin();
    }

    pub fn ack_ticks(&self) -> AckTicks {
        self.spent.ticks
    }

    /// Whether a reset of this journal came when a nonce was spent.
    pub fn carried_nonces(&self) -> bool {
        self.spent.carried()
    }

    /// Whether a tick of this journal had a NaN as s, as the z of a live channel or as the brake factor's share.
    pub fn met_nan(&self) -> bool {
        self.now.nan
    }

    /// Whether each point was reached, in a fixed order.
    pub fn reached(&self) -> Vec<bool> {
        self.groups().iter().flat_map(|group| &group.points).map(|point| point.reached > 0).collect()
    }

    /// What each of these points is worth to a sample: states and reasons most, then the rows of fsm.rs.
    pub fn worth(&self) -> Vec<usize> {
        let of = |group: &&Group| match group.title {
            title if title == self.states.group.title || title == self.reasons.group.title => 30,
            title if title == self.rows.group.title => 6,
            _ => 1,
        };
        self.groups().iter().flat_map(|group| vec![of(group); group.points.len()]).collect()
    }

    /// How many causes of refusal, and pairs of them, were reached.
    pub fn refusals_reached(&self) -> usize {
        self.numbers.group.points.iter().chain(&self.pairs.group.points).filter(|point| point.reached > 0).count()
    }

    /// How many points were reached, of those that can be.
    pub fn counted(&self) -> (usize, usize) {
        let groups = self.groups();
        let points = groups.iter().flat_map(|group| &group.points).filter(|point| point.never.is_none());
        points.fold((0, 0), |(reached, of), point| (reached + usize::from(point.reached > 0), of + 1))
    }

    /// The points that were not reached though they can be, as `group: point`.
    pub fn missing(&self) -> Vec<String> {
        let mut missing = Vec::new();
        for group in self.groups() {
            for point in group.points.iter().filter(|p| p.reached == 0 && p.never.is_none()) {
                missing.push(format!("{}: {}", group.title, point.name));
            }
        }
        missing
    }

    /// One line for each group; with `all` every point too. Then what should not be there.
    pub fn print(&self, to: &mut impl Write, all: bool) -> io::Result<()> {
        for group in self.groups() {
            let can: Vec<&Point> = group.points.iter().filter(|p| p.never.is_none()).collect();
            let reached = can.iter().filter(|p| p.reached > 0).count();
            writeln!(to, "{:>4} of {:>3}  {}", reached, can.len(), group.title)?;
            if all {
                for point in &can {
                    writeln!(to, "  {:>12}  {}", point.reached, point.name)?;
                }
            }
        }
        for group in self.groups() {
            for point in group.points.iter() {
                match point.never {
                    Some(why) if point.reached > 0 => {
                        writeln!(to, "REACHED: {}: {}, though {why}", group.title, point.name)?
                    }
                    Some(why) if all => writeln!(to, "cannot be: {}: {} ({why})", group.title, point.name)?,
                    _ => {}
                }
            }
        }
        Ok(())
    }

    /// The causes that the guard finds, by this file's own reading of 01-scope.md and fuse.rs.
    fn causes_of(&self, k: &Ticked) -> Vec<Cause> {
        let (s, obs) = (k.settings, &k.input.obs);
        let bad = |list: &[f64]| list.iter().any(|x| !x.is_finite());
        let mut causes = Vec::new();
        let mut add = |cause: Cause, applies: bool| {
            if applies {
                causes.push(cause);
            }
        };
        add(Cause::NanPos, bad(obs.pos));
        add(Cause::NanVel, obs.vel.is_some_and(bad));
        add(Cause::NanAux, bad(obs.aux));
        add(Cause::NanExt, bad(obs.ext));
        add(Cause::NanChunk, k.input.chunk.is_some_and(|c| bad(c.data)));
        add(Cause::Flag, k.input.schema_fault);
        add(Cause::Idx, k.input.idx >= s.horizon);
        add(Cause::PosLen, obs.pos.len() != usize::from(s.pos_dim));
        add(Cause::VelLen, obs.vel.is_some_and(|v| v.len() != usize::from(s.pos_dim)));
        add(Cause::AuxLen, obs.aux.len() > 8);
        add(Cause::ExtLen, obs.ext.len() > 4);
        match k.input.chunk {
            Some(c) => {
                add(Cause::HeadDim, c.dim != u16::from(s.dim));
                add(Cause::HeadHorizon, c.horizon != s.horizon);
                add(Cause::HeadExec, c.exec_steps != s.exec);
                add(Cause::ChunkLen, c.data.len() as u64 != u64::from(c.horizon) * u64::from(c.dim));
                add(Cause::ChunkSeq, c.seq != k.before.next_chunk_seq);
                add(Cause::EmitLate, c.t_emit > obs.t);
                add(Cause::IdxEmit, c.t_emit <= obs.t && u32::from(k.input.idx) != obs.t - c.t_emit);
            }
            None => add(Cause::NoChunk, !k.before.filled),
        }
        let next = u64::from(k.before.last_t) + 1 + u64::from(k.input.missed_ticks);
        if k.before.seq == 0 {
            add(Cause::FirstT, obs.t != 0);
        } else {
            add(Cause::WrongT, next <= u64::from(u32::MAX) && next != u64::from(obs.t));
            add(Cause::NoNextT, next > u64::from(u32::MAX));
        }
        add(Cause::Watchdog, k.input.missed_ticks > s.watchdog);
        causes
    }

    fn fault_tick(&mut self, k: &Ticked, causes: &[Cause]) {
        use Cause::*;
        let bits = causes.iter().fold(0, |bits, cause| {
            bits | match cause {
                NanPos | NanVel | NanAux | NanExt | NanChunk => TripMask::NONFINITE,
                Watchdog => TripMask::WATCHDOG,
                _ => TripMask::SCHEMA,
            }
        });
        assert_eq!(bits, k.verdict.trips, "the guard finds other bits than this file's reading of it");
        self.guard_bits.hit_nth(Bits::B1, (bits >> 7) as usize - 1);
        self.fault_ticks.hit(k.before.state as usize, usize::from(k.settings.mode));
        if let [cause] = causes {
            self.causes.hit(*cause);
        }
        let pos = k.input.obs.pos;
        let length = pos.len() == usize::from(k.settings.pos_dim);
        let finite = pos.iter().all(|x| x.is_finite());
        self.now.fault_position = length && finite;
        self.now.fault_ticks += 1;
        if length && finite {
            self.now.walls.faults.push(pos.to_vec());
        }
        let guard = &mut self.guard;
        guard.hit_if(Guard::PosTaken, length && finite);
        guard.hit_if(Guard::PosNotFinite, length && !finite);
        guard.hit_if(Guard::PosLength, !length && finite);
        guard.hit_if(Guard::WithChunk, k.input.chunk.is_some());
        guard.hit_if(Guard::WithAck, acceptable(k) && hears(k.before.state));
        guard.hit_if(Guard::ChunkOkStays, k.after.chunk_ok_this_tick);
        guard.hit_if(Guard::PendingStays, k.after.handoff_pending);
        guard.hit_if(Guard::WindowStays, k.after.window.bits != 0);
        self.odd.hit_if(Odd::MaxSByFault, self.now.nan_s);
        self.ends.hit_if(End::LastT, k.after.last_t == u32::MAX);
    }

    fn clean_tick(&mut self, k: &Ticked) {
        let (shown, given) = (k.verdict.brake_margin, k.input.outcome.margin);
        assert!(
            shown == given || shown.is_nan() && given.is_nan(),
            "the guard finds a fault where this file finds none"
        );
        self.guard_passes(k);
        self.at_walls(k);
        self.motion(k);
        self.scores(k);
        self.window(k);
        self.chunks_and_marks(k);
        self.margin(k.verdict.brake_margin);
        let o = k.input.outcome;
        let given = o.trips | if o.feasible { 0 } else { TripMask::BRAKE };
        let kept = given & (k.settings.tier0_enabled | TripMask::TIER0_HARD);
        self.masks(k, kept, given & !kept);
        if fault_bit(kept) {
            self.guard.hit_if(Guard::AckAndOutcomeFault, acceptable(k) && hears(k.before.state));
        } else {
            self.by_state(k, kept);
            self.ack(k);
            self.spent.acknowledged(k);
        }
    }

    fn guard_passes(&mut self, k: &Ticked) {
        let guard = &mut self.guard;
        let missed = k.input.missed_ticks;
        guard.hit_if(Guard::AtLimit, missed > 0 && missed == k.settings.watchdog);
        guard.hit_if(Guard::Aux8, k.input.obs.aux.len() == 8);
        guard.hit_if(Guard::Ext4, k.input.obs.ext.len() == 4);
        guard.hit_if(Guard::FirstMissed, k.before.seq == 0 && missed > 0);
        guard.hit_if(Guard::Chunk512, k.input.chunk.is_some_and(|c| c.data.len() == 512));
        guard.hit_if(Guard::IdxLast, k.input.idx > 0 && k.input.idx + 1 == k.settings.horizon);
    }

    fn motion(&mut self, k: &Ticked) {
        let s = k.settings;
        let supplied = k.input.obs.vel.is_some();
        let velocity = &mut self.velocity;
        match (supplied, k.before.have_prev_pos) {
            (true, true) => velocity.hit(Velocity::Supplied),
            (true, false) => velocity.hit(Velocity::FirstSupplied),
            (false, true) => {
                velocity.hit(Velocity::Difference);
                velocity.hit_if(Velocity::AfterFault, self.now.fault_position);
            }
            (false, false) => {
                velocity.hit(Velocity::First);
                velocity.hit_if(Velocity::FirstAfterFault, self.now.fault_position);
            }
        }
        self.now.fault_position = false;

        let odd = &mut self.odd;
        let pos = &k.after.pos[..usize::from(s.pos_dim)];
        let vel = &k.after.vel[..usize::from(s.pos_dim)];
        odd.hit_if(Odd::PosSubnormal, pos.iter().any(|x| x.is_subnormal()));
        odd.hit_if(Odd::PosNegZero, pos.iter().any(|x| is_neg_zero(*x)));
        odd.hit_if(Odd::PosHuge, pos.iter().any(|x| x.abs() > 1e300));
        odd.hit_if(Odd::VelOverflow, vel.iter().any(|x| x.is_infinite()));
        odd.hit_if(Odd::VelNan, vel.iter().any(|x| x.is_nan()));
        odd.hit_if(Odd::VelSubnormal, vel.iter().any(|x| x.is_subnormal()));
        odd.hit_if(Odd::VelNegZero, vel.iter().any(|x| is_neg_zero(*x)));
        let norm = fmath::norm(vel, vel.len());
        let squares: f64 = vel.iter().map(|x| x * x).sum();
        odd.hit_if(Odd::NormOverflow, norm.is_infinite() && vel.iter().all(|x| x.is_finite()));
        odd.hit_if(Odd::NormSubnormal, squares.is_subnormal());
        odd.hit_if(Odd::EpsNegative, s.mode == 1 && s.v_stop_eps < 0.0);
        odd.hit_if(Odd::EpsZero, s.mode == 1 && s.v_stop_eps == 0.0 && norm == 0.0);
        odd.hit_if(Odd::EpsEqual, s.mode == 1 && norm == s.v_stop_eps && norm > 0.0);
        odd.hit_if(Odd::InvDtZero, s.inv_dt == 0.0 && !supplied && k.before.have_prev_pos);
        if s.mode == 1 {
            self.enforced_action(k);
        }
    }

    /// The action of a clean tick in Enforce.
    fn enforced_action(&mut self, k: &Ticked) {
        let (s, v) = (k.settings, k.verdict);
        let action = &v.action[..usize::from(s.dim)];
        let odd = &mut self.odd;
        odd.hit_if(Odd::ActionNegZero, action.iter().any(|x| is_neg_zero(*x)));
        match v.action_src {
            ActionSource::Policy | ActionSource::Clamped => {
                odd.hit_if(Odd::RowNan, action.iter().any(|x| x.is_nan()));
                odd.hit_if(Odd::RowInf, action.iter().any(|x| x.is_infinite()));
            }
            ActionSource::Brake if matches!(s.kind, 1 | 3) => {
                let vel = &k.after.vel[..usize::from(s.pos_dim)];
                let norm = fmath::norm(vel, usize::from(s.pos_dim.min(s.dim)));
                let share = 1.0 - s.a_max * s.dt / (norm + 1e-9);
                let factor = if share > 0.0 { share } else { 0.0 };
                odd.hit_if(Odd::FactorNan, share.is_nan());
                self.nan_ticks.factor += u64::from(share.is_nan());
                self.now.nan |= share.is_nan();
                odd.hit_if(Odd::FactorNanMoving, share.is_nan() && vel.iter().all(|x| x.is_finite()));
                odd.hit_if(Odd::FactorZero, factor == 0.0 && norm > 0.0);
                odd.hit_if(Odd::FactorAbove1, factor > 1.0);
                odd.hit_if(Odd::FactorInf, factor.is_infinite());
                odd.hit_if(Odd::ActionInf, action.iter().any(|x| x.is_infinite()));
                odd.hit_if(Odd::DtNegative, s.dt < 0.0);
                odd.hit_if(Odd::AMaxNegative, s.a_max < 0.0);
            }
            _ => {
                let beyond = usize::from(s.pos_dim.min(s.dim))..usize::from(s.dim);
                let moved = beyond.clone().any(|c| action[c] != 0.0);
                odd.hit_if(Odd::BoxNoZero, moved);
            }
        }
        let held = v.action_src == ActionSource::Hold && !matches!(s.kind, 1 | 3);
        let turned = action.iter().zip(&k.after.hold).any(|(a, h)| is_neg_zero(*a) && !is_neg_zero(*h) && *h == 0.0);
        odd.hit_if(Odd::HoldNegZero, held && turned);
    }

    fn scores(&mut self, k: &Ticked) {
        let (s, v, o) = (k.settings, k.verdict, k.input.outcome);
        let odd = &mut self.odd;
        odd.hit_if(Odd::SNan, o.s.is_nan());
        odd.hit_if(Odd::SInf, o.s == f64::INFINITY);
        odd.hit_if(Odd::SMinusInf, o.s == f64::NEG_INFINITY);
        odd.hit_if(Odd::SIsTau, o.s == s.tau);
        odd.hit_if(Odd::SIsBand, o.s == s.tau - s.warn_margin && s.warn_margin != 0.0);
        odd.hit_if(Odd::TauInf, s.tau == f64::INFINITY);
        odd.hit_if(Odd::TauMinusInf, s.tau == f64::NEG_INFINITY);
        odd.hit_if(Odd::WarnNegative, s.warn_margin < 0.0);
        let (before, after) = (k.before.max_s, k.after.tally.max_s);
        odd.hit_if(Odd::SNanAfter, o.s.is_nan() && before.is_finite());
        odd.hit_if(Odd::MaxSAfterNan, self.now.nan_s && after.is_finite() && after > before);
        odd.hit_if(Odd::MaxSZero, before.to_bits() == 0 && is_neg_zero(after));
        let live = s.calib_mask & v.scores.valid;
        let live_nan = (0..12).any(|j| live & 1 << j != 0 && o.z[j].is_nan());
        odd.hit_if(Odd::ZLiveNan, live_nan);
        odd.hit_if(Odd::ZDead, (0..12).any(|j| live & 1 << j == 0 && o.z[j] != 0.0));
        odd.hit_if(Odd::ZDeadNan, (0..12).any(|j| live & 1 << j == 0 && o.z[j].is_nan()));
        self.nan_ticks.s += u64::from(o.s.is_nan());
        self.nan_ticks.live_z += u64::from(live_nan);
        self.now.nan_s |= o.s.is_nan();
        self.now.nan |= o.s.is_nan() || live_nan;
    }

    fn window(&mut self, k: &Ticked) {
        let (s, v, o) = (k.settings, k.verdict, k.input.outcome);
        let scored = &mut self.scored;
        let top = 1 << 63;
        scored.hit_if(Scored::Bit63, k.after.window.bits & top != 0);
        scored.hit_if(Scored::Dropped, k.before.window & top != 0);
        scored.hit_if(Scored::Hits64, v.window_hits == 64);
        let wide = s.window_mask.wrapping_add(1);
        scored.hit_if(Scored::Holes, s.window_mask & wide != 0 && v.window_hits > 0);
        scored.hit_if(Scored::Mask0, s.window_mask == 0 && o.s > s.tau);
        scored.hit_if(Scored::Cleared, v.window_hits > 0 && v.window == 0);
        scored.hit_if(Scored::ValidUncalibrated, s.calib_mask == 0 && o.valid != 0);
        scored.hit_if(Scored::FiredDead, o.fired & !o.valid & 0xfff != 0);
        scored.hit_if(Scored::FiredHigh, o.fired >> 12 != 0);
        let limits = &mut self.limits;
        limits.hit_if(Limit::K0, s.k == 0 && v.reason == ReasonCode::BrakeTier1Cp);
        limits.hit_if(Limit::KAbove64, s.k > 64 && v.window_hits == 64);
        limits.hit_if(Limit::KEqual, s.k == v.window_hits && v.reason == ReasonCode::BrakeTier1Cp);
        limits.hit_if(Limit::KOneShort, s.k == v.window_hits + 1 && v.window_hits > 0 && running(k.before.state));
    }

    fn chunks_and_marks(&mut self, k: &Ticked) {
        let (v, o, tally) = (k.verdict, k.input.outcome, &k.after.tally);
        let scored = &mut self.scored;
        scored.hit_if(Scored::ClampedDims, o.clamped_dims != 0 && v.state != FuseState::Clamped);
        if k.input.chunk.is_some() {
            let rejected = v.trips & TripMask::TIER0_HARD != 0;
            scored.hit(if rejected { Scored::Rejected } else { Scored::Accepted });
            scored.hit_if(Scored::ChunkInFault, k.before.state == FuseState::Fault);
            scored.hit_if(Scored::ChunkInTerminated, k.before.state == FuseState::Terminated);
            scored.hit_if(Scored::FilledByIdle, k.before.state == FuseState::Idle);
            scored.hit_if(Scored::FilledByFaultBit, fault_bit(v.trips) && !k.before.filled);
        }
        let first = tally.first_trip_tick == Some(v.t) && v.trips != 0;
        let plain = matches!(v.reason, ReasonCode::HeldStandstill | ReasonCode::Stopping);
        scored.hit_if(Scored::FirstTripPlain, first && plain);
        scored.hit_if(Scored::HandoffTwice, v.handoff_seq.is_some() && tally.escalations > 1);
    }

    fn masks(&mut self, k: &Ticked, kept: u32, masked: u32) {
        let limits = &mut self.limits;
        let soft = masked & TripMask::TIER0_SOFT != 0;
        limits.hit_if(Limit::MaskedSoft, soft && running(k.before.state));
        limits.hit_if(Limit::MaskedChunkOk, masked != 0 && k.after.chunk_ok_this_tick);
        limits.hit_if(Limit::HardUnmasked, k.settings.tier0_enabled == 0 && kept != 0);
        limits.hit_if(Limit::StrayKept, kept >> 16 != 0);
        limits.hit_if(Limit::StrayMasked, masked >> 16 != 0);
    }

    /// Limits by the state that the tick starts from; no fault bit came. `kept` are the trips after the mask.
    fn by_state(&mut self, k: &Ticked, kept: u32) {
        let (s, v) = (k.settings, k.verdict);
        match k.before.state {
            FuseState::Braking => {
                self.limits.hit_if(Limit::B0, s.brake == 0);
                if v.state == FuseState::Held {
                    let which = [Limit::Confirm0, Limit::Confirm1, Limit::ConfirmMore];
                    self.limits.hit(which[usize::from(s.confirm.min(2))]);
                }
            }
            FuseState::Held => self.held(k, kept),
            FuseState::Escalated => {
                let timeout = v.reason == ReasonCode::TerminatedTimeout;
                self.limits.hit_if(Limit::E0, s.handoff == 0 && timeout);
            }
            state if running(state) => self.running(k, kept),
            _ => {}
        }
        self.now.resumed_with_clamps = match v.reason {
            ReasonCode::RearmedAck => k.before.clamps > 0,
            _ => self.now.resumed_with_clamps && v.state == FuseState::Armed,
        };
    }

    fn held(&mut self, k: &Ticked, kept: u32) {
        let (s, b, v) = (k.settings, k.before, k.verdict);
        let limits = &mut self.limits;
        let due = s.rearm == 0 && b.held_clean >= s.rearm_hold && b.rearms < s.max_rearms;
        let blocked = k.input.chunk.is_some() && kept != 0 && v.state == FuseState::Held;
        limits.hit_if(Limit::ChunkNotOk, due && blocked);
        let budget = v.reason == ReasonCode::EscalateRearmBudget;
        limits.hit_if(Limit::MaxRearms0, budget && s.max_rearms == 0);
        limits.hit_if(Limit::Budget, budget && s.max_rearms > 0 && self.spent.since_reset());
        limits.hit_if(Limit::AckOnlyBudget, budget && s.rearm == 1);
        limits.hit_if(Limit::H0, s.hold == 0 && v.state == FuseState::Escalated);
        if v.reason == ReasonCode::RearmedAuto {
            limits.hit_if(Limit::RearmHold0, s.rearm_hold == 0);
            limits.hit_if(Limit::RearmPredictive, v.window_hits >= s.k);
            limits.hit_if(Limit::RearmDirty, warns(k));
            self.ends.hit_if(End::RearmLast, b.held_clean == u16::MAX);
            self.ends.hit_if(End::Auto255, k.after.rearms == 255);
        }
    }

    fn running(&mut self, k: &Ticked, kept: u32) {
        let (s, b, v) = (k.settings, k.before, k.verdict);
        let limits = &mut self.limits;
        let chunk = k.input.chunk.is_some();
        let streak = b.clamp_streak >= s.streak;
        let clamps = b.clamps > s.max_clamps;
        if v.reason == ReasonCode::BrakeClampBudget {
            limits.hit_if(Limit::Streak0, s.streak == 0);
            limits.hit_if(Limit::Clamps0, s.max_clamps == 0 && !streak);
            limits.hit(match (streak, clamps) {
                (true, false) => Limit::ByStreak,
                (false, _) => Limit::ByClamps,
                (true, true) => Limit::ByBoth,
            });
            limits.hit_if(Limit::ResumeKeepsClamps, self.now.resumed_with_clamps && clamps);
            self.ends.hit_if(End::ClampsOver, s.max_clamps == 65534);
        }
        let cleared = b.state != FuseState::Armed && v.state == FuseState::Armed;
        limits.hit_if(Limit::Clear0, cleared && s.clear == 0);
        limits.hit_if(Limit::ClearDirty, cleared && (warns(k) || v.window_hits > 0));
        let clamped = v.state == FuseState::Clamped && v.reason != ReasonCode::Ok;
        limits.hit_if(Limit::StreakNoChunk, clamped && !chunk);
        let kept_streak = chunk && kept == 0 && b.clamp_streak > 0 && k.after.clamp_streak > 0;
        limits.hit_if(Limit::StreakKept, kept_streak && v.state == FuseState::Clamped);
        self.ends.hit_if(End::Clamps, clamped && b.clamps == u16::MAX);
    }

    fn counters(&mut self, k: &Ticked) {
        let (b, a) = (k.before, k.after);
        let e = &mut self.ends;
        e.hit_if(End::CleanRun, b.clean_run == u16::MAX && a.clean_run == u16::MAX);
        e.hit_if(End::Rearms, b.rearms == 255 && k.verdict.reason == ReasonCode::RearmedAck);
        e.hit_if(End::Streak, a.clamp_streak == 255);
        e.hit_if(End::Stopped, a.stopped_ticks == 254);
        e.hit_if(End::BrakeTicks, a.brake_ticks == u16::MAX);
        e.hit_if(End::HeldTicks, a.held_ticks == u16::MAX);
        e.hit_if(End::HeldClean, a.held_clean == u16::MAX);
        e.hit_if(End::EscalatedTicks, a.escalated_ticks > 65535);
        e.hit_if(End::Chunks, a.next_chunk_seq > 65535);
        e.hit_if(End::Seq, a.seq > 65535);
    }

    fn margin(&mut self, x: f64) {
        use Margin::*;
        let size = x.abs();
        let below = x < 0.0;
        let odd_sixteenth = |x: f64| (x * 16.0) % 2.0 == 1.0;
        let bits = size.to_bits();
        let m = &mut self.margins;
        m.hit_if(Infinite, x.is_infinite());
        m.hit_if(Subnormal, x.is_subnormal());
        m.hit(if x.is_nan() {
            None
        } else if size >= 1000.0 {
            [Far, MinusFar][usize::from(below)]
        } else if size >= 999.9995 {
            FarByRounding
        } else if size >= 999.9985 {
            [Last, MinusLast][usize::from(below)]
        } else if size < 0.0005 {
            [Zero, MinusZero][usize::from(x.is_sign_negative())]
        } else if odd_sixteenth(size) {
            [Half, MinusHalf][usize::from(below)]
        } else if odd_sixteenth(f64::from_bits(bits - 1)) {
            HalfUp
        } else if odd_sixteenth(f64::from_bits(bits + 1)) {
            HalfDown
        } else {
            [Plain, MinusPlain][usize::from(below)]
        });
    }

    fn ack(&mut self, k: &Ticked) {
        let (b, s) = (k.before, k.settings);
        let Some(ack) = k.input.ack else { return };
        let slot = usize::from(ack.operator_slot);
        let stored = b.last_nonce.get(slot).copied();
        let handoff = ack.handoff_seq == b.handoff_seq;
        let class = match (stored, handoff) {
            (None, true) => AckClass::Slot,
            (None, false) => AckClass::Several,
            (Some(n), true) if ack.nonce > n => AckClass::Accepted,
            (Some(n), true) if ack.nonce == n => AckClass::NonceEqual,
            (Some(_), true) => AckClass::NonceBelow,
            (Some(n), false) if ack.nonce > n => AckClass::Handoff,
            (Some(_), false) => AckClass::Several,
        };
        self.acks.hit(b.state as usize * 3 + ack.decision as usize, class as usize);
        if !matches!(class, AckClass::Accepted) {
            return;
        }
        let same = (ack.operator_slot, ack.nonce);
        if !k.verdict.ack_consumed {
            self.now.ignored.push(same);
        }
        let a = &mut self.ack_more;
        a.hit_if(AckMore::IgnoredLater, k.verdict.ack_consumed && self.now.ignored.contains(&same));
        a.hit_if(AckMore::Slot7, slot == 7 && k.verdict.ack_consumed);
        a.hit_if(AckMore::NonceWide, ack.nonce > u64::from(u32::MAX) && k.verdict.ack_consumed);
        a.hit_if(AckMore::NonceMax, ack.nonce == u64::MAX && k.verdict.ack_consumed);
        a.hit_if(AckMore::HandoffAbove255, ack.handoff_seq > 255 && k.verdict.ack_consumed);
        match b.state {
            FuseState::Held => {
                let over = b.held_ticks >= s.hold;
                let due = s.rearm == 0
                    && b.held_clean >= s.rearm_hold
                    && k.after.chunk_ok_this_tick
                    && b.rearms < s.max_rearms;
                a.hit_if(AckMore::ResumeAtH, over && ack.decision == AckDecision::Resume);
                a.hit_if(AckMore::AbortAtH, over && ack.decision == AckDecision::Abort);
                a.hit_if(AckMore::RetuneAtH, over && !due && ack.decision == AckDecision::Retune);
                a.hit_if(AckMore::RetuneAndRearm, due && ack.decision == AckDecision::Retune);
                a.hit_if(AckMore::ResumeAndRearm, due && ack.decision == AckDecision::Resume);
            }
            FuseState::Escalated => a.hit_if(AckMore::AtE, b.escalated_ticks >= s.handoff),
            _ => {}
        }
    }

    fn refused_width(&mut self, body: Option<&[u8]>, causes: &[u8]) {
        let w = body.map_or(0.0, |body| records::Width::read(body).w);
        let points = &mut self.widths;
        match causes[0] {
            6 => points.hit(Width::Cut),
            8 => points.hit(Width::BeforeSettings),
            9 => {
                let Memory { ticks, fault_ticks, resets, .. } = self.now;
                match (self.now.width.is_some(), resets, ticks - fault_ticks, fault_ticks) {
                    (true, 0, 0, 0) => points.hit(Width::Again),
                    (false, 1.., 0, 0) => points.hit(Width::AfterReset),
                    (false, 0, 1.., _) => points.hit(Width::AfterTick),
                    (false, 0, 0, 1..) => points.hit(Width::AfterFaultTick),
                    _ => {}
                }
                points.hit_if(Width::LateAndBad, causes.contains(&3));
            }
            _ if w.is_nan() => points.hit(Width::Nan),
            _ if w == f64::INFINITY => points.hit(Width::Infinite),
            _ if w == f64::NEG_INFINITY => points.hit(Width::MinusInfinite),
            _ => points.hit(Width::BelowZero),
        }
    }

    /// The walls of the box on a clean tick, by this file's own reading of Ask 7.
    fn at_walls(&mut self, k: &Ticked) {
        let (s, now) = (k.settings, k.input.obs.pos);
        let memory = std::mem::take(&mut self.now.walls);
        let mut next = Walls { clean: Some(now.to_vec()), ..Walls::default() };
        let mut lines = [0, 0];
        for c in 0..usize::from(s.pos_dim) {
            let line = self.at_wall(k, c, now[c], &memory);
            next.out[c] = line == Some(1) || line.is_none() && memory.out[c];
            line.into_iter().for_each(|which: usize| lines[which] += 1);
        }
        let walls = &mut self.walls;
        let any = lines[0] + lines[1] > 0;
        if self.now.width.is_none() {
            walls.hit_if(Wall::NoWidth, any);
        } else {
            walls.hit_if(Wall::One, any && s.pos_dim == 1);
            walls.hit_if(Wall::Eight, lines[0] + lines[1] == 8);
            walls.hit_if(Wall::Both, lines[0] > 0 && lines[1] > 0);
            walls.hit_if(Wall::Beyond, (usize::from(s.pos_dim)..8).any(|c| zero_is_near(s, c, self.now.width)));
            walls.hit_if(Wall::Observe, lines[1] > 0 && s.mode == 0);
            walls.hit_if(Wall::BeforeReset, lines[0] > 0 && self.now.resets == 0);
            walls.hit_if(Wall::InFault, lines[0] > 0 && k.before.state == FuseState::Fault);
            walls.hit_if(Wall::InTerminated, lines[0] > 0 && k.before.state == FuseState::Terminated);
            walls.hit_if(Wall::OutcomeFault, lines[0] > 0 && fault_bit(k.input.outcome.trips));
        }
        self.now.walls = next;
    }

    /// One component: 0 where it is within (of width 1 where none came), 1 where it is out.
    fn at_wall(&mut self, k: &Ticked, c: usize, x: f64, memory: &Walls) -> Option<usize> {
        let (lo, hi) = (k.settings.box_lo[c], k.settings.box_hi[c]);
        let w = self.now.width;
        let is_in = |x: f64| lo <= x && x <= hi;
        let was_in = |pos: &Option<Vec<f64>>| pos.as_ref().is_some_and(|pos| is_in(pos[c]));
        let fault_at = |inside: bool| memory.faults.iter().any(|pos| is_in(pos[c]) == inside);
        let (to_hi, to_lo) = (hi - x, x - lo);
        let out = !is_in(x) && was_in(&memory.clean);
        let Some(w) = w else {
            return if is_in(x) { (to_hi < 1.0 || to_lo < 1.0).then_some(0) } else { out.then_some(1) };
        };
        let walls = &mut self.walls;
        let beside = |face: f64| [floats_down(face), floats_up(face)];
        walls.hit_if(Wall::NextInHi, is_in(x) && x == beside(hi)[0]);
        walls.hit_if(Wall::NextInLo, is_in(x) && x == beside(lo)[1]);
        walls.hit_if(Wall::NextOutHi, x == beside(hi)[1]);
        walls.hit_if(Wall::NextOutLo, x == beside(lo)[0]);
        if !is_in(x) {
            walls.hit_if(Wall::OutHi, out && x > hi);
            walls.hit_if(Wall::OutLo, out && x < lo);
            walls.hit_if(Wall::ZeroOut, out && w == 0.0);
            walls.hit_if(Wall::PastFault, out && !memory.faults.is_empty());
            walls.hit_if(Wall::FaultElsewhere, out && fault_at(false));
            walls.hit_if(Wall::FaultInside, !out && fault_at(true));
            walls.hit_if(Wall::FirstOutside, memory.clean.is_none());
            walls.hit_if(Wall::PastReset, memory.clean.is_none() && was_in(&memory.before_reset));
            walls.hit_if(Wall::StillOutside, memory.clean.is_some() && !out);
            return out.then_some(1);
        }
        let (by_hi, by_lo) = (to_hi < w, to_lo < w);
        walls.hit(match (by_hi, by_lo) {
            (true, false) => Wall::WithinHi,
            (false, true) => Wall::WithinLo,
            (true, true) => Wall::WithinBoth,
            (false, false) => Wall::NotWithin,
        });
        let within = by_hi || by_lo;
        walls.hit_if(Wall::OnHi, x == hi);
        walls.hit_if(Wall::OnLo, x == lo);
        walls.hit_if(Wall::WidthIsHi, to_hi == w && w > 0.0 && !within);
        walls.hit_if(Wall::WidthIsLo, to_lo == w && w > 0.0 && !within);
        let rest = [(hi, x, to_hi), (x, lo, to_lo)].map(|(a, b, d)| (d, lost(a, b, d)));
        walls.hit_if(Wall::RoundedUp, rest.iter().any(|(d, lost)| *d == w && *lost < 0.0) && !within);
        walls.hit_if(Wall::RoundedDown, rest.iter().any(|(d, lost)| *d == w && *lost > 0.0) && !within);
        walls.hit_if(Wall::Overflows, to_hi.is_infinite() || to_lo.is_infinite());
        walls.hit_if(Wall::Flat, lo == hi);
        walls.hit_if(Wall::MinusZeroApart, is_neg_zero(to_hi) || is_neg_zero(to_lo));
        walls.hit_if(Wall::ZeroOnFace, w == 0.0 && (x == hi || x == lo));
        walls.hit_if(Wall::Back, memory.out[c]);
        within.then_some(0)
    }

    fn row(&mut self, k: &Ticked) {
        use FuseState::*;
        let (from, v) = (k.before.state, k.verdict);
        let still = k.after.stopped_ticks > 0;
        let warn = k.input.outcome.s > k.settings.tau - k.settings.warn_margin;
        // Rows of several states stand in the order of these.
        let any = from as usize;
        let running = any.wrapping_sub(Armed as usize);
        let (row, nth) = match (from, v.reason as u32, v.state) {
            (_, 17..=19, _) => (Row::R1Idle, any),
            (Terminated, ..) => (Row::R2, 0),
            (Fault, ..) => (Row::R3, 0),
            (Escalated, 24, _) => (Row::R4, 0),
            (Escalated, 26, _) => (Row::R5, 0),
            (Escalated, 23, _) => (Row::R6, 0),
            (Escalated, 25, _) => (Row::R7, 0),
            (Escalated, ..) => (Row::R8, 0),
            (Held, 23, _) => (Row::R9, 0),
            (Held, 24, _) => (Row::R10, 0),
            (Held, 22, _) => (Row::R11, 0),
            (Held, 15, _) => (Row::R12Budget, 0),
            (Held, 16, _) => (Row::R12Tier1, 0),
            (Held, 14, _) => (Row::R12Timeout, 0),
            (Held, ..) if k.after.held_clean > 0 => (Row::R13Clean, 0),
            (Held, ..) => (Row::R13, 0),
            (Braking, 20, _) if stands_still(k) => (Row::R14Still, 0),
            (Braking, 20, _) => (Row::R14Moving, 0),
            (Braking, 12, _) if still => (Row::R16Still, 0),
            (Braking, 12, _) => (Row::R16Moving, 0),
            (Braking, ..) => (Row::R15, 0),
            (Idle, ..) => (Row::Idle, 0),
            (_, 9, _) => (Row::R17Armed, running),
            (_, 10, _) => (Row::R18Armed, running),
            (_, 11, _) => (Row::R19Armed, running),
            (_, 3..=8, Braking) => (Row::R17bArmed, running),
            (_, 3..=8, _) => (Row::R20Armed, running),
            (Armed, 0 | 1, _) => (Row::R23, 0),
            (_, 0, Armed) => (Row::R21Watching, running - 1),
            (Watching, 2, _) if !warn && v.window_hits == 0 => (Row::StayWatching, 0),
            (_, 2, _) => (Row::R22Armed, running),
            _ => (Row::StayClamped, 0),
        };
        self.rows.hit_nth(row, nth);
    }
}

impl Observer for Coverage {
    fn settings(&mut self, _: &Settings) {
        self.now.settings = true;
    }

    fn reset(&mut self, waiting: bool) {
        self.shapes.hit_if(Shape::ThrownAway, waiting);
        self.spent.reset();
        let Memory { ticks, resets, nan, width, fault_ticks, .. } = self.now;
        let clean = std::mem::take(&mut self.now.walls.clean);
        let walls = Walls { before_reset: clean, ..Walls::default() };
        self.now =
            Memory { ticks, resets: resets + 1, settings: true, nan, width, fault_ticks, walls, ..Memory::default() };
    }

    fn ticked(&mut self, k: &Ticked) {
        self.ticks += 1;
        self.now.ticks += 1;
        self.spent.ticked(k);
        let (s, v) = (k.settings, k.verdict);
        let mode = usize::from(s.mode);
        self.row(k);
        self.states.hit(v.state as usize, mode);
        self.reasons.hit(v.reason as usize, mode);
        self.sources.hit(v.action_src as usize, mode);
        self.sizes.hit(usize::from(s.dim) - 1, usize::from(s.pos_dim) - 1);
        self.counters(k);
        let causes = self.causes_of(k);
        if causes.is_empty() {
            self.clean_tick(k);
        } else {
            self.fault_tick(k, &causes);
        }
        let what = match v.action_src {
            ActionSource::Brake => 0,
            ActionSource::Hold if causes.is_empty() => 1,
            ActionSource::Hold => 2,
            _ => return,
        };
        if mode == 1 {
            let relation = s.dim.cmp(&s.pos_dim) as i8 + 1;
            self.actions.hit(usize::from(s.kind) * 3 + what, relation as usize);
        }
    }

    fn width(&mut self, w: f64, waiting: bool) {
        self.now.width = Some(w);
        self.widths.hit(Width::Accepted);
        self.widths.hit_if(Width::Zero, w.to_bits() == 0);
        self.widths.hit_if(Width::MinusZero, is_neg_zero(w));
        self.widths.hit_if(Width::Waiting, waiting);
    }

    fn refused(&mut self, kind: u8, body: Option<&[u8]>, causes: &[u8]) {
        if kind == WIDTH {
            self.refused_width(body, causes);
        }
        self.numbers.hit_nth(Refused::R1, usize::from(causes[0]) - 1);
        for later in &causes[1..] {
            let pair = PAIRS.iter().position(|p| *p == (causes[0], *later));
            self.pairs.hit(pair.expect("a pair of causes that is not listed"), 0);
        }
    }

    fn ended(&mut self, waiting: bool, ticks: u32) {
        let shapes = &mut self.shapes;
        shapes.hit_if(Shape::Empty, !self.now.settings);
        shapes.hit_if(Shape::NoTick, self.now.settings && self.now.ticks == 0);
        shapes.hit_if(Shape::AfterReset, self.now.ticks > 0 && ticks == 0);
        shapes.hit_if(Shape::NoReset, self.now.ticks > 0 && self.now.resets == 0);
        shapes.hit_if(Shape::LeftOver, waiting);
    }
}

fn is_neg_zero(x: f64) -> bool {
    x == 0.0 && x.is_sign_negative()
}

/// Whether a position of 0, as a run state has where none is given, would be within.
fn zero_is_near(s: &Settings, c: usize, w: Option<f64>) -> bool {
    let (lo, hi) = (s.box_lo[c], s.box_hi[c]);
    lo <= 0.0 && hi >= 0.0 && w.is_some_and(|w| hi < w || -lo < w)
}

/// The next doubles above and below.
fn floats_up(x: f64) -> f64 {
    match x.to_bits() {
        _ if x == 0.0 => f64::from_bits(1),
        bits if x > 0.0 => f64::from_bits(bits + 1),
        bits => f64::from_bits(bits - 1),
    }
}

fn floats_down(x: f64) -> f64 {
    -floats_up(-x)
}

/// What rounding took from a - b, where it gave d: its sign is right (the two-sum of doubles, exact if nothing overflows).
fn lost(a: f64, b: f64, d: f64) -> f64 {
    let back = d + b;
    let part = d - back;
    (a - back) + -(b + part)
}

fn fault_bit(trips: u32) -> bool {
    trips & (TripMask::NONFINITE | TripMask::SCHEMA | TripMask::WATCHDOG) != 0
}

fn running(state: FuseState) -> bool {
    matches!(state, FuseState::Armed | FuseState::Watching | FuseState::Clamped)
}

/// The score is in the watch band.
fn warns(k: &Ticked) -> bool {
    let (s, score) = (k.settings, k.input.outcome.s);
    score > s.tau - s.warn_margin && !(score > s.tau)
}

/// The states that listen to acknowledgements.
fn hears(state: FuseState) -> bool {
    matches!(state, FuseState::Held | FuseState::Escalated)
}

fn acceptable(k: &Ticked) -> bool {
    k.input.ack.is_some_and(|ack| {
        let stored = k.before.last_nonce.get(usize::from(ack.operator_slot));
        ack.handoff_seq == k.before.handoff_seq && stored.is_some_and(|n| ack.nonce > *n)
    })
}

fn stands_still(k: &Ticked) -> bool {
    let n = usize::from(k.settings.pos_dim);
    k.settings.mode == 0 || fmath::norm(&k.after.vel, n) <= k.settings.v_stop_eps
}
