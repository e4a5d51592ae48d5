//! The journal machine: reads records, refuses as the table of 01-scope.md says, with the rows that Ask 7 of
//! 02-change-requests.md adds to, and calls the Rust's `decide`.

use lictor_core::{
    AckDecision, ActionKind, BrakeKind, BrakeModel, CalibrationC, ChunkView, ClampMode, EpisodeInit, ExecMode,
    FuseConfig, FuseMode, FuseState, Hysteresis, ObsView, RearmPolicy, SafetyVerdict, VerifiedAck,
};
use lictor_fuse::fuse::{decide, guard, FuseRt, TickInput};
use rules::Rule;

use crate::{lines, records::*};

/// A refused record: the cause's number and the place of its kind byte.
#[derive(Clone, Copy, Debug, PartialEq)]
pub struct Refusal {
    pub number: u8,
    pub place: u64,
}

/// What a tick saw and did, for whoever counts (coverage) or steers (generator).
pub struct Ticked<'a> {
    pub settings: &'a Settings,
    pub before: &'a Before,
    pub input: &'a TickInput<'a>,
    pub verdict: &'a SafetyVerdict,
    pub after: &'a FuseRt,
    /// the bits that the guard found, none of them on a clean tick; only where the observer asks for them
    pub guard: Option<u32>,
}

/// The parts of the run state before a tick that observers look at.
#[derive(Clone, Copy)]
pub struct Before {
    pub state: FuseState,
    pub seq: u32,
    pub last_t: u32,
    pub next_chunk_seq: u32,
    pub filled: bool,
    pub have_prev_pos: bool,
    pub clean_run: u16,
    pub clamp_streak: u8,
    pub clamps: u16,
    pub held_ticks: u16,
    pub held_clean: u16,
    pub escalated_ticks: u32,
    pub rearms: u8,
    pub handoff_seq: u32,
    pub last_nonce: [u64; 8],
    pub window: u64,
    pub max_s: f64,
}

impl Before {
    fn of(rt: &FuseRt) -> Self {
        Self {
            state: rt.state,
            seq: rt.seq,
            last_t: rt.last_t,
            next_chunk_seq: rt.next_chunk_seq,
            filled: rt.filled,
            have_prev_pos: rt.have_prev_pos,
            clean_run: rt.clean_run,
            clamp_streak: rt.clamp_streak,
            clamps: rt.clamps,
            held_ticks: rt.held_ticks,
            held_clean: rt.held_clean,
            escalated_ticks: rt.escalated_ticks,
            rearms: rt.rearms,
            handoff_seq: rt.handoff_seq,
            last_nonce: rt.last_nonce,
            window: rt.window.bits,
            max_s: rt.tally.max_s,
        }
    }
}

pub trait Observer {
    /// Whether it looks at what the guard found.
    const ASKS_GUARD: bool = false;

    fn settings(&mut self, _settings: &Settings) {}
    /// Kind 8, which nothing in this file uses; `waiting`: records were collected before it.
    fn width(&mut self, _w: f64, _waiting: bool) {}
    /// `waiting`: collected records were thrown away.
    fn reset(&mut self, _waiting: bool) {}
    fn ticked(&mut self, _tick: &Ticked) {}
    /// The end of input; `waiting`: collected records were left over.
    fn ended(&mut self, _waiting: bool, _ticks: u32) {}
    /// `causes` are all rows of the table that apply, in its order; the first one is the refusal's. There is no body where
    /// the end cuts it, or where there is no such kind.
    fn refused(&mut self, _kind: u8, _body: Option<&[u8]>, _causes: &[u8]) {}
}

/// Looks at nothing.
pub struct Unobserved;
impl Observer for Unobserved {}

/// Two observers at once.
impl<A: Observer, B: Observer> Observer for (&mut A, &mut B) {
    const ASKS_GUARD: bool = A::ASKS_GUARD || B::ASKS_GUARD;

    fn settings(&mut self, settings: &Settings) {
        self.0.settings(settings);
        self.1.settings(settings);
    }
    fn width(&mut self, w: f64, waiting: bool) {
        self.0.width(w, waiting);
        self.1.width(w, waiting);
    }
    fn reset(&mut self, waiting: bool) {
        self.0.reset(waiting);
        self.1.reset(waiting);
    }
    fn ticked(&mut self, tick: &Ticked) {
        self.0.ticked(tick);
        self.1.ticked(tick);
    }
    fn ended(&mut self, waiting: bool, ticks: u32) {
        self.0.ended(waiting, ticks);
        self.1.ended(waiting, ticks);
    }
    fn refused(&mut self, kind: u8, body: Option<&[u8]>, causes: &[u8]) {
        self.0.refused(kind, body, causes);
        self.1.refused(kind, body, causes);
    }
}

/// A journal up to some record.
pub struct Journal {
    settings: Option<Settings>,
    cfg: Option<Box<FuseConfig>>,
    pub rt: Box<FuseRt>,
    /// ticks since the last reset, or since the settings, that `stopped` counts
    pub stopped: u32,
    ack: Option<Ack>,
    head: Option<Head>,
    outcome: Option<Outcome>,
    lists: [Vec<f64>; 5],
    /// a width came, and whether a reset or a tick did
    has_width: bool,
    begun: bool,
    place: u64,
}

impl Default for Journal {
    fn default() -> Self {
        Self::new()
    }
}

impl Journal {
    pub fn new() -> Self {
        Self {
            settings: None,
            cfg: None,
            rt: Box::new(FuseRt::new()),
            stopped: 0,
            ack: None,
            head: None,
            outcome: None,
            lists: Default::default(),
            has_width: false,
            begun: false,
            place: 0,
        }
    }

    /// Takes the record at the start of `rest`, all that is left of the input (not empty): how many bytes it has, and
    /// the verdict if it is a tick. After a refusal nothing has changed.
    pub fn step(
        &mut self,
        rest: &[u8],
        observer: &mut impl Observer,
    ) -> Result<(usize, Option<SafetyVerdict>), Refusal> {
        let kind = rest[0];
        let record = Record { kind, body: body_len(kind).and_then(|n| rest.get(1..1 + n)) };
        if let Some(number) = record.refusals(self).next() {
            let causes: Vec<u8> = record.refusals(self).collect();
            observer.refused(kind, record.body, &causes);
            return Err(Refusal { number, place: self.place });
        }
        let body = record.body.expect("refused if there is no body");
        let verdict = self.take(kind, body, observer);
        let used = 1 + body.len();
        self.place += used as u64;
        Ok((used, verdict))
    }

    /// A record that was not refused.
    fn take(&mut self, kind: u8, body: &[u8], observer: &mut impl Observer) -> Option<SafetyVerdict> {
        match kind {
            SETTINGS => {
                let settings = Settings::read(body);
                observer.settings(&settings);
                self.cfg = Some(Box::new(config(&settings)));
                self.settings = Some(settings);
                *self.rt = FuseRt::new();
                self.stopped = 0;
            }
            RESET => {
                observer.reset(self.waiting());
                let nonces = self.rt.last_nonce;
                self.rt.reset(EpisodeInit { episode_index: 0, seed: 0, delay_steps: 0, exec: ExecMode::Sync });
                if nonces != self.rt.last_nonce && rules::applies(Rule::ResetKeepsNonces) {
                    self.rt.last_nonce = nonces;
                }
                self.stopped = 0;
                self.empty();
                self.begun = true;
            }
            ACK => self.ack = Some(Ack::read(body)),
            HEAD => self.head = Some(Head::read(body)),
            VALUE => {
                let value = Value::read(body);
                self.lists[value.list as usize].push(value.x);
            }
            OUTCOME => self.outcome = Some(Outcome::read(body)),
            WIDTH => {
                observer.width(Width::read(body).w, self.waiting());
                self.has_width = true;
            }
            _ => return Some(self.tick(Tick::read(body), observer)),
        }
        None
    }

    /// The end of the input.
    pub fn end(&self, observer: &mut impl Observer) {
        observer.ended(self.waiting(), self.rt.tally.ticks);
    }

    fn waiting(&self) -> bool {
        let lists = self.lists.iter().any(|list| !list.is_empty());
        lists || self.ack.is_some() || self.head.is_some() || self.outcome.is_some()
    }

    /// Forgets the collected records.
    fn empty(&mut self) {
        self.ack = None;
        self.head = None;
        self.outcome = None;
        self.lists.iter_mut().for_each(Vec::clear);
    }

    fn tick<O: Observer>(&mut self, tick: Tick, observer: &mut O) -> SafetyVerdict {
        let settings = self.settings.as_ref().expect("refused before settings");
        let cfg = self.cfg.as_ref().expect("refused before settings");
        let outcome = detected(self.outcome.as_ref().expect("refused without an outcome"));
        let [chunk, pos, vel, aux, ext] = &self.lists;
        let input = TickInput {
            obs: ObsView { t: tick.t, pos, vel: (tick.velocity == 1).then_some(vel.as_slice()), aux, ext },
            chunk: self.head.map(|h| ChunkView {
                seq: h.seq,
                t_emit: h.t_emit,
                horizon: h.horizon,
                dim: h.dim,
                exec_steps: h.exec,
                data: chunk,
            }),
            idx: tick.idx,
            missed_ticks: tick.missed,
            ack: self.ack.map(verified),
            schema_fault: tick.schema == 1,
            outcome: &outcome,
        };
        let before = Before::of(&self.rt);
        let guard = O::ASKS_GUARD.then(|| guard(cfg, &self.rt, &input));
        let verdict = decide(cfg, &mut self.rt, &input);
        self.stopped = self.stopped.saturating_add(u32::from(lines::stops(&verdict)));
        let after = &self.rt;
        observer.ticked(&Ticked { settings, before: &before, input: &input, verdict: &verdict, after, guard });
        self.empty();
        self.begun = true;
        verdict
    }
}

/// A record as it stands in the journal; no body where the end cuts it, or where there is no such kind.
struct Record<'a> {
    kind: u8,
    body: Option<&'a [u8]>,
}

/// A row of the table of refusals: number, and whether the cause is there.
type Row = (u8, fn(&Record, &Journal) -> bool);

/// The table in its order.
const TABLE: [Row; 10] = [
    (5, |r, _| body_len(r.kind).is_none()),
    (6, |r, _| body_len(r.kind).is_some() && r.body.is_none()),
    (8, |r, j| (RESET..=WIDTH).contains(&r.kind) && j.settings.is_none()),
    (9, |r, j| match r.kind {
        SETTINGS => j.settings.is_some(),
        ACK => j.ack.is_some(),
        HEAD => j.head.is_some(),
        OUTCOME => j.outcome.is_some(),
        WIDTH => j.has_width || j.begun,
        _ => false,
    }),
    (1, |r, _| r.body.is_some_and(|body| code_wrong(r.kind, body))),
    (2, |r, _| r.settings().is_some_and(sizes_wrong)),
    (3, |r, _| r.settings().is_some_and(float_wrong) || r.width().is_some_and(width_wrong)),
    (4, |r, _| r.settings().is_some_and(box_wrong)),
    (7, |r, j| r.of_kind(VALUE).is_some_and(|body| list_full(&Value::read(body), j))),
    (10, |r, j| r.of_kind(TICK).is_some_and(|body| tick_lacks(&Tick::read(body), j))),
];

impl<'a> Record<'a> {
    /// The numbers of all rows that apply.
    fn refusals<'b>(&'b self, journal: &'b Journal) -> impl Iterator<Item = u8> + 'b {
        TABLE.iter().filter(|(_, applies)| applies(self, journal)).map(|(number, _)| *number)
    }

    fn of_kind(&self, kind: u8) -> Option<&'a [u8]> {
        self.body.filter(|_| self.kind == kind)
    }

    fn settings(&self) -> Option<Settings> {
        self.of_kind(SETTINGS).map(Settings::read)
    }

    fn width(&self) -> Option<f64> {
        self.of_kind(WIDTH).map(|body| Width::read(body).w)
    }
}

/// A code or flag that is not listed.
fn code_wrong(kind: u8, body: &[u8]) -> bool {
    match kind {
        SETTINGS => {
            let s = Settings::read(body);
            s.mode > 1 || s.kind > 4 || s.clamp > 1 || s.rearm > 1
        }
        ACK => Ack::read(body).decision > 2,
        VALUE => Value::read(body).list > 4,
        OUTCOME => Outcome::read(body).feasible > 1,
        TICK => {
            let t = Tick::read(body);
            t.schema > 1 || t.velocity > 1
        }
        _ => false,
    }
}

fn sizes_wrong(s: Settings) -> bool {
    !(1..=8).contains(&s.dim)
        || !(1..=8).contains(&s.pos_dim)
        || !(1..=64).contains(&s.horizon)
        || !(1..=s.horizon).contains(&s.exec)
}

fn float_wrong(s: Settings) -> bool {
    let finite = [s.dt, s.inv_dt, s.a_max, s.v_stop_eps, s.warn_margin];
    let mut all = finite.iter().chain(&s.box_lo).chain(&s.box_hi);
    all.any(|x| !x.is_finite()) || s.tau.is_nan()
}

/// Not finite, or below zero, which -0 is not.
fn width_wrong(w: f64) -> bool {
    !w.is_finite() || w < 0.0
}

fn box_wrong(s: Settings) -> bool {
    s.box_lo.iter().zip(&s.box_hi).any(|(lo, hi)| lo > hi)
}

fn list_full(value: &Value, j: &Journal) -> bool {
    j.lists.get(usize::from(value.list)).is_some_and(|list| list.len() >= CAPACITY[usize::from(value.list)])
}

/// No outcome, chunk values without a head, or vel values without the velocity flag.
fn tick_lacks(tick: &Tick, j: &Journal) -> bool {
    j.outcome.is_none()
        || (j.head.is_none() && !j.lists[usize::from(CHUNK)].is_empty())
        || (tick.velocity == 0 && !j.lists[usize::from(VEL)].is_empty())
}

/// The Rust's configuration for accepted settings. What the settings do not give, no ported function reads.
pub fn config(s: &Settings) -> FuseConfig {
    let mut calib = CalibrationC::DISARMED;
    calib.mask = s.calib_mask;
    calib.tau = s.tau;
    FuseConfig {
        mode: [FuseMode::Observe, FuseMode::Enforce][s.mode as usize],
        kind: [
            ActionKind::EePosition,
            ActionKind::EeDelta,
            ActionKind::JointPosition,
            ActionKind::JointVelocity,
            ActionKind::Other,
        ][s.kind as usize],
        dim: s.dim as usize,
        pos_dim: s.pos_dim as usize,
        horizon: s.horizon as usize,
        exec: s.exec as usize,
        dt: s.dt,
        inv_dt: s.inv_dt,
        a_max: s.a_max,
        box_lo: s.box_lo,
        box_hi: s.box_hi,
        clamp: [ClampMode::Off, ClampMode::Project][s.clamp as usize],
        hyst: Hysteresis {
            k: s.k,
            n: 0,
            warn_margin: s.warn_margin,
            clear_ticks: s.clear,
            clamp_streak_to_brake: s.streak,
            max_clamps_per_episode: s.max_clamps,
            stop_confirm_ticks: s.confirm,
            v_stop_eps: s.v_stop_eps,
            brake_timeout_ticks: s.brake,
            rearm: [RearmPolicy::Auto, RearmPolicy::AckOnly][s.rearm as usize],
            rearm_hold: s.rearm_hold,
            max_rearms: s.max_rearms,
            escalate_after_hold_ticks: s.hold,
            handoff_timeout_ticks: s.handoff,
            watchdog_ticks: s.watchdog,
        },
        window_mask: s.window_mask,
        tier0_enabled: s.tier0_enabled,
        calib,
        envelope_digest: [0; 32],
        embodiment_digest: [0; 32],
        calib_digest: None,
        overlap: 0,
        inv_dt2: f64::NAN,
        inv_dt3: f64::NAN,
        norm_center: [f64::NAN; 8],
        inv_norm_scale: [f64::NAN; 8],
        norm_scale_iso: f64::NAN,
        v_max: f64::NAN,
        j_max: f64::NAN,
        reach_max: f64::NAN,
        step_max: f64::NAN,
        contact: None,
        brake: BrakeModel {
            kind: BrakeKind::BoundedAccel,
            k_p: f64::NAN,
            k_v: f64::NAN,
            substeps: 0,
            dt: f64::NAN,
            commit_steps: 0,
            brake_steps: 0,
            react_ticks: 0,
        },
        n_operators: 0,
    }
}

pub fn detected(o: &Outcome) -> outcome::Outcome {
    outcome::Outcome {
        trips: o.trips,
        clamped_dims: o.clamped_dims,
        feasible: o.feasible == 1,
        margin: o.margin,
        s: o.s,
        valid: o.valid,
        fired: o.fired,
        z: o.z,
        policy_row: o.policy_row,
        clamped_row: o.clamped_row,
    }
}

pub fn verified(a: Ack) -> VerifiedAck {
    VerifiedAck {
        decision: [AckDecision::Resume, AckDecision::Abort, AckDecision::Retune][a.decision as usize],
        operator_slot: a.slot,
        nonce: a.nonce,
        handoff_seq: a.handoff,
    }
}
