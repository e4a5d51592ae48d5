//! A plausible arm and policy, so that every detector of the Rust has something to find.

use lictor_core::{
    AckDecision, ActionKind, BrakeKind, BrakeModel, CalMethod, CalibrationC, ClampMode, ContactLimit, FuseConfig,
    FuseMode, FuseState, GateSpec, Hysteresis, RearmPolicy, SafetyVerdict, VerifiedAck, MAX_D, MAX_POS, MAX_TERMS,
    NFEAT, T_GRID,
};
use lictor_detect::Recorded;
use lictor_fuse::fuse::FuseRt;

use crate::{
    floats,
    records::{self, Ack, Head, Outcome, Settings, Value},
    rng::Rng,
};

pub struct World {
    pub cfg: FuseConfig,
    pos: Vec<f64>,
    vel: Vec<f64>,
    /// first tick of the chunk that runs now
    t_emit: u32,
}

/// What the host hands to the fuse.
pub struct Tick {
    pub t: u32,
    pub idx: u16,
    pub missed: u8,
    pub schema: bool,
    pub pos: Vec<f64>,
    pub vel: Option<Vec<f64>>,
    pub aux: Vec<f64>,
    pub ext: Vec<f64>,
    pub head: Option<Head>,
    pub chunk: Vec<f64>,
    pub ack: Option<VerifiedAck>,
}

impl Tick {
    /// The records of this tick.
    pub fn write(&self, outcome: &Outcome, to: &mut Vec<u8>) {
        let vel = self.vel.as_deref().unwrap_or(&[]);
        let lists = [&self.chunk, &self.pos, vel, &self.aux, &self.ext];
        for (list, values) in lists.into_iter().enumerate() {
            for x in values {
                to.push(records::VALUE);
                Value { list: list as u8, x: *x }.write(to);
            }
        }
        if let Some(a) = self.ack {
            to.push(records::ACK);
            let decision = a.decision as u8;
            Ack { decision, slot: a.operator_slot, nonce: a.nonce, handoff: a.handoff_seq }.write(to);
        }
        if let Some(head) = self.head {
            to.push(records::HEAD);
            head.write(to);
        }
        to.push(records::OUTCOME);
        outcome.write(to);
        to.push(records::TICK);
        let (schema, velocity) = (u8::from(self.schema), u8::from(self.vel.is_some()));
        records::Tick { t: self.t, idx: self.idx, missed: self.missed, schema, velocity }.write(to);
    }
}

impl World {
    pub fn new(rng: &Rng) -> Self {
        let cfg = config(rng);
        let n = cfg.pos_dim;
        Self { cfg, pos: vec![0.0; n], vel: vec![0.0; n], t_emit: 0 }
    }

    /// The settings record for the configuration.
    pub fn settings(&self) -> Settings {
        let (c, h) = (&self.cfg, &self.cfg.hyst);
        let eight = |list: &[f64; MAX_POS]| std::array::from_fn(|i| list[i]);
        Settings {
            mode: c.mode as u8,
            kind: c.kind as u8,
            clamp: c.clamp as u8,
            rearm: h.rearm as u8,
            dim: c.dim as u8,
            pos_dim: c.pos_dim as u8,
            k: h.k,
            clear: h.clear_ticks,
            streak: h.clamp_streak_to_brake,
            confirm: h.stop_confirm_ticks,
            watchdog: h.watchdog_ticks,
            max_rearms: h.max_rearms,
            horizon: c.horizon as u16,
            exec: c.exec as u16,
            max_clamps: h.max_clamps_per_episode,
            brake: h.brake_timeout_ticks,
            rearm_hold: h.rearm_hold,
            hold: h.escalate_after_hold_ticks,
            handoff: h.handoff_timeout_ticks,
            tier0_enabled: c.tier0_enabled,
            calib_mask: c.calib.mask,
            window_mask: c.window_mask,
            dt: c.dt,
            inv_dt: c.inv_dt,
            a_max: c.a_max,
            v_stop_eps: h.v_stop_eps,
            warn_margin: h.warn_margin,
            tau: c.calib.tau,
            box_lo: eight(&c.box_lo),
            box_hi: eight(&c.box_hi),
        }
    }

    pub fn reset(&mut self) {
        self.pos.fill(0.0);
        self.vel.fill(0.0);
        self.t_emit = 0;
    }

    pub fn ends_episode(&self, rt: &FuseRt, rng: &Rng) -> bool {
        rng.chance(match rt.state {
            FuseState::Idle => 950,
            FuseState::Fault | FuseState::Terminated => 400,
            _ => 5,
        })
    }

    pub fn tick(&mut self, rt: &FuseRt, rng: &Rng) -> Tick {
        let missed = if rng.chance(30) { rng.below(3) as u8 } else { 0 };
        let t = if rt.seq == 0 { 0 } else { rt.last_t.wrapping_add(1).wrapping_add(u32::from(missed)) };
        let old = t.wrapping_sub(self.t_emit);
        let deliver = !rt.cur.is_filled() || old >= self.cfg.exec as u32 || rng.chance(100);
        if deliver {
            // Now and then a chunk comes late, and its first rows are past.
            let late = if rng.chance(200) { rng.below(self.cfg.horizon) as u32 } else { 0 };
            self.t_emit = t - late.min(t);
        }
        let count = |rng: &Rng, most: usize| if rng.chance(300) { rng.below(most + 1) } else { 0 };
        let near = |rng: &Rng| self.pos[0] + floats::plain(rng, 0.4);
        let mut tick = Tick {
            t,
            idx: t.wrapping_sub(self.t_emit) as u16,
            missed,
            schema: false,
            pos: self.pos.clone(),
            vel: rng.chance(600).then(|| self.vel.clone()),
            aux: (0..if rng.chance(600) { 4 } else { count(rng, 8) }).map(|_| near(rng)).collect(),
            ext: (0..count(rng, 4)).map(|_| floats::plain(rng, 3.0)).collect(),
            head: None,
            chunk: Vec::new(),
            ack: rng.chance(120).then(|| ack(rt, rng)),
        };
        if deliver {
            tick.head = Some(Head {
                seq: rt.next_chunk_seq,
                t_emit: self.t_emit,
                horizon: self.cfg.horizon as u16,
                dim: self.cfg.dim as u16,
                exec: self.cfg.exec as u16,
            });
            tick.chunk = self.chunk(rng);
        }
        if rng.chance(15) {
            match rng.below(5) {
                0 => tick.pos[0] = floats::not_finite(rng),
                1 => tick.t = tick.t.wrapping_add(1),
                2 => tick.missed = 200,
                3 => tick.schema = true,
                _ => tick.idx = self.cfg.horizon as u16,
            }
        }
        tick
    }

    /// A path from the position towards some point, rough or smooth, sometimes out of the box.
    fn chunk(&self, rng: &Rng) -> Vec<f64> {
        let (d, h) = (self.cfg.dim, self.cfg.horizon);
        let position = !matches!(self.cfg.kind, ActionKind::JointVelocity | ActionKind::EeDelta);
        let step = self.cfg.step_max * rng.pick(&[0.1, 0.3, 0.6, 1.5]) / (d as f64);
        let rough = if rng.chance(250) { 0.3 * step } else { 0.001 * step };
        let way: Vec<f64> = (0..d).map(|_| floats::plain(rng, step)).collect();
        let mut data = Vec::with_capacity(h * d);
        for i in 0..h {
            for (c, along) in way.iter().enumerate() {
                let from = if position { self.pos.get(c).copied().unwrap_or(0.0) } else { 0.0 };
                let gone = if position { along * (i + 1) as f64 } else { *along };
                data.push(from + gone + floats::plain(rng, rough));
            }
        }
        data
    }

    /// The outcome record of a tick: what was recorded, or anything at all where nothing may be read.
    pub fn outcome(&self, got: Recorded, rt: &FuseRt, idx: u16, rng: &Rng) -> Outcome {
        let any = rng.bits() as u32;
        let mut outcome = Outcome {
            trips: any,
            clamped_dims: any,
            feasible: (any % 2) as u8,
            margin: floats::odd(rng),
            s: floats::odd(rng),
            valid: any,
            fired: any,
            z: [f64::NAN; 12],
            policy_row: [f64::NAN; 8],
            clamped_row: [f64::NAN; 8],
        };
        if got.calls == 0 {
            return outcome; // a fault tick, which asks no detector
        }
        outcome.trips = got.trips;
        outcome.clamped_dims = got.clamped_dims;
        outcome.feasible = u8::from(got.feasible);
        outcome.margin = got.margin;
        outcome.s = got.s;
        outcome.valid = got.valid.unwrap_or(any);
        outcome.fired = got.fired;
        outcome.z = got.z;
        let rows = [(&rt.cur, &mut outcome.policy_row), (&rt.scratch, &mut outcome.clamped_row)];
        for (buffer, row) in rows {
            let view = buffer.view().expect("filled after a clean tick");
            row[..self.cfg.dim].copy_from_slice(view.action(usize::from(idx)));
        }
        outcome
    }

    /// The arm follows the action.
    pub fn moves(&mut self, verdict: &SafetyVerdict) {
        let dt = self.cfg.dt;
        for c in 0..self.pos.len() {
            let action = if c < self.cfg.dim { verdict.action[c] } else { 0.0 };
            let speed = match self.cfg.kind {
                ActionKind::JointVelocity => action,
                ActionKind::EeDelta => action / dt,
                _ => (action - self.pos[c]) / dt * 0.7,
            };
            self.vel[c] = if speed.is_finite() { speed } else { 0.0 };
            self.pos[c] += self.vel[c] * dt;
        }
    }
}

fn ack(rt: &FuseRt, rng: &Rng) -> VerifiedAck {
    // Often a slot that has a nonce stored: it is kept over resets, and then comes again.
    let used = rt.last_nonce.iter().position(|nonce| *nonce > 0);
    let slot = used.filter(|_| rng.chance(400)).unwrap_or(rng.below(9)) as u8;
    let stored = rt.last_nonce.get(usize::from(slot)).copied().unwrap_or(0);
    VerifiedAck {
        decision: rng.pick(&[AckDecision::Resume, AckDecision::Resume, AckDecision::Abort, AckDecision::Retune]),
        operator_slot: slot,
        nonce: stored + rng.below(3) as u64,
        handoff_seq: rt.handoff_seq + u32::from(rng.chance(200)),
    }
}

fn config(rng: &Rng) -> FuseConfig {
    let pos_dim = rng.range(1, 8);
    let dim = if rng.chance(700) { pos_dim } else { rng.range(1, 8) };
    let horizon = rng.pick(&[1, 2, 4, 8, 15]);
    let exec = rng.range(1, horizon);
    let dt = rng.pick(&[0.05, 0.1, 0.02]);
    let inv_dt = 1.0 / dt;
    let v_max = rng.pick(&[0.5, 1.0, 5.0]);
    let n = rng.range(1, 6) as u8;
    FuseConfig {
        envelope_digest: [0; 32],
        embodiment_digest: [0; 32],
        calib_digest: None,
        mode: rng.pick(&[FuseMode::Observe, FuseMode::Enforce, FuseMode::Enforce]),
        kind: rng.pick(&[
            ActionKind::EePosition,
            ActionKind::EeDelta,
            ActionKind::JointPosition,
            ActionKind::JointVelocity,
            ActionKind::Other,
        ]),
        dim,
        pos_dim,
        horizon,
        exec,
        overlap: horizon - exec,
        dt,
        inv_dt,
        inv_dt2: inv_dt * inv_dt,
        inv_dt3: inv_dt * inv_dt * inv_dt,
        norm_center: [0.1; MAX_D],
        inv_norm_scale: [0.5; MAX_D],
        norm_scale_iso: 2.0,
        box_lo: [-1.0; MAX_POS],
        box_hi: [1.0; MAX_POS],
        v_max,
        a_max: rng.pick(&[5.0, 50.0, 500.0]),
        j_max: rng.pick(&[500.0, 1e4, 1e6]),
        reach_max: rng.pick(&[0.1, 1.0, 3.0]),
        step_max: v_max * dt,
        contact: rng.chance(600).then_some(ContactLimit { radius: 0.5, v_max: v_max * 0.5, aux_center: [0, 1] }),
        brake: BrakeModel {
            kind: rng.pick(&[
                BrakeKind::PdSecondOrder,
                BrakeKind::FirstOrderDecay,
                BrakeKind::BoundedAccel,
                BrakeKind::JerkLimited,
                BrakeKind::ZeroVelocityHold,
            ]),
            k_p: rng.pick(&[10.0, 100.0]),
            k_v: rng.pick(&[5.0, 20.0]),
            substeps: rng.range(1, 5) as u16,
            dt: dt / 5.0,
            commit_steps: rng.range(1, horizon) as u16,
            brake_steps: rng.range(0, 4) as u16,
            react_ticks: rng.below(2) as u16,
        },
        clamp: rng.pick(&[ClampMode::Off, ClampMode::Project, ClampMode::Project]),
        hyst: Hysteresis {
            k: rng.range(1, usize::from(n)) as u8,
            n,
            warn_margin: rng.pick(&[0.0, 0.5, 1.0]),
            clear_ticks: rng.below(5) as u8,
            clamp_streak_to_brake: rng.range(1, 6) as u8,
            max_clamps_per_episode: rng.pick(&[3, 10, 60]),
            stop_confirm_ticks: rng.below(4) as u8,
            v_stop_eps: rng.pick(&[0.01, 0.1, 1.0]),
            brake_timeout_ticks: rng.pick(&[2, 5, 30]),
            rearm: rng.pick(&[RearmPolicy::Auto, RearmPolicy::AckOnly]),
            rearm_hold: rng.below(5) as u16,
            max_rearms: rng.below(4) as u8,
            escalate_after_hold_ticks: rng.below(8) as u16,
            handoff_timeout_ticks: rng.below(10) as u32,
            watchdog_ticks: 2,
        },
        window_mask: (1 << n) - 1,
        tier0_enabled: rng.pick(&[0x7f, 0x7f, 0x3f, rng.below(128) as u32]),
        n_operators: 8,
        calib: calibration(rng),
    }
}

fn calibration(rng: &Rng) -> CalibrationC {
    let mut calib = CalibrationC::DISARMED;
    if rng.chance(200) {
        return calib;
    }
    let mut gate = GateSpec { n_terms: rng.range(1, MAX_TERMS) as u8, terms: [0; MAX_TERMS] };
    for term in &mut gate.terms[..usize::from(gate.n_terms)] {
        *term = 1 << rng.below(NFEAT) | if rng.chance(300) { 1 << rng.below(NFEAT) } else { 0 };
    }
    calib.method = CalMethod::Binned;
    calib.t_grid = rng.pick(&[1, T_GRID as u16]);
    calib.horizon_ticks = rng.pick(&[30, 300]);
    calib.gate = gate;
    calib.mask = gate.mask();
    calib.tau = rng.pick(&[0.5, 2.0, 5.0, f64::INFINITY]);
    for (center, scale) in calib.center.iter_mut().zip(&mut calib.scale) {
        for j in 0..NFEAT {
            center[j] = floats::plain(rng, 1.0);
            scale[j] = 0.2 + floats::plain(rng, 1.0).abs();
        }
    }
    calib
}
