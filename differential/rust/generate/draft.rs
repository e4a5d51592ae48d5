//! A journal while it is written. The reference runs along, so that the next tick can be chosen by the run state.

use lictor_core::FuseState;
use lictor_fuse::fuse::FuseRt;
use oracle::{
    journal::{Journal, Unobserved},
    records::*,
};

use crate::{floats, rng::Rng};

/// One tick with all its records.
#[derive(Clone)]
pub struct Plan {
    pub tick: Tick,
    pub pos: Vec<f64>,
    pub vel: Vec<f64>,
    pub aux: Vec<f64>,
    pub ext: Vec<f64>,
    pub head: Option<Head>,
    pub chunk: Vec<f64>,
    pub ack: Option<Ack>,
    pub outcome: Outcome,
}

impl Plan {
    pub fn deliver(&mut self, settings: &Settings, seq: u32, rng: &Rng) {
        let idx = u32::from(self.tick.idx).min(self.tick.t);
        self.tick.idx = idx as u16;
        self.head = Some(Head {
            seq,
            t_emit: self.tick.t - idx,
            horizon: settings.horizon,
            dim: u16::from(settings.dim),
            exec: settings.exec,
        });
        let count = usize::from(settings.horizon) * usize::from(settings.dim);
        self.chunk = (0..count).map(|_| floats::plain(rng, 1.0)).collect();
    }

    /// Supplies a velocity.
    pub fn velocity(&mut self, vel: Vec<f64>) {
        self.tick.velocity = 1;
        self.vel = vel;
    }
}

/// An outcome that trips nothing.
pub fn calm() -> Outcome {
    Outcome {
        trips: 0,
        clamped_dims: 0,
        feasible: 1,
        margin: 0.25,
        s: f64::NEG_INFINITY,
        valid: 0,
        fired: 0,
        z: [0.0; 12],
        policy_row: [0.5; 8],
        clamped_row: [0.25; 8],
    }
}

pub struct Draft {
    pub bytes: Vec<u8>,
    pub settings: Settings,
    journal: Journal,
    refused: bool,
}

impl Draft {
    pub fn new(settings: Settings) -> Self {
        let mut draft = Self { bytes: Vec::new(), settings, journal: Journal::new(), refused: false };
        let mut body = Vec::new();
        settings.write(&mut body);
        draft.record(SETTINGS, &body);
        assert!(!draft.refused, "a profile made settings that are refused: {settings:?}");
        draft
    }

    pub fn record(&mut self, kind: u8, body: &[u8]) {
        let at = self.bytes.len();
        self.bytes.push(kind);
        self.bytes.extend_from_slice(body);
        if !self.refused {
            self.refused = self.journal.step(&self.bytes[at..], &mut Unobserved).is_err();
        }
    }

    pub fn rt(&self) -> &FuseRt {
        &self.journal.rt
    }

    pub fn state(&self) -> FuseState {
        self.rt().state
    }

    pub fn reset(&mut self) {
        self.record(RESET, &[]);
    }

    pub fn value(&mut self, list: u8, x: f64) {
        let mut body = Vec::with_capacity(Value::LEN);
        Value { list, x }.write(&mut body);
        self.record(VALUE, &body);
    }

    pub fn ack(&mut self, ack: Ack) {
        let mut body = Vec::with_capacity(Ack::LEN);
        ack.write(&mut body);
        self.record(ACK, &body);
    }

    pub fn head(&mut self, head: Head) {
        let mut body = Vec::with_capacity(Head::LEN);
        head.write(&mut body);
        self.record(HEAD, &body);
    }

    pub fn width(&mut self, w: f64) {
        let mut body = Vec::with_capacity(Width::LEN);
        Width { w }.write(&mut body);
        self.record(WIDTH, &body);
    }

    pub fn outcome(&mut self, outcome: &Outcome) {
        let mut body = Vec::with_capacity(Outcome::LEN);
        outcome.write(&mut body);
        self.record(OUTCOME, &body);
    }

    pub fn tick(&mut self, tick: Tick) {
        let mut body = Vec::with_capacity(Tick::LEN);
        tick.write(&mut body);
        self.record(TICK, &body);
    }

    /// A tick that the guard lets pass if any can: calm, standing still, no lists but the position, no chunk unless
    /// none was filled.
    pub fn good(&self, missed: u8, rng: &Rng) -> Plan {
        let rt = self.rt();
        let s = &self.settings;
        let t = if rt.seq == 0 { 0 } else { rt.last_t.wrapping_add(1).wrapping_add(u32::from(missed)) };
        let idx = rng.below(usize::from(s.horizon)) as u16;
        let mut plan = Plan {
            tick: Tick { t, idx, missed, schema: 0, velocity: 0 },
            pos: rt.pos[..usize::from(s.pos_dim)].to_vec(),
            vel: Vec::new(),
            aux: Vec::new(),
            ext: Vec::new(),
            head: None,
            chunk: Vec::new(),
            ack: None,
            outcome: calm(),
        };
        if !rt.filled {
            plan.deliver(s, rt.next_chunk_seq, rng);
        }
        plan
    }

    /// The same with a chunk.
    pub fn good_with_chunk(&self, missed: u8, rng: &Rng) -> Plan {
        let mut plan = self.good(missed, rng);
        plan.deliver(&self.settings, self.rt().next_chunk_seq, rng);
        plan
    }

    /// Writes the records of a tick. Their order is free but for that of values in one list.
    pub fn send(&mut self, plan: &Plan, rng: &Rng) {
        let mut order = [0, 1, 2, 3, 4, 5, 6, 7];
        rng.shuffle(&mut order);
        for part in order {
            match part {
                0 => self.values(CHUNK, &plan.chunk),
                1 => self.values(POS, &plan.pos),
                2 => self.values(VEL, &plan.vel),
                3 => self.values(AUX, &plan.aux),
                4 => self.values(EXT, &plan.ext),
                5 => plan.ack.into_iter().for_each(|ack| self.ack(ack)),
                6 => plan.head.into_iter().for_each(|head| self.head(head)),
                _ => self.outcome(&plan.outcome),
            }
        }
        self.tick(plan.tick);
    }

    fn values(&mut self, list: u8, values: &[f64]) {
        for x in values {
            self.value(list, *x);
        }
    }
}
