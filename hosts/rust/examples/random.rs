//! A host for the test of the recorder: calls the fuse with whatever comes, and records its calls.
//!
//!     random SEED TICKS RECORD
//!
//! Prints the lines of `fuse` without the margin.
//! It makes the calls of hosts/c/random.c, so that the two records have to be one.

use disklorva::recorder::Recorder;
use disklorva::{ffi, Ack, Chunk, Input, Lists, Outcome, Settings};
use std::fs::File;
use std::io::{self, Write};

struct Numbers(u64);

impl Numbers {
    fn any(&mut self) -> u64 {
        self.0 ^= self.0 << 13;
        self.0 ^= self.0 >> 7;
        self.0 ^= self.0 << 17;
        self.0
    }

    fn below(&mut self, n: u64) -> u64 {
        (self.any() >> 11) % n
    }

    fn one_in(&mut self, n: u64) -> bool {
        self.below(n) == 0
    }

    fn value(&mut self) -> f64 {
        if self.one_in(400) {
            // The NaN is that of C's NAN, bit by bit.
            [f64::from_bits(0x7ff8000000000000), f64::INFINITY, -f64::INFINITY, 0.0, -0.0, 1e300]
                [self.below(6) as usize]
        } else {
            (self.below(4001) as f64 - 2000.0) / 1000.0
        }
    }

    fn flag(&mut self, usual: u8) -> u8 {
        if self.one_in(300) {
            self.any() as u8
        } else {
            usual
        }
    }

    fn list(&mut self, usual: u64) -> Vec<f64> {
        let n = if self.one_in(100) {
            usual + 1 + self.below(20)
        } else if self.one_in(150) {
            self.below(600)
        } else if self.one_in(150) {
            self.below(20)
        } else {
            usual
        };
        (0..n).map(|_| self.value()).collect()
    }

    /// A struct's fields are made in the order in which they are written.
    fn settings(&mut self) -> Settings {
        let mut s = Settings {
            mode: (!self.one_in(4)).into(),
            kind: self.below(5) as u8,
            clamp: (!self.one_in(4)).into(),
            rearm: self.below(2) as u8,
            dim: if self.one_in(3) { 8 } else { 1 + self.below(8) as u8 },
            pos_dim: 1 + self.below(8) as u8,
            k: 1 + self.below(4) as u8,
            clear_ticks: self.below(4) as u8,
            clamp_streak_to_brake: 1 + self.below(4) as u8,
            stop_confirm_ticks: self.below(3) as u8,
            watchdog_ticks: self.below(3) as u8,
            max_rearms: self.below(4) as u8,
            horizon: if self.one_in(3) { 64 } else { 1 + self.below(64) as u16 },
            exec: 0,
            max_clamps_per_episode: self.below(20) as u16,
            brake_timeout_ticks: 1 + self.below(6) as u16,
            rearm_hold: self.below(4) as u16,
            escalate_after_hold_ticks: self.below(6) as u16,
            handoff_timeout_ticks: self.below(8) as u32,
            tier0_enabled: 0xffff,
            calib_mask: self.any() as u32,
            window_mask: 31,
            dt: 0.05,
            inv_dt: 20.0,
            a_max: 1.0,
            v_stop_eps: if self.one_in(2) { 100.0 } else { 0.01 },
            warn_margin: 0.5,
            tau: 1.8,
            box_lo: [-1.0; 8],
            box_hi: [1.0; 8],
        };
        s.exec = s.horizon;
        s
    }

    fn outcome(&mut self) -> Outcome {
        Outcome {
            trips: if self.one_in(12) { 1 << self.below(10) } else { 0 },
            clamped_dims: self.any() as u32,
            feasible: if self.one_in(30) { self.any() as u8 } else { 1 },
            margin: self.value(),
            s: self.value(),
            valid: self.any() as u32,
            fired: self.any() as u32,
            z: std::array::from_fn(|_| self.value()),
            policy: std::array::from_fn(|_| self.value()),
            clamped: std::array::from_fn(|_| self.value()),
        }
    }

    fn input(&mut self, s: &Settings, rt: &ffi::RunState, emitted: &mut u32, left: u64) -> Input {
        let missed_ticks = if self.one_in(60) { self.below(5) as u8 } else { 0 };
        let due = if rt.clock.seq == 0 { 0 } else { rt.clock.last_t.wrapping_add(1 + u32::from(missed_ticks)) };
        let t = if self.one_in(300) { self.any() as u32 } else { due };
        let schema_fault = self.flag(0);
        let usual = self.below(2) as u8;
        let has_vel = self.flag(usual);
        let wanted = rt.clock.filled == 0 || t.wrapping_sub(*emitted) >= s.horizon.into() || self.one_in(6);
        let has_chunk = self.flag(wanted.into());
        if has_chunk != 0 {
            *emitted = t;
        }
        let chunk = Chunk {
            seq: rt.clock.next_chunk_seq.wrapping_add(self.one_in(200).into()),
            t_emit: *emitted,
            horizon: s.horizon,
            dim: u16::from(s.dim) + u16::from(self.one_in(200)),
            exec_steps: s.exec,
        };
        let usual = self.one_in(4).into();
        let has_ack = self.flag(usual);
        let decisions = if self.one_in(20) { 5 } else { 3 };
        let decision = self.below(decisions) as u8;
        let operator_slot = self.below(9) as u8;
        let spent = rt.control.last_nonce[usize::from(operator_slot % 8)];
        let nonce = if left % 2 == 1 { self.below(20) } else { spent.wrapping_add(1) };
        let handoff_seq = rt.control.handoff_seq.wrapping_add(self.one_in(10).into());
        let ack = Ack { nonce, handoff_seq, decision, operator_slot };
        let idx = t.wrapping_sub(*emitted) as u16;
        Input { t, idx, missed_ticks, schema_fault, has_vel, has_chunk, has_ack, chunk, ack }
    }
}

fn main() -> io::Result<()> {
    let args: Vec<String> = std::env::args().collect();
    let [_, seed, ticks, name] = args.as_slice() else {
        return Err(io::Error::other("random SEED TICKS RECORD"));
    };
    let number = |text: &str| text.parse::<u64>().map_err(io::Error::other);
    let mut numbers = Numbers(0x9e3779b97f4a7c15 ^ number(seed)?);
    for _ in 0..20 {
        numbers.any();
    }
    let settings = numbers.settings();
    let mut rt = disklorva::new();
    let mut record = Recorder::new(io::BufWriter::new(File::create(name)?), &settings)?;
    let mut out = io::BufWriter::new(io::stdout().lock());
    let mut emitted = 0;
    for left in (1..=number(ticks)?).rev() {
        if numbers.one_in(25) || rt.control.state == 0 || rt.control.state >= 7 && numbers.one_in(3) {
            record.reset()?;
            disklorva::reset(&mut rt);
        }
        let input = numbers.input(&settings, &rt, &mut emitted, left);
        let outcome = numbers.outcome();
        let pos = numbers.list(settings.pos_dim.into());
        let vel = numbers.list(settings.pos_dim.into());
        let usual = numbers.below(9);
        let aux = numbers.list(usual);
        let usual = numbers.below(5);
        let ext = numbers.list(usual);
        let chunk = numbers.list(u64::from(settings.horizon) * u64::from(settings.dim));
        let lists = Lists { pos: &pos, vel: &vel, aux: &aux, ext: &ext, chunk: &chunk };
        record.call(&input, &outcome, &lists)?;
        let answer = disklorva::tick_lent(&mut rt, &settings, &input, &outcome, &lists);
        assert_eq!(answer.number, 0, "the settings are refused");
        let v = answer.verdict;
        writeln!(out, "tick {} {} {} {} {} {}", v.seq, v.t, v.state, v.reason, v.trips, v.action_src)?;
    }
    record.into_inner().flush()?;
    out.flush()
}
