//! Measures the fuse of the static library and the Rust's on the same ticks, and the two square roots, in one run.
//!
//!     bench JOURNAL [ROUNDS]
//!
//! The ticks of the journal are laid out for both sides beforehand. A round runs all of them on each side, in turns (a short
//! journal several times, so that reading the clock does not count). The median of the rounds, in processor time, is printed
//! with the ratio. Before that every verdict is compared.

use std::{fmt::Debug, fs, hint::black_box, process::ExitCode};

use disklorva::{Answer, Input, Lists, RunState};
use lictor_core::{ChunkView, EpisodeInit, ExecMode, FuseConfig, ObsView, SafetyVerdict};
use lictor_fuse::fuse::{decide, FuseRt, TickInput};
use oracle::{
    journal::{config, detected, verified},
    records::*,
};

/// A tick with all that was collected for it, and whether a reset came before it.
struct Call {
    reset: bool,
    tick: Tick,
    lists: [Vec<f64>; 5],
    head: Option<Head>,
    ack: Option<Ack>,
    // the same for each side
    rust: outcome::Outcome,
    ours: disklorva::Outcome,
    input: Input,
}

fn main() -> ExitCode {
    let mut args = std::env::args().skip(1);
    let Some(file) = args.next() else {
        eprintln!("usage: bench JOURNAL [ROUNDS]");
        return ExitCode::from(2);
    };
    let rounds = args.next().and_then(|text| text.parse().ok()).unwrap_or(25);
    let journal = fs::read(&file).expect("the journal can be read");
    let (settings, calls) = laid_out(&journal);
    let rust = Rust { cfg: config(&settings) };
    let ours = Ours { settings: settings_of(&settings) };
    ours.agrees(&rust, &calls);
    println!("{} ticks, {rounds} rounds; nanoseconds, the Rust, ratio", calls.len());
    let times = 5000usize.div_ceil(calls.len());
    let ticks = (times * calls.len()) as f64;
    let repeated = |run: &dyn Fn()| (0..times).for_each(|_| run());
    let theirs = || repeated(&|| rust.all(&calls));
    print("host tick (lent run state)", median(rounds, ticks, theirs, || repeated(&|| ours.lent(&calls))));
    let theirs_seen = || repeated(&|| rust.all_seen(&calls));
    print("host tick, verdict not copied", median(rounds, ticks, theirs_seen, || repeated(&|| ours.lent_seen(&calls))));
    let by_value = || repeated(&|| ours.by_value(&calls));
    print("tick by value", median(rounds, ticks, theirs, by_value));
    let by_value_seen = || repeated(&|| ours.by_value_seen(&calls));
    print("tick by value, verdict not copied", median(rounds, ticks, theirs_seen, by_value_seen));
    let theirs_by_value = || repeated(&|| rust.by_value(&calls));
    print("tick by value on both sides", median(rounds, ticks, theirs_by_value, by_value));
    let xs = doubles();
    let count = xs.len() as f64;
    let independent = median(rounds, count, || each(&xs, f64::sqrt), || each(&xs, disklorva::sqrt));
    print("root, independent calls", independent);
    print(
        "root, each of the one before",
        median(rounds, count, || chain(&xs, f64::sqrt), || chain(&xs, disklorva::sqrt)),
    );
    ExitCode::SUCCESS
}

/// The medians of two sides that are measured in turns, each divided by `per`: ours first.
fn median(rounds: usize, per: f64, mut rust: impl FnMut(), mut ours: impl FnMut()) -> (f64, f64) {
    let time = |run: &mut dyn FnMut()| {
        let start = processor_time();
        run();
        (processor_time() - start) / per
    };
    let (mut a, mut b) = (Vec::new(), Vec::new());
    for _ in 0..rounds {
        a.push(time(&mut ours));
        b.push(time(&mut rust));
    }
    a.sort_by(f64::total_cmp);
    b.sort_by(f64::total_cmp);
    (a[rounds / 2], b[rounds / 2])
}

#[repr(C)]
struct Timespec {
    seconds: i64,
    nanoseconds: i64,
}

extern "C" {
    fn clock_gettime(clock: i32, to: *mut Timespec) -> i32;
}

/// Nanoseconds that this thread had of a processor: what else runs on the machine does not count.
fn processor_time() -> f64 {
    const OF_THIS_THREAD: i32 = 3;
    let mut now = Timespec { seconds: 0, nanoseconds: 0 };
    // SAFETY: the call writes one timespec, which lives here.
    let status = unsafe { clock_gettime(OF_THIS_THREAD, &mut now) };
    assert_eq!(status, 0, "no clock for a thread");
    now.seconds as f64 * 1e9 + now.nanoseconds as f64
}

fn print(what: &str, (ours, rust): (f64, f64)) {
    println!("{what:34} {ours:8.1} {rust:8.1} {:6.2}", ours / rust);
}

// ---- the two sides

struct Rust {
    cfg: FuseConfig,
}

impl Rust {
    /// With the nonces carried over, as the fuse has it by request.
    fn reset(&self, rt: &mut FuseRt) {
        let nonces = rt.last_nonce;
        rt.reset(EpisodeInit { episode_index: 0, seed: 0, delay_steps: 0, exec: ExecMode::Sync });
        rt.last_nonce = nonces;
    }

    fn tick(&self, rt: &mut FuseRt, call: &Call) -> SafetyVerdict {
        let [chunk, pos, vel, aux, ext] = &call.lists;
        let input = TickInput {
            obs: ObsView { t: call.tick.t, pos, vel: (call.tick.velocity == 1).then_some(vel.as_slice()), aux, ext },
            chunk: call.head.map(|h| ChunkView {
                seq: h.seq,
                t_emit: h.t_emit,
                horizon: h.horizon,
                dim: h.dim,
                exec_steps: h.exec,
                data: chunk,
            }),
            idx: call.tick.idx,
            missed_ticks: call.tick.missed,
            ack: call.ack.map(verified),
            schema_fault: call.tick.schema == 1,
            outcome: &call.rust,
        };
        decide(&self.cfg, rt, &input)
    }

    fn all(&self, calls: &[Call]) {
        let mut rt = FuseRt::new();
        for call in calls {
            if call.reset {
                self.reset(&mut rt);
            }
            black_box(self.tick(&mut rt, call));
        }
    }

    /// The same, where the verdict is looked at where it was put, and not copied once more.
    fn all_seen(&self, calls: &[Call]) {
        let mut rt = FuseRt::new();
        for call in calls {
            if call.reset {
                self.reset(&mut rt);
            }
            black_box(&self.tick(&mut rt, call));
        }
    }

    /// The tick as a function from state to state: one goes in, and the next one comes back.
    #[inline(never)]
    fn call(&self, mut rt: FuseRt, call: &Call) -> (FuseRt, SafetyVerdict) {
        let verdict = self.tick(&mut rt, call);
        (rt, verdict)
    }

    fn by_value(&self, calls: &[Call]) {
        let mut rt = FuseRt::new();
        for call in calls {
            if call.reset {
                self.reset(&mut rt);
            }
            rt = black_box(self.call(rt, call)).0;
        }
    }
}

struct Ours {
    settings: disklorva::Settings,
}

/// All fields, to be compared: all NaNs are one.
fn text(it: &impl Debug) -> String {
    format!("{it:?}").replace("-NaN", "NaN")
}

fn lists(call: &Call) -> Lists<'_> {
    let [chunk, pos, vel, aux, ext] = &call.lists;
    Lists { pos, vel, aux, ext, chunk }
}

impl Ours {
    fn tick(&self, rt: &mut RunState, call: &Call) -> Answer {
        disklorva::tick_lent(rt, &self.settings, &call.input, &call.ours, &lists(call))
    }

    fn tick_from(&self, rt: &RunState, next: &mut RunState, call: &Call) -> Answer {
        disklorva::tick_from(rt, next, &self.settings, &call.input, &call.ours, &lists(call))
    }

    fn lent(&self, calls: &[Call]) {
        let mut rt = disklorva::new();
        for call in calls {
            if call.reset {
                disklorva::reset(&mut rt);
            }
            black_box(self.tick(&mut rt, call));
        }
    }

    /// The same, where the verdict is looked at where it was put, and not copied once more.
    fn lent_seen(&self, calls: &[Call]) {
        let mut rt = disklorva::new();
        for call in calls {
            if call.reset {
                disklorva::reset(&mut rt);
            }
            black_box(&self.tick(&mut rt, call));
        }
    }

    /// A state goes in, and the next one comes out at another place: two states in turns.
    fn by_value(&self, calls: &[Call]) {
        let (mut rt, mut next) = (&mut disklorva::new(), &mut disklorva::new());
        for call in calls {
            if call.reset {
                disklorva::reset(rt);
            }
            black_box(self.tick_from(rt, next, call));
            (rt, next) = (next, rt);
        }
    }

    /// The same, where the verdict is looked at where it was put, and not copied once more.
    fn by_value_seen(&self, calls: &[Call]) {
        let (mut rt, mut next) = (&mut disklorva::new(), &mut disklorva::new());
        for call in calls {
            if call.reset {
                disklorva::reset(rt);
            }
            black_box(&self.tick_from(rt, next, call));
            (rt, next) = (next, rt);
        }
    }

    /// Both sides give the same verdicts. So does our tick by value, which leaves the state before it as it was.
    fn agrees(&self, rust: &Rust, calls: &[Call]) {
        let (mut theirs, mut rt) = (FuseRt::new(), disklorva::new());
        for call in calls {
            if call.reset {
                rust.reset(&mut theirs);
                disklorva::reset(&mut rt);
            }
            let (before, mut next) = (text(&rt), disklorva::new());
            let by_value = self.tick_from(&rt, &mut next, call);
            assert_eq!(before, text(&rt));
            let lent = self.tick(&mut rt, call);
            assert_eq!(text(&(by_value, next)), text(&(lent, rt)));
            let (a, b) = (rust.tick(&mut theirs, call), lent.verdict);
            assert_eq!((a.seq, a.state as u8, a.reason as u8), (b.seq, b.state, b.reason));
            assert_eq!((a.trips, a.action_src as u8, a.window), (b.trips, b.action_src, b.window));
            let pairs = a.action[..8].iter().zip(&b.action).chain([(&a.brake_margin, &b.brake_margin)]);
            pairs.for_each(|(x, y)| assert!(x.to_bits() == y.to_bits() || x.is_nan() && y.is_nan()));
        }
    }
}

// ---- the inputs

fn laid_out(journal: &[u8]) -> (Settings, Vec<Call>) {
    let mut settings = None;
    let mut calls = Vec::new();
    let (mut reset, mut head, mut ack, mut outcome) = (false, None, None, None);
    let mut lists: [Vec<f64>; 5] = Default::default();
    let mut at = 0;
    while at < journal.len() {
        let kind = journal[at];
        let body = &journal[at + 1..][..body_len(kind).expect("a good journal")];
        at += 1 + body.len();
        match kind {
            SETTINGS => settings = Some(Settings::read(body)),
            RESET => reset = true,
            ACK => ack = Some(Ack::read(body)),
            HEAD => head = Some(Head::read(body)),
            VALUE => {
                let value = Value::read(body);
                lists[usize::from(value.list)].push(value.x);
            }
            OUTCOME => outcome = Some(Outcome::read(body)),
            _ => {
                let o = outcome.take().expect("a good journal");
                calls.push(call(reset, Tick::read(body), std::mem::take(&mut lists), head.take(), ack.take(), &o));
                reset = false;
            }
        }
    }
    (settings.expect("a good journal"), calls)
}

fn call(reset: bool, tick: Tick, lists: [Vec<f64>; 5], head: Option<Head>, ack: Option<Ack>, o: &Outcome) -> Call {
    let input = Input {
        t: tick.t,
        idx: tick.idx,
        missed_ticks: tick.missed,
        schema_fault: tick.schema,
        has_vel: tick.velocity,
        has_chunk: head.is_some().into(),
        has_ack: ack.is_some().into(),
        chunk: head.map_or_else(Default::default, |h| disklorva::Chunk {
            seq: h.seq,
            t_emit: h.t_emit,
            horizon: h.horizon,
            dim: h.dim,
            exec_steps: h.exec,
        }),
        ack: ack.map_or_else(Default::default, |a| disklorva::Ack {
            nonce: a.nonce,
            handoff_seq: a.handoff,
            decision: a.decision,
            operator_slot: a.slot,
        }),
    };
    let ours = disklorva::Outcome {
        trips: o.trips,
        clamped_dims: o.clamped_dims,
        feasible: o.feasible,
        margin: o.margin,
        s: o.s,
        valid: o.valid,
        fired: o.fired,
        z: o.z,
        policy: o.policy_row,
        clamped: o.clamped_row,
    };
    Call { reset, tick, lists, head, ack, rust: detected(o), ours, input }
}

fn settings_of(s: &Settings) -> disklorva::Settings {
    disklorva::Settings {
        mode: s.mode,
        kind: s.kind,
        clamp: s.clamp,
        rearm: s.rearm,
        dim: s.dim,
        pos_dim: s.pos_dim,
        k: s.k,
        clear_ticks: s.clear,
        clamp_streak_to_brake: s.streak,
        stop_confirm_ticks: s.confirm,
        watchdog_ticks: s.watchdog,
        max_rearms: s.max_rearms,
        horizon: s.horizon,
        exec: s.exec,
        max_clamps_per_episode: s.max_clamps,
        brake_timeout_ticks: s.brake,
        rearm_hold: s.rearm_hold,
        escalate_after_hold_ticks: s.hold,
        handoff_timeout_ticks: s.handoff,
        tier0_enabled: s.tier0_enabled,
        calib_mask: s.calib_mask,
        window_mask: s.window_mask,
        dt: s.dt,
        inv_dt: s.inv_dt,
        a_max: s.a_max,
        v_stop_eps: s.v_stop_eps,
        warn_margin: s.warn_margin,
        tau: s.tau,
        box_lo: s.box_lo,
        box_hi: s.box_hi,
    }
}

/// Numbers above zero of all sizes.
fn doubles() -> Vec<f64> {
    let mut bits = 0x9e37_79b9_7f4a_7c15u64;
    let mut next = || {
        bits ^= bits << 13;
        bits ^= bits >> 7;
        bits ^= bits << 17;
        bits >> 1
    };
    std::iter::repeat_with(|| f64::from_bits(next())).filter(|x| x.is_finite()).take(100_000).collect()
}

fn each(xs: &[f64], root: impl Fn(f64) -> f64) {
    for x in xs {
        black_box(root(black_box(*x)));
    }
}

fn chain(xs: &[f64], root: impl Fn(f64) -> f64) {
    let mut last = 1.0;
    for x in xs {
        last = root(*x + last);
    }
    black_box(last);
}
