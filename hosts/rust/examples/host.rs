//! An example host in Rust: takes the ticks of a journal and prints what the fuse says.
//!
//!     host [--trace] [--record FILE] [JOURNAL]       from standard input where no file is named
//!
//! Prints the lines of the program `fuse`.
//! With --trace, after each tick, every field of the verdict and of the run state but the tally's stop_actions, which is in the last line.
//! With --record the calls are written to FILE as a journal (`disklorva::recorder`).
//! The exit status is 2 where reading, printing or recording failed.
//! A controller has its sensors where this host has a journal.

use disklorva::recorder::Recorder;
use disklorva::{ffi, Ack, Chunk, Fuse, Outcome, Settings, Tick, Verdict};
use std::cmp::Ordering;
use std::fmt::Write as _;
use std::fs::File;
use std::io::{self, Read, Write as _};
use std::process::ExitCode;

// ---- a journal's records

/// Little-endian numbers, taken from the front.
struct Body<'a>(&'a [u8]);

impl Body<'_> {
    fn take<const N: usize>(&mut self) -> [u8; N] {
        let (first, rest) = self.0.split_first_chunk().expect("a body has its kind's length");
        self.0 = rest;
        *first
    }

    fn u8(&mut self) -> u8 {
        u8::from_le_bytes(self.take())
    }

    fn u16(&mut self) -> u16 {
        u16::from_le_bytes(self.take())
    }

    fn u32(&mut self) -> u32 {
        u32::from_le_bytes(self.take())
    }

    fn u64(&mut self) -> u64 {
        u64::from_le_bytes(self.take())
    }

    fn f64(&mut self) -> f64 {
        f64::from_le_bytes(self.take())
    }

    fn f64s<const N: usize>(&mut self) -> [f64; N] {
        std::array::from_fn(|_| self.f64())
    }

    /// A struct's fields are read in the order in which they are written.
    fn settings(mut self) -> Settings {
        Settings {
            mode: self.u8(),
            kind: self.u8(),
            clamp: self.u8(),
            rearm: self.u8(),
            dim: self.u8(),
            pos_dim: self.u8(),
            k: self.u8(),
            clear_ticks: self.u8(),
            clamp_streak_to_brake: self.u8(),
            stop_confirm_ticks: self.u8(),
            watchdog_ticks: self.u8(),
            max_rearms: self.u8(),
            horizon: self.u16(),
            exec: self.u16(),
            max_clamps_per_episode: self.u16(),
            brake_timeout_ticks: self.u16(),
            rearm_hold: self.u16(),
            escalate_after_hold_ticks: self.u16(),
            handoff_timeout_ticks: self.u32(),
            tier0_enabled: self.u32(),
            calib_mask: self.u32(),
            window_mask: self.u64(),
            dt: self.f64(),
            inv_dt: self.f64(),
            a_max: self.f64(),
            v_stop_eps: self.f64(),
            warn_margin: self.f64(),
            tau: self.f64(),
            box_lo: self.f64s(),
            box_hi: self.f64s(),
        }
    }

    fn ack(mut self) -> Ack {
        let (decision, operator_slot) = (self.u8(), self.u8());
        Ack { nonce: self.u64(), handoff_seq: self.u32(), decision, operator_slot }
    }

    fn chunk(mut self) -> Chunk {
        Chunk { seq: self.u32(), t_emit: self.u32(), horizon: self.u16(), dim: self.u16(), exec_steps: self.u16() }
    }

    fn outcome(mut self) -> Outcome {
        Outcome {
            trips: self.u32(),
            clamped_dims: self.u32(),
            feasible: self.u8(),
            margin: self.f64(),
            s: self.f64(),
            valid: self.u32(),
            fired: self.u32(),
            z: self.f64s(),
            policy: self.f64s(),
            clamped: self.f64s(),
        }
    }
}

const CHUNK: usize = 0;
const POS: usize = 1;
const VEL: usize = 2;
const AUX: usize = 3;
const EXT: usize = 4;

/// What was collected for the next tick.
#[derive(Default)]
struct Waiting {
    ack: Option<Ack>,
    head: Option<Chunk>,
    outcome: Option<Outcome>,
    lists: [Vec<f64>; 5],
}

/// The fuse and the record of its calls, where there is one.
struct Recorded {
    fuse: Fuse,
    record: Option<Recorder<io::BufWriter<File>>>,
    /// A width, a reset or a tick came: no width may come any more.
    width_late: bool,
}

/// The host: its fuse, once the settings have come, what waits, and where the calls are recorded.
#[derive(Default)]
struct Host {
    fuse: Option<Recorded>,
    waiting: Waiting,
    record: Option<File>,
}

/// What ends a journal: the number of a refusal, or a record that could not be written.
enum Stop {
    Refused(u8),
    Failed(io::Error),
}

impl From<u8> for Stop {
    fn from(number: u8) -> Stop {
        Stop::Refused(number)
    }
}

impl From<io::Error> for Stop {
    fn from(error: io::Error) -> Stop {
        Stop::Failed(error)
    }
}

impl Recorded {
    fn new(settings: Settings, record: Option<File>) -> Result<Recorded, Stop> {
        let fuse = Fuse::new(settings).map_err(|refused| refused.0)?;
        let record = match record {
            Some(file) => Some(Recorder::new(io::BufWriter::new(file), fuse.settings())?),
            None => None,
        };
        Ok(Recorded { fuse, record, width_late: false })
    }

    fn reset(&mut self) -> io::Result<()> {
        if let Some(record) = &mut self.record {
            record.reset()?;
        }
        self.fuse.reset();
        self.width_late = true;
        Ok(())
    }

    /// A width is for the program `proximity`: it is checked, recorded and not used.
    fn width(&mut self, w: f64) -> Result<(), Stop> {
        if self.width_late {
            return Err(Stop::Refused(9));
        }
        if !w.is_finite() || w < 0.0 {
            return Err(Stop::Refused(3));
        }
        if let Some(record) = &mut self.record {
            record.width(w)?;
        }
        self.width_late = true;
        Ok(())
    }

    fn tick(&mut self, tick: &Tick) -> io::Result<Verdict> {
        if let Some(record) = &mut self.record {
            record.tick(tick)?;
        }
        self.width_late = true;
        Ok(self.fuse.tick(tick))
    }
}

impl Host {
    /// Takes one record off the front: its length, and the verdict where it was a tick.
    fn record(&mut self, bytes: &[u8]) -> Result<(usize, Option<Verdict>), Stop> {
        let kind = bytes[0];
        let length = *[220, 0, 14, 14, 9, 257, 9, 8].get(usize::from(kind).wrapping_sub(1)).ok_or(5)?;
        let body = bytes.get(1..1 + length).ok_or(6)?;
        let verdict = match &mut self.fuse {
            None if kind != 1 => return Err(Stop::Refused(8)),
            None => {
                self.fuse = Some(Recorded::new(Body(body).settings(), self.record.take())?);
                None
            }
            Some(fuse) => self.waiting.record(fuse, kind, body)?,
        };
        Ok((1 + length, verdict))
    }
}

impl Waiting {
    fn record(&mut self, fuse: &mut Recorded, kind: u8, body: &[u8]) -> Result<Option<Verdict>, Stop> {
        match kind {
            2 => {
                fuse.reset()?;
                *self = Waiting::default();
            }
            3 if self.ack.is_none() => self.ack = Some(listed(body[0], 2, Body(body).ack())?),
            4 if self.head.is_none() => self.head = Some(Body(body).chunk()),
            5 => self.value(body[0], Body(&body[1..]).f64())?,
            6 if self.outcome.is_none() => self.outcome = Some(listed(body[8], 1, Body(body).outcome())?),
            7 => {
                let verdict = self.tick(fuse, Body(body))?;
                *self = Waiting::default();
                return Ok(Some(verdict));
            }
            8 => fuse.width(Body(body).f64())?,
            _ => return Err(Stop::Refused(9)),
        }
        Ok(None)
    }

    fn value(&mut self, list: u8, x: f64) -> Result<(), Stop> {
        let room = if usize::from(list) == CHUNK { 512 } else { 16 };
        let list = self.lists.get_mut(usize::from(list)).ok_or(1)?;
        if list.len() == room {
            return Err(Stop::Refused(7));
        }
        list.push(x);
        Ok(())
    }

    fn tick(&self, fuse: &mut Recorded, mut body: Body) -> Result<Verdict, Stop> {
        let (t, idx, missed_ticks, schema, vel) = (body.u32(), body.u16(), body.u8(), body.u8(), body.u8());
        listed(schema.max(vel), 1, ())?;
        let of = |list: usize| self.lists[list].as_slice();
        let outcome = self.outcome.ok_or(10)?;
        if !of(CHUNK).is_empty() && self.head.is_none() || !of(VEL).is_empty() && vel == 0 {
            return Err(Stop::Refused(10));
        }
        Ok(fuse.tick(&Tick {
            t,
            idx,
            missed_ticks,
            schema_fault: schema == 1,
            pos: of(POS),
            vel: (vel == 1).then(|| of(VEL)),
            aux: of(AUX),
            ext: of(EXT),
            chunk: self.head.map(|head| (head, of(CHUNK))),
            ack: self.ack,
            outcome,
        })?)
    }
}

/// A code or a flag up to the last that is listed.
fn listed<T>(code: u8, last: u8, it: T) -> Result<T, Stop> {
    if code <= last {
        Ok(it)
    } else {
        Err(Stop::Refused(1))
    }
}

// ---- lines

/// The margin in whole millimetres, an exact half to the even one, worked out in whole numbers.
fn margin(x: f64) -> String {
    let (sign, far) = if x.is_sign_negative() { ("-", "-far") } else { ("", "+far") };
    let (exponent, fraction) = (x.to_bits() >> 52 & 0x7ff, x.to_bits() & 0xfffffffffffff);
    let mantissa = if exponent == 0 { fraction } else { fraction | 1 << 52 };
    let shift = 1075 - exponent.max(1) as i64; // |x| = mantissa / 2^shift
    let millimetres = match shift {
        _ if x.is_nan() => return "none".into(),
        ..=32 => return far.into(), // from 2^20 metres on, and the infinities
        33..=63 => nearest(mantissa * 1000, 1 << shift),
        _ => 0,
    };
    match millimetres {
        0 => "0".into(),
        1..=999999 => format!("{sign}{millimetres}"),
        _ => far.into(),
    }
}

/// n / d to the nearest whole number, an exact half to the even one.
fn nearest(n: u64, d: u64) -> u64 {
    let (whole, rest) = (n / d, n % d);
    match rest.cmp(&(d - rest)) {
        Ordering::Less => whole,
        Ordering::Equal => whole + whole % 2,
        Ordering::Greater => whole + 1,
    }
}

fn tick_line(v: &Verdict) -> String {
    format!("tick {} {} {} {} {} {} {}\n", v.seq, v.t, v.state, v.reason, v.trips, v.action_src, margin(v.brake_margin))
}

fn end_line(t: &ffi::Tally) -> String {
    format!("end {} {}\n", t.ticks, t.stop_actions)
}

// ---- the trace: NAME=VALUE lines, by the type of the value

trait Shown {
    fn shown(&self) -> String;
}

macro_rules! numbers {
    ($($number:ty)*) => {
        $(impl Shown for $number {
            fn shown(&self) -> String {
                self.to_string()
            }
        })*
    };
}
numbers!(u8 u16 u32 u64);

impl Shown for f64 {
    fn shown(&self) -> String {
        if self.is_nan() {
            "nan".into()
        } else {
            format!("{:016x}", self.to_bits())
        }
    }
}

impl<T: Shown, const N: usize> Shown for [T; N] {
    fn shown(&self) -> String {
        self.iter().map(T::shown).collect::<Vec<_>>().join(",")
    }
}

impl<T: Shown> Shown for Option<T> {
    fn shown(&self) -> String {
        self.as_ref().map_or("none".into(), T::shown)
    }
}

impl Shown for ffi::Mark {
    fn shown(&self) -> String {
        (self.set != 0).then_some(self.at).shown()
    }
}

impl Shown for ffi::ReasonMark {
    fn shown(&self) -> String {
        (self.set != 0).then_some(self.reason).shown()
    }
}

/// A line for each named field.
macro_rules! lines {
    ($out:ident, $prefix:literal, $($it:expr => $($field:ident)*;)*) => {
        $($(let _ = writeln!($out, concat!($prefix, stringify!($field), "={}"), $it.$field.shown());)*)*
    };
}

fn trace(out: &mut String, v: &Verdict, rt: &ffi::RunState) {
    let ffi::RunState { control: c, motion: m, clock: k, tally: t } = rt;
    lines!(out, "v.", v => seq t status state prev_state trips action action_dim action_src substituted clamped_dims z s valid fired tau window
        window_hits brake_margin reason;);
    let _ = writeln!(out, "v.handoff_seq={}", (v.handoff_set != 0).then_some(v.handoff_seq).shown());
    lines!(out, "v.", v => ack_consumed violation_reached_env;);
    lines!(out, "rt.", k => filled; c => window state; k => seq last_t next_chunk_seq; m => pos prev_pos vel have_prev_pos last_cmd;
        c => hold clean_run clamp_streak clamps brake_ticks stopped_ticks held_ticks held_clean escalated_ticks rearms handoff_seq handoff_pending;
        k => chunk_ok_this_tick; c => last_nonce;);
    lines!(out, "tally.", t => ticks nominal watching clamped braking held escalated fault terminated substituted chunks_seen chunks_rejected clamps holds
        rearms escalations trips_by_bit fired_by_feat first_trip_tick first_trip_reason first_stop_tick handoff_tick violations_reached_env max_s max_z
        terminal_state;);
}

/// All lines for a journal, and the record of the calls where one is wanted.
fn run(
    bytes: &[u8],
    traced: bool,
    record: Option<File>,
    mut write: impl FnMut(&str) -> io::Result<()>,
) -> io::Result<()> {
    let mut host = Host { record, ..Host::default() };
    let mut at = 0;
    let mut refused = None;
    while at < bytes.len() {
        let (used, verdict) = match host.record(&bytes[at..]) {
            Ok(done) => done,
            Err(Stop::Refused(number)) => {
                refused = Some(number);
                break;
            }
            Err(Stop::Failed(error)) => return Err(error),
        };
        at += used;
        if let (Some(v), Some(it)) = (verdict, &host.fuse) {
            let mut lines = tick_line(&v);
            if traced {
                trace(&mut lines, &v, it.fuse.state());
            }
            write(&lines)?;
        }
    }
    match refused {
        Some(number) => write(&format!("refused {number} {at}\n"))?,
        None => write(&end_line(&host.fuse.as_ref().map(|it| it.fuse.state().tally).unwrap_or_default()))?,
    }
    if let Some(record) = host.fuse.and_then(|it| it.record) {
        record.into_inner().flush()?;
    }
    Ok(())
}

fn work() -> io::Result<()> {
    let (mut traced, mut record, mut name) = (false, None, None);
    let mut args = std::env::args().skip(1);
    while let Some(arg) = args.next() {
        match arg.as_str() {
            "--trace" => traced = true,
            "--record" => record = args.next().map(File::create).transpose()?,
            _ => name = Some(arg),
        }
    }
    let mut bytes = Vec::new();
    match name {
        Some(name) => bytes = std::fs::read(name)?,
        None => drop(io::stdin().lock().read_to_end(&mut bytes)?),
    }
    let mut out = io::BufWriter::new(io::stdout().lock());
    run(&bytes, traced, record, |text| out.write_all(text.as_bytes()))?;
    out.flush()
}

fn main() -> ExitCode {
    match work() {
        Ok(()) => ExitCode::SUCCESS,
        Err(error) => {
            eprintln!("host: {error}");
            ExitCode::from(2)
        }
    }
}
