//! What `fuse` and `trace` print (01-scope.md, end of "Journal"), and the fields of a trace in their order.

use lictor_core::{ActionSource, FuseState, SafetyVerdict};
use lictor_fuse::fuse::FuseRt;

pub fn tick_line(out: &mut Vec<u8>, v: &SafetyVerdict) {
    out.extend_from_slice(b"tick");
    for number in [v.seq, v.t, v.state as u32, v.reason as u32, v.trips, v.action_src as u32] {
        out.push(b' ');
        decimal(out, u64::from(number));
    }
    out.push(b' ');
    margin(out, v.brake_margin);
    out.push(b'\n');
}

/// Whether `stopped` counts the tick (request 8): it ended in one of the five stop states, and its action is no row of the
/// outcome. The Rust's tally has no such count, so it is made here, of verdicts.
pub fn stops(v: &SafetyVerdict) -> bool {
    use FuseState::{Braking, Escalated, Fault, Held, Terminated};
    let row = matches!(v.action_src, ActionSource::Policy | ActionSource::Clamped);
    matches!(v.state, Braking | Held | Escalated | Fault | Terminated) && !row
}

/// Ticks and stopped ticks since the last reset, or since the settings.
pub fn end_line(out: &mut Vec<u8>, ticks: u32, stopped: u32) {
    out.extend_from_slice(b"end ");
    decimal(out, u64::from(ticks));
    out.push(b' ');
    decimal(out, u64::from(stopped));
    out.push(b'\n');
}

pub fn refused_line(out: &mut Vec<u8>, number: u8, place: u64) {
    out.extend_from_slice(b"refused ");
    decimal(out, u64::from(number));
    out.push(b' ');
    decimal(out, place);
    out.push(b'\n');
}

/// Metres as whole millimetres, exact: with x = m * 2^-k, the nearest whole number to 1000 * m / 2^k.
pub fn margin(out: &mut Vec<u8>, x: f64) {
    if x.is_nan() {
        out.extend_from_slice(b"none");
        return;
    }
    let rounded = millimetres(x);
    if x < 0.0 && rounded != Some(0) {
        out.push(b'-');
    } else if rounded.is_none() {
        out.push(b'+');
    }
    match rounded {
        Some(mm) => decimal(out, mm),
        None => out.extend_from_slice(b"far"),
    }
}

/// The rounded size of a margin that is no NaN, an exact half to the even one; none where that is above 999999.
fn millimetres(x: f64) -> Option<u64> {
    let bits = x.to_bits();
    let exponent = (bits >> 52) & 0x7ff;
    let fraction = bits & ((1 << 52) - 1);
    let (m, k) = match exponent {
        0 => (fraction, 1074),
        1..1075 => (fraction | 1 << 52, 1075 - exponent),
        _ => return None, // at least 2^52, or infinite
    };
    let mm = if k > 64 { 0 } else { to_even(u128::from(m) * 1000, k) };
    (mm <= 999_999).then_some(mm)
}

/// n / 2^k rounded: one less than a half is added, and one more where the whole part is odd.
fn to_even(n: u128, k: u64) -> u64 {
    let odd = (n >> k) & 1;
    ((n + (1 << (k - 1)) - 1 + odd) >> k) as u64
}

/// Every verdict field, the run state and the tally, one `name=value` a line. `filled` stands for the chunk buffers.
pub fn trace_lines(out: &mut Vec<u8>, v: &SafetyVerdict, rt: &FuseRt, filled: bool) {
    let mut to = Fields { out, group: b"v." };
    to.number("seq", v.seq);
    to.number("t", v.t);
    to.number("status", v.status as u32);
    to.number("state", v.state as u32);
    to.number("prev_state", v.prev_state as u32);
    to.number("trips", v.trips);
    to.floats("action", &v.action[..8]);
    to.number("action_dim", v.action_dim);
    to.number("action_src", v.action_src as u32);
    to.number("substituted", v.substituted);
    to.number("clamped_dims", v.clamped_dims);
    to.floats("z", &v.scores.z);
    to.floats("s", &[v.scores.s]);
    to.number("valid", v.scores.valid);
    to.number("fired", v.scores.fired);
    to.floats("tau", &[v.tau]);
    to.number("window", v.window);
    to.number("window_hits", v.window_hits);
    to.floats("brake_margin", &[v.brake_margin]);
    to.number("reason", v.reason as u32);
    to.mark("handoff_seq", v.handoff_seq);
    to.number("ack_consumed", v.ack_consumed);
    to.number("violation_reached_env", v.violation_reached_env);

    to.group = b"rt.";
    to.number("filled", filled);
    to.number("window", rt.window.bits);
    to.number("state", rt.state as u32);
    to.number("seq", rt.seq);
    to.number("last_t", rt.last_t);
    to.number("next_chunk_seq", rt.next_chunk_seq);
    to.floats("pos", &rt.pos[..8]);
    to.floats("prev_pos", &rt.prev_pos[..8]);
    to.floats("vel", &rt.vel[..8]);
    to.number("have_prev_pos", rt.have_prev_pos);
    to.floats("last_cmd", &rt.last_cmd[..8]);
    to.floats("hold", &rt.hold[..8]);
    to.number("clean_run", rt.clean_run);
    to.number("clamp_streak", rt.clamp_streak);
    to.number("clamps", rt.clamps);
    to.number("brake_ticks", rt.brake_ticks);
    to.number("stopped_ticks", rt.stopped_ticks);
    to.number("held_ticks", rt.held_ticks);
    to.number("held_clean", rt.held_clean);
    to.number("escalated_ticks", rt.escalated_ticks);
    to.number("rearms", rt.rearms);
    to.number("handoff_seq", rt.handoff_seq);
    to.number("handoff_pending", rt.handoff_pending);
    to.number("chunk_ok_this_tick", rt.chunk_ok_this_tick);
    to.numbers("last_nonce", &rt.last_nonce);

    let tally = &rt.tally;
    to.group = b"tally.";
    to.number("ticks", tally.ticks);
    to.number("nominal", tally.nominal);
    to.number("watching", tally.watching);
    to.number("clamped", tally.clamped);
    to.number("braking", tally.braking);
    to.number("held", tally.held);
    to.number("escalated", tally.escalated);
    to.number("fault", tally.fault);
    to.number("terminated", tally.terminated);
    to.number("substituted", tally.substituted);
    to.number("chunks_seen", tally.chunks_seen);
    to.number("chunks_rejected", tally.chunks_rejected);
    to.number("clamps", tally.clamps);
    to.number("holds", tally.holds);
    to.number("rearms", tally.rearms);
    to.number("escalations", tally.escalations);
    to.numbers("trips_by_bit", &tally.trips_by_bit);
    to.numbers("fired_by_feat", &tally.fired_by_feat);
    to.mark("first_trip_tick", tally.first_trip_tick);
    to.mark("first_trip_reason", tally.first_trip_reason.map(|r| r as u32));
    to.mark("first_stop_tick", tally.first_stop_tick);
    to.mark("handoff_tick", tally.handoff_tick);
    to.number("violations_reached_env", tally.violations_reached_env);
    to.floats("max_s", &[tally.max_s]);
    to.floats("max_z", &tally.max_z);
    to.number("terminal_state", tally.terminal_state as u32);
}

/// Writes lines `group.name=value`.
struct Fields<'a> {
    out: &'a mut Vec<u8>,
    group: &'static [u8],
}

impl Fields<'_> {
    fn name(&mut self, name: &str) {
        self.out.extend_from_slice(self.group);
        self.out.extend_from_slice(name.as_bytes());
        self.out.push(b'=');
    }

    fn number(&mut self, name: &str, n: impl Into<u64>) {
        self.name(name);
        decimal(self.out, n.into());
        self.out.push(b'\n');
    }

    fn mark(&mut self, name: &str, n: Option<u32>) {
        match n {
            Some(n) => self.number(name, n),
            None => {
                self.name(name);
                self.out.extend_from_slice(b"none\n");
            }
        }
    }

    fn numbers<N: Into<u64> + Copy>(&mut self, name: &str, list: &[N]) {
        self.name(name);
        for (i, n) in list.iter().enumerate() {
            if i > 0 {
                self.out.push(b',');
            }
            decimal(self.out, (*n).into());
        }
        self.out.push(b'\n');
    }

    fn floats(&mut self, name: &str, list: &[f64]) {
        self.name(name);
        for (i, x) in list.iter().enumerate() {
            if i > 0 {
                self.out.push(b',');
            }
            float(self.out, *x);
        }
        self.out.push(b'\n');
    }
}

/// The 16 hexadecimal digits of the bits; every NaN is `nan`.
pub fn float(out: &mut Vec<u8>, x: f64) {
    if x.is_nan() {
        out.extend_from_slice(b"nan");
        return;
    }
    let bits = x.to_bits();
    let digits: [u8; 16] = std::array::from_fn(|i| b"0123456789abcdef"[(bits >> (60 - 4 * i) & 15) as usize]);
    out.extend_from_slice(&digits);
}

fn decimal(out: &mut Vec<u8>, mut n: u64) {
    let mut digits = [0; 20];
    let mut at = digits.len();
    loop {
        at -= 1;
        digits[at] = b'0' + (n % 10) as u8;
        n /= 10;
        if n == 0 {
            break;
        }
    }
    out.extend_from_slice(&digits[at..]);
}
