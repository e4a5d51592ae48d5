//! A second program for joining, against `disklorva::join`: written from the words of the request, with fmath.rs for equal numbers and the header for
//! codes that are not listed.
//!
//!     join SEEDS
//!
//! Each seed makes 1000 pairs of tallies: counts near their ceiling, marks that are there or not, a reason without its tick, maxima with NaN, both zeros
//! and infinities, ticks 0 or not, and codes and flags that are not listed. Prints how many pairs differ, and for each wrong rule below in how many pairs
//! it would.
//! The exit status is 0 only where no pair differs from the request's rules, and each wrong rule is told by some pair.

use disklorva::ffi::{Mark, ReasonMark};
use disklorva::{join, Tally};
use std::process::ExitCode;

// ---- the request

/// A tally's first trip: its tick and its reason, each of which may be there without the other.
#[derive(Clone, Copy)]
struct Trip {
    tick: Option<u32>,
    reason: Option<u32>,
}

/// The rule of each kind of field, for the earlier tally's and the later's.
#[derive(Clone, Copy)]
struct Rules {
    count: fn(u32, u32) -> u32,
    mark: fn(Option<u32>, Option<u32>) -> Option<u32>,
    reason: fn(Trip, Trip) -> Option<u32>,
    maximum: fn(f64, f64) -> f64,
    /// with the later's ticks
    state: fn(u32, u8, u8) -> u8,
}

/// "Counts add and stop at their ceilings, first marks come from the earlier one that has them, maxima are the larger, the terminal state is the later's
/// unless that has no ticks." The first trip is one mark: its reason is of the tally that gave its tick.
const REQUEST: Rules = Rules {
    count: |a, b| (u64::from(a) + u64::from(b)).min(4294967295) as u32,
    mark: |a, b| if a.is_some() { a } else { b },
    reason: |a, b| if a.tick.is_some() { a.reason } else { b.reason },
    maximum: larger,
    state: |ticks, a, b| if ticks == 0 { a } else { b },
};

/// "The larger of two numbers shall ignore a NaN argument"; of equal ones it is the second, as it was before that request.
fn larger(a: f64, b: f64) -> f64 {
    match (a.is_nan(), b.is_nan()) {
        (true, _) => b,
        (false, true) => a,
        (false, false) if a > b => a,
        (false, false) => b,
    }
}

/// A mark is there where `set` is not 0.
fn time(m: Mark) -> Option<u32> {
    (m.set != 0).then_some(m.at)
}

/// An unlisted reason is EpisodeEnd.
fn reason(m: ReasonMark) -> Option<u32> {
    (m.set != 0).then_some(u32::from(m.reason.min(27)))
}

fn trip(t: &Tally) -> Trip {
    Trip { tick: time(t.first_trip_tick), reason: reason(t.first_trip_reason) }
}

fn mark(m: Option<u32>) -> Mark {
    m.map_or(Mark::default(), |at| Mark { set: 1, at })
}

fn reason_mark(m: Option<u32>) -> ReasonMark {
    m.map_or(ReasonMark::default(), |code| ReasonMark { set: 1, reason: code as u8 })
}

/// An unlisted state is Fault.
fn state(code: u8) -> u8 {
    if code > 8 {
        7
    } else {
        code
    }
}

fn join_by(rules: &Rules, a: &Tally, b: &Tally) -> Tally {
    let mut r = Tally::default();
    macro_rules! counts {
        ($($field:ident)*) => { $(r.$field = (rules.count)(a.$field, b.$field);)* };
    }
    counts!(ticks nominal watching clamped braking held escalated fault terminated substituted chunks_seen chunks_rejected
        clamps holds rearms escalations violations_reached_env stop_actions);
    r.trips_by_bit = std::array::from_fn(|i| (rules.count)(a.trips_by_bit[i], b.trips_by_bit[i]));
    r.fired_by_feat = std::array::from_fn(|i| (rules.count)(a.fired_by_feat[i], b.fired_by_feat[i]));
    r.first_trip_tick = mark((rules.mark)(time(a.first_trip_tick), time(b.first_trip_tick)));
    r.first_trip_reason = reason_mark((rules.reason)(trip(a), trip(b)));
    r.first_stop_tick = mark((rules.mark)(time(a.first_stop_tick), time(b.first_stop_tick)));
    r.handoff_tick = mark((rules.mark)(time(a.handoff_tick), time(b.handoff_tick)));
    r.max_s = (rules.maximum)(a.max_s, b.max_s);
    r.max_z = std::array::from_fn(|i| (rules.maximum)(a.max_z[i], b.max_z[i]));
    r.terminal_state = (rules.state)(b.ticks, state(a.terminal_state), state(b.terminal_state));
    r
}

/// Rules that are wrong, and have to be told.
fn wrong_rules() -> [(&'static str, Rules); 7] {
    [
        ("a count wraps", Rules { count: u32::wrapping_add, ..REQUEST }),
        ("marks are the later's", Rules { mark: |a, b| b.or(a), ..REQUEST }),
        ("the smaller mark", Rules { mark: |a, b| a.into_iter().chain(b).min(), ..REQUEST }),
        ("the reason by its own flag", Rules { reason: |a, b| a.reason.or(b.reason), ..REQUEST }),
        ("a maximum is the later's", Rules { maximum: |_, b| b, ..REQUEST }),
        ("a NaN wins", Rules { maximum: |a, b| if a > b { a } else { b }, ..REQUEST }),
        ("the state is always the later's", Rules { state: |_, _, b| b, ..REQUEST }),
    ]
}

// ---- pairs

struct Numbers(u64);

impl Numbers {
    fn any(&mut self) -> u64 {
        self.0 ^= self.0 << 13;
        self.0 ^= self.0 >> 7;
        self.0 ^= self.0 << 17;
        self.0
    }

    fn below(&mut self, n: u64) -> u64 {
        (self.any() >> 11) % n
    }

    fn count(&mut self) -> u32 {
        match self.below(6) {
            0 => 0,
            1 => self.below(100) as u32,
            2 => u32::MAX - self.below(3) as u32,
            3 => u32::MAX / 2 + self.below(3) as u32,
            _ => self.any() as u32,
        }
    }

    fn maximum(&mut self) -> f64 {
        match self.below(10) {
            0 => f64::NAN,
            1 => 0.0,
            2 => -0.0,
            3 => f64::INFINITY,
            4 | 5 => f64::NEG_INFINITY,
            6 => f64::from_bits(self.any()),
            _ => self.below(4001) as f64 / 1000.0 - 2.0,
        }
    }

    /// 0 or 1, and seldom another number, which is a yes.
    fn flag(&mut self) -> u8 {
        match self.below(20) {
            0 => self.any() as u8,
            n => (n % 2) as u8,
        }
    }

    fn mark(&mut self, set: u8) -> Mark {
        Mark { set, at: self.count() }
    }

    fn tally(&mut self) -> Tally {
        let mut t = Tally::default();
        macro_rules! counts {
            ($($field:ident)*) => { $(t.$field = self.count();)* };
        }
        counts!(ticks nominal watching clamped braking held escalated fault terminated substituted chunks_seen
            chunks_rejected clamps holds rearms escalations violations_reached_env stop_actions);
        t.trips_by_bit = std::array::from_fn(|_| self.count());
        t.fired_by_feat = std::array::from_fn(|_| self.count());
        let (tripped, reasoned) = (self.flag(), self.flag()); // no tick gives the one without the other
        let code = if self.below(20) == 0 { self.any() } else { self.below(28) };
        t.first_trip_tick = self.mark(tripped);
        t.first_trip_reason = ReasonMark { set: reasoned, reason: code as u8 };
        let (stopped, handed) = (self.flag(), self.flag());
        t.first_stop_tick = self.mark(stopped);
        t.handoff_tick = self.mark(handed);
        t.max_s = self.maximum();
        t.max_z = std::array::from_fn(|_| self.maximum());
        t.terminal_state = (if self.below(20) == 0 { self.any() } else { self.below(9) }) as u8;
        t
    }
}

/// The fields, to be compared: all NaNs are one, and padding does not count.
fn fields(t: &Tally) -> String {
    format!("{t:?}").replace("-NaN", "NaN")
}

fn main() -> ExitCode {
    let seeds: u64 = std::env::args().nth(1).and_then(|n| n.parse().ok()).unwrap_or(1);
    let wrong = wrong_rules();
    let (mut pairs, mut differences, mut told) = (0, 0, [0; 7]);
    for seed in 1..=seeds {
        let mut numbers = Numbers(seed.wrapping_mul(0x9e3779b97f4a7c15));
        for _ in 0..1000 {
            let (a, b) = (numbers.tally(), numbers.tally());
            let (got, want) = (fields(&join(&a, &b)), fields(&join_by(&REQUEST, &a, &b)));
            if got != want && differences == 0 {
                println!("seed {seed}: {a:?}\n{b:?}\nlibrary {got}\nrequest {want}");
            }
            pairs += 1;
            differences += u64::from(got != want);
            for (n, (_, rules)) in told.iter_mut().zip(&wrong) {
                *n += u64::from(got != fields(&join_by(rules, &a, &b)));
            }
        }
    }
    println!("pairs {pairs}, differences {differences}");
    for (n, (name, _)) in told.iter().zip(&wrong) {
        println!("told in {n}: {name}");
    }
    ExitCode::from(u8::from(differences > 0 || told.contains(&0)))
}
