//! Writes a host's calls as a journal, which the program `fuse` replays to the same verdicts.
//!
//! Settings that were accepted come first, then each reset and each tick.
//! A width is no call: it is for the program `proximity`.
//! New settings need a new journal, and a journal a new run state: a replay begins with no nonce spent.
//! Where writing fails the journal is cut within a record, and all before it is good.

use crate::{Input, Lists, Outcome, Settings, Tick};
use std::io::{self, Write};

const SETTINGS: u8 = 1;
const RESET: u8 = 2;
const ACK: u8 = 3;
const CHUNK_HEAD: u8 = 4;
const VALUE: u8 = 5;
const OUTCOME: u8 = 6;
const TICK: u8 = 7;
const WIDTH: u8 = 8;

/// A journal that is being written, with one `write_all` a call; the host decides when to flush.
#[derive(Debug)]
pub struct Recorder<W: Write> {
    to: W,
    page: Vec<u8>,
}

/// Puts numbers, little-endian, one after the other.
macro_rules! put {
    ($page:expr, $($x:expr),* $(,)?) => {
        $($page.extend_from_slice(&$x.to_le_bytes());)*
    };
}

fn put_floats(page: &mut Vec<u8>, floats: &[f64]) {
    for x in floats {
        put!(page, x);
    }
}

/// A journal has room for 16 values of a list, and for 512 of the chunk.
/// A longer list is a fault by its length, and perhaps by a value that is not finite.
/// So its first values are kept, and one of the others: one that is not finite, if there is any.
/// 511 values are the length of no chunk: a horizon is at most 64 and a dim at most 8.
fn put_list(page: &mut Vec<u8>, list: u8, values: &[f64]) {
    let room = if list == 0 { 512 } else { 16 };
    let (first, rest) = values.split_at(match list {
        _ if values.len() <= room => values.len(),
        0 => 510,
        _ => 15,
    });
    let one = rest.iter().find(|x| !x.is_finite()).or(rest.last());
    for x in first.iter().chain(one) {
        put!(page, VALUE, list, x);
    }
}

impl<W: Write> Recorder<W> {
    /// A new journal, of settings that the library has accepted.
    pub fn new(to: W, s: &Settings) -> io::Result<Recorder<W>> {
        let mut it = Recorder { to, page: Vec::new() };
        let page = &mut it.page;
        put!(page, SETTINGS, s.mode, s.kind, s.clamp, s.rearm, s.dim, s.pos_dim, s.k);
        put!(page, s.clear_ticks, s.clamp_streak_to_brake, s.stop_confirm_ticks, s.watchdog_ticks, s.max_rearms);
        put!(page, s.horizon, s.exec, s.max_clamps_per_episode);
        put!(page, s.brake_timeout_ticks, s.rearm_hold, s.escalate_after_hold_ticks);
        put!(page, s.handoff_timeout_ticks, s.tier0_enabled, s.calib_mask, s.window_mask);
        put!(page, s.dt, s.inv_dt, s.a_max, s.v_stop_eps, s.warn_margin, s.tau);
        put_floats(page, &s.box_lo);
        put_floats(page, &s.box_hi);
        it.write_out()?;
        Ok(it)
    }

    /// Once at most, before the first reset and tick; finite and not below zero.
    pub fn width(&mut self, w: f64) -> io::Result<()> {
        put!(self.page, WIDTH, w);
        self.write_out()
    }

    pub fn reset(&mut self) -> io::Result<()> {
        self.page.push(RESET);
        self.write_out()
    }

    /// A tick of `Fuse`.
    pub fn tick(&mut self, tick: &Tick) -> io::Result<()> {
        self.call(&tick.input(), &tick.outcome, &tick.lists())
    }

    /// A tick of `tick_lent`.
    /// What the library does not look at is not written, and a flag is written as it is taken.
    pub fn call(&mut self, input: &Input, o: &Outcome, lists: &Lists) -> io::Result<()> {
        let page = &mut self.page;
        if input.has_ack == 1 && input.ack.decision <= 2 {
            put!(page, ACK, input.ack.decision, input.ack.operator_slot, input.ack.nonce, input.ack.handoff_seq);
        }
        if input.has_chunk != 0 {
            let head = &input.chunk;
            put!(page, CHUNK_HEAD, head.seq, head.t_emit, head.horizon, head.dim, head.exec_steps);
            put_list(page, 0, lists.chunk);
        }
        put_list(page, 1, lists.pos);
        if input.has_vel != 0 {
            put_list(page, 2, lists.vel);
        }
        put_list(page, 3, lists.aux);
        put_list(page, 4, lists.ext);
        put!(page, OUTCOME, o.trips, o.clamped_dims, u8::from(o.feasible == 1), o.margin, o.s, o.valid, o.fired);
        put_floats(page, &o.z);
        put_floats(page, &o.policy);
        put_floats(page, &o.clamped);
        let flags = [u8::from(input.schema_fault != 0), u8::from(input.has_vel != 0)];
        put!(page, TICK, input.t, input.idx, input.missed_ticks, flags[0], flags[1]);
        self.write_out()
    }

    /// What it writes to, for a flush or a new file.
    pub fn into_inner(self) -> W {
        self.to
    }

    pub fn get_mut(&mut self) -> &mut W {
        &mut self.to
    }

    fn write_out(&mut self) -> io::Result<()> {
        let done = self.to.write_all(&self.page);
        self.page.clear();
        done
    }
}
