//! The fuse for a host in Rust, over the static library of the proved crate host_c. docs/HOST.md says what a host must do and what it may then rely on;
//! `Fuse` does the host's part of it: it owns the run state, lets nobody change it, and keeps one settings record.

pub mod ffi;
pub mod recorder;

pub use ffi::{Ack, Answer, Chunk, Input, Outcome, RunState, Settings, Tally, Verdict};

/// The settings are refused: 1 a code that is not listed, 2 a size, 3 a float that is not finite, 4 a lower side of the box above its upper side.
#[derive(Clone, Copy, Debug, PartialEq, Eq)]
pub struct Refused(pub u8);

impl std::fmt::Display for Refused {
    fn fmt(&self, f: &mut std::fmt::Formatter<'_>) -> std::fmt::Result {
        let cause = match self.0 {
            1 => "a code that is not listed: mode, kind, clamp or rearm",
            2 => "a size out of range: dim or pos_dim not 1 to 8, horizon not 1 to 64, exec not 1 to horizon",
            3 => "a float that is not finite (tau: a NaN)",
            4 => "a box_lo above its box_hi, in one of the 8 pairs",
            _ => "a cause that is not known",
        };
        write!(f, "the settings are refused, number {}: {cause}", self.0)
    }
}

impl std::error::Error for Refused {}

/// The lists of a tick. Any lengths are taken: a wrong one is a fault of the tick, which the verdict tells.
#[derive(Clone, Copy, Debug, Default)]
pub struct Lists<'a> {
    pub pos: &'a [f64],
    pub vel: &'a [f64],
    pub aux: &'a [f64],
    pub ext: &'a [f64],
    pub chunk: &'a [f64],
}

/// What a host brings to a tick. A velocity, a chunk and an acknowledgement are there or not; nothing can disagree with a flag.
#[derive(Clone, Copy, Debug, Default)]
pub struct Tick<'a> {
    pub t: u32,
    pub idx: u16,
    pub missed_ticks: u8,
    pub schema_fault: bool,
    pub pos: &'a [f64],
    pub vel: Option<&'a [f64]>,
    pub aux: &'a [f64],
    pub ext: &'a [f64],
    /// the head of the chunk, and its rows one after the other
    pub chunk: Option<(Chunk, &'a [f64])>,
    pub ack: Option<Ack>,
    pub outcome: Outcome,
}

impl<'a> Tick<'a> {
    pub fn input(&self) -> Input {
        Input {
            t: self.t,
            idx: self.idx,
            missed_ticks: self.missed_ticks,
            schema_fault: self.schema_fault.into(),
            has_vel: self.vel.is_some().into(),
            has_chunk: self.chunk.is_some().into(),
            has_ack: self.ack.is_some().into(),
            chunk: self.chunk.map(|c| c.0).unwrap_or_default(),
            ack: self.ack.unwrap_or_default(),
        }
    }

    pub fn lists(&self) -> Lists<'a> {
        Lists {
            pos: self.pos,
            vel: self.vel.unwrap_or(&[]),
            aux: self.aux,
            ext: self.ext,
            chunk: self.chunk.map_or(&[], |c| c.1),
        }
    }
}

/// One arm's fuse. It cannot be copied: each tick works on what the last one left, and an older state must not come back.
#[derive(Debug)]
pub struct Fuse {
    settings: Settings,
    state: RunState,
}

impl Fuse {
    /// A fuse for which no episode has begun and no nonce is spent, or what is wrong with the settings. A tick before `reset` faults. To be made where the
    /// host starts or takes new settings, and not for a reset.
    pub fn new(settings: Settings) -> Result<Fuse, Refused> {
        // The number of a refusal depends on the settings alone, so a tick of a run state that is thrown away tells it.
        match tick_lent(&mut new(), &settings, &Input::default(), &Outcome::default(), &Lists::default()).number {
            0 => Ok(Fuse { settings, state: new() }),
            number => Err(Refused(number)),
        }
    }

    /// Starts an episode. Spent nonces stay spent; everything else is forgotten.
    pub fn reset(&mut self) {
        reset(&mut self.state);
    }

    /// One tick; to be called once a control period.
    pub fn tick(&mut self, tick: &Tick) -> Verdict {
        let answer = tick_lent(&mut self.state, &self.settings, &tick.input(), &tick.outcome, &tick.lists());
        assert_eq!(answer.number, 0, "settings that were accepted are refused");
        answer.verdict
    }

    /// Ends a stretch of the episode: gives its tally, and goes on with an empty one. No verdict is another for it; `join` gives the tally of both stretches.
    pub fn take_tally(&mut self) -> Tally {
        std::mem::replace(&mut self.state.tally, new().tally)
    }

    pub fn settings(&self) -> &Settings {
        &self.settings
    }

    /// The run state, to be read.
    pub fn state(&self) -> &RunState {
        &self.state
    }
}

// ---- the library's functions. Each asks for memory alone, and references bring it: `&mut` is not shared, `&` and a slice are aligned and not null, and
// nothing writes them while they are borrowed.

/// A run state for which no episode has begun and no nonce is spent.
#[inline]
pub fn new() -> RunState {
    // SAFETY: takes nothing.
    unsafe { ffi::disklorva_new() }
}

/// Starts an episode in a run state: its nonces stay, and everything else is forgotten.
#[inline]
pub fn reset(state: &mut RunState) {
    // SAFETY: a `&mut` is valid and not shared.
    unsafe { ffi::disklorva_reset(state) }
}

/// One tick of a lent run state; all else is only read. Where the settings are refused, nothing is written.
#[inline]
pub fn tick_lent(state: &mut RunState, settings: &Settings, input: &Input, outcome: &Outcome, lists: &Lists) -> Answer {
    let Lists { pos, vel, aux, ext, chunk } = *lists;
    // SAFETY: a `&mut` is valid and not shared, so nothing else lies in it; references are valid, and slices for their lengths.
    unsafe {
        ffi::disklorva_tick(
            state,
            settings,
            input,
            outcome,
            pos.as_ptr(),
            pos.len(),
            vel.as_ptr(),
            vel.len(),
            aux.as_ptr(),
            aux.len(),
            ext.as_ptr(),
            ext.len(),
            chunk.as_ptr(),
            chunk.len(),
        )
    }
}

/// The same tick, where `state` stays as it is and the state after the tick is written to `next`, whatever that held. Where the settings are refused,
/// `next` is a copy of `state`.
#[inline]
pub fn tick_from(
    state: &RunState,
    next: &mut RunState,
    settings: &Settings,
    input: &Input,
    outcome: &Outcome,
    lists: &Lists,
) -> Answer {
    *next = *state;
    tick_lent(next, settings, input, outcome, lists)
}

/// The tally of an episode that was counted in two stretches, the earlier first. Where the second began from the run state at the cut with an empty tally
/// (`Fuse::take_tally`), it is the tally that one run would have left, in every field. Any two tallies are taken.
#[inline]
pub fn join(earlier: &Tally, later: &Tally) -> Tally {
    // SAFETY: references are valid and aligned, and nothing writes them while they are borrowed.
    unsafe { ffi::disklorva_join(earlier, later) }
}

/// The square root that the tick uses: the double nearest the exact root.
#[inline]
pub fn sqrt(x: f64) -> f64 {
    // SAFETY: takes a number.
    unsafe { ffi::disklorva_sqrt(x) }
}

/// The place of every field, as hosts/layout.txt has it: type, field, offset, bytes; and the size of each type.
pub fn layout() -> String {
    let mut text = String::new();
    for (name, fields, size) in ffi::TYPES {
        for f in *fields {
            text += &format!("{name} {} {} {}\n", f.name, f.offset, f.bytes);
        }
        text += &format!("{name} size {size}\n");
    }
    text
}

#[cfg(test)]
mod tests;
