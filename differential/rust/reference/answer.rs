//! The answer of `fuse`, `trace` or `proximity` to a journal.

use lictor_core::SafetyVerdict;

use crate::{
    journal::{Journal, Observer},
    lines::{end_line, refused_line, tick_line, trace_lines},
    proximity::Proximity,
};

#[derive(Clone, Copy, Debug, PartialEq)]
pub enum Program {
    Fuse,
    Trace,
    Proximity,
}

/// The printed answer to a journal, made record by record.
pub struct Answer<'a> {
    program: Program,
    journal: Journal,
    proximity: Proximity,
    rest: &'a [u8],
    over: bool,
}

impl<'a> Answer<'a> {
    pub fn new(program: Program, bytes: &'a [u8]) -> Self {
        Self { program, journal: Journal::new(), proximity: Proximity::default(), rest: bytes, over: false }
    }

    /// Takes one more record and appends what it prints; false once everything is printed.
    pub fn step(&mut self, out: &mut Vec<u8>, observer: &mut impl Observer) -> bool {
        if self.over {
            return false;
        }
        if self.rest.is_empty() {
            self.journal.end(observer);
            if self.program != Program::Proximity {
                end_line(out, self.journal.rt.tally.ticks, self.journal.stopped);
            }
            self.over = true;
            return true;
        }
        let taken = match self.program {
            Program::Proximity => self.journal.step(self.rest, &mut (&mut self.proximity, observer)),
            _ => self.journal.step(self.rest, observer),
        };
        match taken {
            Ok((used, verdict)) => {
                self.rest = &self.rest[used..];
                if let Some(v) = verdict {
                    self.ticked(out, &v);
                }
            }
            Err(refusal) => {
                refused_line(out, refusal.number, refusal.place);
                self.over = true;
            }
        }
        true
    }

    fn ticked(&mut self, out: &mut Vec<u8>, v: &SafetyVerdict) {
        let rt = &self.journal.rt;
        match self.program {
            Program::Fuse => tick_line(out, v),
            Program::Trace => {
                tick_line(out, v);
                trace_lines(out, v, rt, rt.filled);
            }
            Program::Proximity => out.extend_from_slice(self.proximity.take_lines().as_bytes()),
        }
    }
}

/// The whole answer at once.
pub fn answer(program: Program, bytes: &[u8], observer: &mut impl Observer) -> Vec<u8> {
    let mut out = Vec::new();
    let mut answer = Answer::new(program, bytes);
    while answer.step(&mut out, observer) {}
    out
}
