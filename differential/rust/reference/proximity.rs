//! The lines of `proximity` (02-change-requests.md, Ask 7), written from the request's words: a second program beside it.
//!
//! It has no counterpart in the Rust. Of the Rust it takes what the guard found: a tick is clean where that is nothing.

use crate::{
    journal::{Observer, Ticked},
    records::Settings,
};

/// The width, and the position of the clean tick before, if no reset came since.
#[derive(Default)]
pub struct Proximity {
    width: Option<f64>,
    before: Option<Vec<f64>>,
    /// what the last record prints
    lines: String,
}

impl Proximity {
    /// The lines that came since they were taken last.
    pub fn take_lines(&mut self) -> String {
        std::mem::take(&mut self.lines)
    }
}

/// On a face is inside.
fn inside(s: &Settings, c: usize, x: f64) -> bool {
    s.box_lo[c] <= x && x <= s.box_hi[c]
}

/// Less than w from a face, each distance rounded once.
fn near(s: &Settings, c: usize, x: f64, w: f64) -> bool {
    [s.box_hi[c] - x, x - s.box_lo[c]].iter().any(|distance| *distance < w)
}

impl Observer for Proximity {
    const ASKS_GUARD: bool = true;

    fn width(&mut self, w: f64, _waiting: bool) {
        self.width = Some(w);
    }

    fn reset(&mut self, _waiting: bool) {
        self.before = None;
    }

    fn ticked(&mut self, tick: &Ticked) {
        if tick.guard != Some(0) {
            return;
        }
        let (s, now) = (tick.settings, tick.input.obs.pos);
        let before = self.before.replace(now.to_vec());
        let Some(w) = self.width else { return };
        for c in 0..usize::from(s.pos_dim) {
            let word = if inside(s, c, now[c]) {
                near(s, c, now[c], w).then_some("within")
            } else {
                before.as_ref().is_some_and(|earlier| inside(s, c, earlier[c])).then_some("out")
            };
            if let Some(word) = word {
                self.lines += &format!("{word} {} {c}\n", tick.verdict.t);
            }
        }
    }
}
