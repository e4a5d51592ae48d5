//! The cases of 01-scope.md on the Rust: whether it does what the paper says of them.
//!
//!     cases [--rule NAME ..] [unstarred]
//!
//! Prints one line for each case; the exit status is 1 if the Rust answers otherwise than the paper. `cases unstarred`
//! prints what the program `cases` of the repository prints: it is stored there, and replayed by the tests.

use std::process::ExitCode;

use generate::{
    draft::{calm, Draft, Plan},
    rng::Rng,
    settings::*,
};
use lictor_core::{fmath, FuseState};
use oracle::{
    answer::{answer, Program},
    journal::Unobserved,
    lines,
    records::{Ack, Settings, Tick},
};

/// A case as the paper has it, and what the Rust answers.
struct Case {
    name: &'static str,
    paper: String,
    rust: String,
}

/// A journal that is led to some state.
struct Story {
    draft: Draft,
    rng: Rng,
}

impl Story {
    fn new(settings: Settings) -> Self {
        let mut story = Self { draft: Draft::new(settings), rng: Rng::new("cases", 1) };
        story.draft.reset();
        story
    }

    /// One more tick, calm but for `change`.
    fn tick(&mut self, change: impl Fn(&mut Plan)) {
        let mut plan = self.draft.good(0, &self.rng);
        change(&mut plan);
        self.draft.send(&plan, &self.rng);
    }

    fn until(mut self, state: FuseState, change: impl Fn(&mut Plan)) -> Self {
        while self.draft.state() != state {
            self.tick(&change);
        }
        self
    }

    fn braking(self) -> Self {
        self.until(FuseState::Braking, |p| p.outcome.feasible = 0)
    }

    fn held(self) -> Self {
        self.braking().until(FuseState::Held, |_| {})
    }

    fn escalated(self) -> Self {
        self.held().until(FuseState::Escalated, |_| {})
    }

    fn ack(&self, decision: u8, slot: u8, nonce: u64) -> Option<Ack> {
        Some(Ack { decision, slot, nonce, handoff: self.draft.rt().handoff_seq })
    }

    /// The last line of `fuse` for a tick, without seq, t and margin: state, reason, trips, source.
    fn last(&self) -> String {
        let text = text(&self.draft.bytes);
        let line = text.lines().rfind(|line| line.starts_with("tick")).expect("a tick came");
        line.split(' ').skip(3).take(4).collect::<Vec<_>>().join(" ")
    }
}

fn text(journal: &[u8]) -> String {
    String::from_utf8(answer(Program::Fuse, journal, &mut Unobserved)).expect("ASCII")
}

fn main() -> ExitCode {
    let words = match oracle::words() {
        Ok(words) => words,
        Err(what) => {
            eprintln!("cases: {what}");
            return ExitCode::from(2);
        }
    };
    if words.first().is_some_and(|what| what == "unstarred") {
        print!("{}", unstarred());
        return ExitCode::SUCCESS;
    }
    let mut wrong = 0;
    for case in [acknowledgements(), stops(), clamps(), faults(), clock(), numbers()].into_iter().flatten() {
        println!("{}: {}", case.name, case.rust.trim_end().replace('\n', " / "));
        if case.rust != case.paper {
            println!("  BUT THE PAPER SAYS {}", case.paper);
            wrong += 1;
        }
    }
    ExitCode::from(u8::from(wrong > 0))
}

fn case(name: &'static str, paper: &str, rust: impl Into<String>) -> Case {
    Case { name, paper: paper.into(), rust: rust.into() }
}

fn acknowledgements() -> Vec<Case> {
    let held_with = |decision, slot, nonce| {
        let mut story = Story::new(roomy()).held();
        let ack = story.ack(decision, slot, nonce);
        story.tick(|p| p.ack = ack);
        let stored = story.draft.rt().last_nonce.iter().max().expect("eight of them").to_string();
        format!("{}, stored {stored}", story.last())
    };
    let mut retuned = Story::new(Settings { hold: 0, ..roomy() }).escalated();
    let retune = retuned.ack(2, 3, 9);
    retuned.tick(|p| p.ack = retune);
    vec![
        case("nonce 0 in Held", "5 13 0 3, stored 0", held_with(0, 0, 0)),
        case("slot 7, nonce 1, handoff 0", "1 23 0 0, stored 1", held_with(0, 7, 1)),
        case("slot 8", "5 13 0 3, stored 0", held_with(0, 8, 1)),
        case(
            "Retune in Escalated",
            "8 26 0 3, stored 9",
            format!("{}, stored {}", retuned.last(), retuned.draft.rt().last_nonce[3]),
        ),
        case("Retune in Held", "5 13 0 3, stored 0", held_with(2, 3, 9)),
    ]
}

fn stops() -> Vec<Case> {
    let mut timeout = Story::new(Settings { hold: 0, handoff: 0, ..roomy() }).escalated();
    timeout.tick(|_| {});
    let mut brake = Story::new(Settings { brake: 0, ..roomy() }).braking();
    brake.tick(|_| {});
    vec![
        case("Escalated, E = 0, no ack", "8 25 4096 3", timeout.last()),
        case("B = 0, Braking, stopped", "7 20 16384 3", brake.last()),
    ]
}

fn clamps() -> Vec<Case> {
    let mut cases = Vec::new();
    for (name, max_clamps, paper, next) in [
        ("limit and clamps 2", 2, "3 3 1 1, clamps 3", "4 11 2048 2, clamps 3"),
        ("limit and clamps 65535", 65535, "3 3 1 1, clamps 65535", "3 0 0 1, clamps 65535"),
    ] {
        let mut story = Story::new(Settings { max_clamps, ..roomy() });
        for _ in 0..max_clamps {
            story.tick(|p| p.outcome.trips = 1);
        }
        assert_eq!(story.draft.rt().clamps, max_clamps);
        story.tick(|p| p.outcome.trips = 1);
        cases.push(case(name, paper, format!("{}, clamps {}", story.last(), story.draft.rt().clamps)));
        story.tick(|_| {});
        cases.push(case("next tick, no trips", next, format!("{}, clamps {}", story.last(), story.draft.rt().clamps)));
    }
    cases
}

fn faults() -> Vec<Case> {
    let terminated = || {
        let mut story = Story::new(roomy()).held();
        let abort = story.ack(1, 0, 1);
        story.tick(|p| p.ack = abort);
        assert_eq!(story.draft.state(), FuseState::Terminated);
        story
    };
    let mut by_guard = terminated();
    let plan = by_guard.draft.good(3, &by_guard.rng);
    by_guard.draft.send(&plan, &by_guard.rng);
    let mut by_outcome = terminated();
    by_outcome.tick(|p| p.outcome.trips = 512);
    let mut all = Story::new(roomy());
    all.tick(|p| {
        p.pos[0] = f64::NAN;
        p.tick.schema = 1;
        p.tick.missed = 3;
    });
    let mut all_outcome = Story::new(roomy());
    all_outcome.tick(|p| p.outcome.trips = 896);
    vec![
        case("Terminated, WATCHDOG by the guard", "7 19 512 3", by_guard.last()),
        case("Terminated, WATCHDOG by the outcome", "7 19 512 3", by_outcome.last()),
        case("trips 896 by the guard", "7 17 896 3", all.last()),
        case("trips 896 by the outcome", "7 17 896 3", all_outcome.last()),
    ]
}

/// Last t 4294967295: SCHEMA with every t.
fn clock() -> Vec<Case> {
    let mut answers = Vec::new();
    for t in [0, 1, 2, 1 << 31, u32::MAX - 1, u32::MAX] {
        for missed in [0, 1, 2] {
            let mut story = Story::new(roomy());
            story.tick(|p| {
                p.head = None;
                p.chunk.clear();
                p.tick.t = u32::MAX;
            });
            assert_eq!(story.draft.rt().last_t, u32::MAX);
            story.tick(|p| {
                p.tick.t = t;
                p.tick.missed = missed;
                p.tick.idx = 0;
                if let Some(head) = &mut p.head {
                    head.t_emit = t;
                }
            });
            answers.push(story.last());
        }
    }
    answers.dedup();
    vec![case("last t 4294967295, any t", "7 18 256 3", answers.join(", "))]
}

/// The tick behind one at `last`, which nothing is wrong with but its t: the line that `fuse` prints for it.
fn behind(last: u32, missed: u8, t: u32) -> String {
    let mut story = Story::new(Settings { watchdog: 255, ..roomy() });
    story.tick(|p| {
        p.head = None;
        p.chunk.clear();
        p.tick.t = last;
    });
    assert_eq!(story.draft.rt().last_t, last);
    story.tick(|p| {
        p.tick = Tick { t, idx: 0, missed, schema: 0, velocity: 0 };
        p.head.as_mut().expect("none was filled").t_emit = t;
        p.outcome.margin = 0.0;
    });
    let text = text(&story.draft.bytes);
    text.lines().nth(1).expect("two ticks came").to_string()
}

/// The case without a star, line by line as the program `cases` has it.
fn unstarred() -> String {
    let end = u32::MAX;
    let times = [0, 1, 2, 255, (1 << 31) - 1, 1 << 31, end - 1, end];
    let mut cases: Vec<(u32, u8, u32)> = Vec::new();
    for missed in [0, 1, 255] {
        cases.extend(times.map(|t| (end, missed, t)));
    }
    cases.extend([(end - 1, 0, end), (end - 1, 0, 0), (end - 1, 1, 0)]);
    cases.extend([(end - 255, 254, end), (end - 255, 255, 0), (0, 0, 1)]);
    let line = |(last, missed, t)| format!("last t {last}, missed {missed}, t {t}: {}\n", behind(last, missed, t));
    cases.into_iter().map(line).collect()
}

fn numbers() -> Vec<Case> {
    let margin = |x| {
        let mut out = Vec::new();
        lines::margin(&mut out, x);
        String::from_utf8(out).expect("ASCII")
    };
    let mut example = Draft::new(roomy());
    example.reset();
    example.outcome(&calm());
    example.tick(Tick { t: 0, idx: 0, missed: 0, schema: 0, velocity: 0 });
    vec![
        case("root of 2.25", "1.5", fmath::sqrt(2.25).to_string()),
        case("margin 0.0625", "62", margin(0.0625)),
        case("margin -0.0625", "-62", margin(-0.0625)),
        case("the example journal", "tick 0 0 7 18 256 3 none\nend 1 1\n", text(&example.bytes)),
    ]
}
