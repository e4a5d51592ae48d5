//! Makes sample journals and the reference's answers to them, to be stored and replayed where there is no Rust.
//!
//!     sample [--rule NAME ..] DIR [BYTES [TRACE]]
//!
//! BYTES is the most that a sample journal may have (150000). Each sample runs under one settings record, since a journal
//! takes no second one; so there is one for each of a few settings. From many random episodes those are taken that reach
//! the most points of the coverage for their length. The sample `trace` is the one that the tests replay: its trace has at
//! most TRACE bytes (280000), and it is an error if it misses a state or a reason. `speed` is an ordinary run to measure by.
//! `--rule` turns a rule of rust/rules on.

use std::{fs, io, path::Path, process::ExitCode};

use coverage::Coverage;
use generate::{
    draft::Draft,
    profiles::named,
    rng::Rng,
    settings::*,
    walk::{ack, walk, Mix, CALM},
};
use oracle::{
    answer::{answer, Answer, Program},
    journal::Unobserved,
    records::Settings,
};

/// Settings whose limits are small and all differ, so that a mixed-up pair shows.
fn enforce() -> Settings {
    Settings {
        mode: ENFORCE,
        kind: JOINT_VELOCITY,
        clamp: PROJECT,
        rearm: AUTO,
        dim: 3,
        pos_dim: 2,
        k: 2,
        clear: 3,
        streak: 3,
        confirm: 2,
        watchdog: 1,
        max_rearms: 2,
        horizon: 2,
        exec: 1,
        max_clamps: 4,
        brake: 5,
        rearm_hold: 1,
        hold: 3,
        handoff: 4,
        tier0_enabled: 0x0001_003f,
        calib_mask: 0x0f7,
        window_mask: 0x8000_0000_0000_001f,
        box_lo: [-1.0, -0.5, 0.25, 0.0, -1.0, -1.0, -1.0, -1.0],
        box_hi: [1.0, 0.5, 0.75, -0.0, 1.0, 1.0, 1.0, 1.0],
        ..roomy()
    }
}

/// An ordinary arm: six joints, chunks of 16 rows of which 8 are carried out.
fn ordinary() -> Settings {
    Settings {
        kind: JOINT_VELOCITY,
        dim: 6,
        pos_dim: 6,
        k: 3,
        clear: 5,
        streak: 3,
        confirm: 2,
        max_rearms: 5,
        horizon: 16,
        exec: 8,
        max_clamps: 60,
        brake: 30,
        rearm_hold: 10,
        hold: 30,
        handoff: 200,
        ..roomy()
    }
}

fn samples() -> Vec<(&'static str, Settings)> {
    let position = Settings { kind: 2, dim: 3, pos_dim: 2, ..enforce() };
    let observe = Settings { mode: OBSERVE, kind: EE_DELTA, dim: 1, pos_dim: 2, calib_mask: 0, brake: 3, ..enforce() };
    let ack_only = Settings { kind: EE_DELTA, rearm: ACK_ONLY, clamp: OFF, dim: 2, pos_dim: 2, k: 1, ..enforce() };
    vec![("enforce", enforce()), ("position", position), ("observe", observe), ("ack-only", ack_only)]
}

/// An episode's bytes from its reset on, the length of its trace, and the points that it reaches.
struct Episode {
    bytes: Vec<u8>,
    trace: usize,
    reached: Vec<bool>,
}

/// The most that a sample may have.
#[derive(Clone, Copy)]
struct Most {
    bytes: usize,
    trace: usize,
}

/// Settings, and a tick before any reset: Idle comes but once in a journal.
fn prelude(settings: &Settings, rng: &Rng) -> Vec<u8> {
    let mut draft = Draft::new(*settings);
    let mut plan = draft.good(0, rng);
    plan.ack = Some(ack(&draft, rng, 1000));
    draft.send(&plan, rng);
    draft.bytes
}

fn covered(journal: &[u8]) -> Coverage {
    let mut coverage = Coverage::new();
    coverage.begin();
    answer(Program::Fuse, journal, &mut coverage);
    coverage
}

/// The beginnings of a random episode, each reaching more than the one before.
fn beginnings(settings: &Settings, rng: &Rng) -> Vec<Episode> {
    let mixes = [
        CALM,
        Mix { infeasible: 250, still: 950, ack: 500, ..CALM },
        Mix { infeasible: 250, still: 500, velocity: 700, odd: 150, ..CALM },
        Mix { soft: 500, chunk: 600, ..CALM },
        Mix { hit: 400, warn: 300, edge: 200, ..CALM },
        Mix { guard: 300, outcome_fault: 100, odd: 300, ..CALM },
        Mix { infeasible: 250, still: 950, ack: 900, ack_elsewhere: 800, ack_good: 300, ..CALM },
    ];
    let mut draft = Draft::new(*settings);
    let start = draft.bytes.len();
    draft.reset();
    let mix = Mix { reset_over: 0, reset_other: 0, ..rng.pick(&mixes) };
    let mut ends = Vec::new();
    for _ in 0..rng.range(1, 30) {
        walk(&mut draft, rng, &mix, 1);
        ends.push(draft.bytes.len());
    }
    let mut coverage = Coverage::new();
    coverage.begin();
    let mut answer = Answer::new(Program::Trace, &draft.bytes);
    let (mut trace, mut found) = (Vec::new(), Vec::<Episode>::new());
    for end in ends {
        let before = trace.len();
        while trace.len() == before {
            answer.step(&mut trace, &mut coverage);
        }
        let reached = coverage.reached();
        if found.last().is_none_or(|last| last.reached != reached) {
            found.push(Episode { bytes: draft.bytes[start..end].to_vec(), trace: trace.len(), reached });
        }
    }
    found
}

fn traced(journal: &[u8]) -> Vec<u8> {
    answer(Program::Trace, journal, &mut Unobserved)
}

/// The best beginnings by the worth of new points for the length of their trace, until none adds any or there is no room.
fn journal(settings: &Settings, rng: &Rng, most: Most) -> Vec<u8> {
    let mut bytes = prelude(settings, rng);
    let mut trace = traced(&bytes).len();
    let coverage = covered(&bytes);
    let (worth, mut have) = (coverage.worth(), coverage.reached());
    let mut episodes: Vec<Episode> = (0..2000).flat_map(|_| beginnings(settings, rng)).collect();
    loop {
        let new = |(i, reached): (usize, &bool)| if *reached && !have[i] { worth[i] } else { 0 };
        let gain = |e: &Episode| e.reached.iter().enumerate().map(new).sum::<usize>();
        let fits = |e: &Episode| bytes.len() + e.bytes.len() <= most.bytes && trace + e.trace <= most.trace;
        episodes.retain(|e| fits(e) && gain(e) > 0);
        let worth_most = (0..episodes.len()).max_by_key(|i| gain(&episodes[*i]) * 1_000_000 / episodes[*i].trace);
        let Some(best) = worth_most.map(|i| episodes.remove(i)) else {
            return bytes;
        };
        // With nonces that a reset keeps, an episode can go otherwise after the others than by itself.
        let longer = [bytes.as_slice(), &best.bytes].concat();
        if best.reached.iter().zip(covered(&longer).reached()).any(|(alone, after)| *alone && !after) {
            continue;
        }
        bytes = longer;
        trace += best.trace;
        have.iter_mut().zip(&best.reached).for_each(|(h, r)| *h |= r);
    }
}

/// An ordinary run of so many ticks, from a reset on.
fn speed(ticks: usize) -> Vec<u8> {
    let mut draft = Draft::new(ordinary());
    draft.reset();
    let mix = Mix { chunk: 125, infeasible: 10, odd: 0, reset_over: 1000, reset_other: 0, ..CALM };
    walk(&mut draft, &Rng::new("speed", 1), &mix, ticks);
    draft.bytes
}

fn store(folder: &Path, name: &str, bytes: &[u8]) -> io::Result<()> {
    let trace = traced(bytes);
    let coverage = covered(bytes);
    let points = coverage.reached().iter().filter(|reached| **reached).count();
    println!(
        "{name}: {} ticks, journal {} bytes, trace {} bytes, {points} points",
        coverage.ticks,
        bytes.len(),
        trace.len()
    );
    fs::write(folder.join(format!("{name}.journal")), bytes)?;
    fs::write(folder.join(format!("{name}.fuse")), answer(Program::Fuse, bytes, &mut Unobserved))?;
    fs::write(folder.join(format!("{name}.trace")), trace)
}

/// The states and reasons that a sample does not reach though a journal in its mode can.
fn unreached(settings: &Settings, bytes: &[u8]) -> Vec<String> {
    let of_mode = [" in Observe", " in Enforce"][usize::from(settings.mode)];
    let mut missing = covered(bytes).missing();
    missing.retain(|m| (m.starts_with("reasons: ") || m.starts_with("end states: ")) && m.ends_with(of_mode));
    missing
}

fn make(folder: &Path, bytes: usize, trace: usize) -> io::Result<()> {
    fs::create_dir_all(folder)?;
    let mut all = Coverage::new();
    for (name, settings) in samples() {
        let bytes = journal(&settings, &Rng::new(name, 1), Most { bytes, trace: usize::MAX });
        store(folder, name, &bytes)?;
        unreached(&settings, &bytes).iter().for_each(|what| println!("  not reached: {what}"));
        all.begin();
        answer(Program::Fuse, &bytes, &mut all);
    }
    all.print(&mut io::stdout().lock(), false)?;
    refusals(folder)?;
    fs::write(folder.join("speed.journal"), speed(2000))?;
    let bytes = journal(&enforce(), &Rng::new("trace", 1), Most { bytes: usize::MAX, trace });
    store(folder, "trace", &bytes)?;
    match unreached(&enforce(), &bytes).join(", ") {
        lacks if lacks.is_empty() => Ok(()),
        lacks => Err(io::Error::other(format!("the sample trace does not reach {lacks}"))),
    }
}

/// The shortest journal for each cause of refusal, and for each pair of causes.
fn refusals(folder: &Path) -> io::Result<()> {
    let profile = named("refusals").expect("a profile");
    let mut candidates: Vec<Vec<u8>> = (1..=200).flat_map(|seed| profile.journals(seed)).collect();
    candidates.sort_by_key(Vec::len);
    let mut coverage = Coverage::new();
    let mut made = 0;
    for bytes in candidates {
        let before = coverage.refusals_reached();
        coverage.begin();
        answer(Program::Fuse, &bytes, &mut coverage);
        if coverage.refusals_reached() > before {
            made += 1;
            store(folder, &format!("refused-{made:02}"), &bytes)?;
        }
    }
    Ok(())
}

fn main() -> ExitCode {
    let made = oracle::words().and_then(|words| {
        let number = |at: usize, default| words.get(at).and_then(|text| text.parse().ok()).unwrap_or(default);
        let folder = words.first().ok_or("usage: sample [--rule NAME ..] DIR [BYTES [TRACE]]")?;
        make(Path::new(folder), number(1, 150_000), number(2, 280_000)).map_err(|what| what.to_string())
    });
    match made {
        Ok(()) => ExitCode::SUCCESS,
        Err(what) => {
            eprintln!("sample: {what}");
            ExitCode::from(2)
        }
    }
}
