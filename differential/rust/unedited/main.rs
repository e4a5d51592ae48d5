//! Checks the edits of fuse.rs: runs the unedited file with its own detectors and sizes on random ticks, writes what the
//! detectors answered as outcome records, and asks the reference for the same trace of that journal.
//!
//!     unedited [--rule NAME ..] COMMAND SEEDS [FIRST]
//!
//! COMMAND is the program that gets the journals (`reference trace`). Of the rules in rust/rules, reset-keeps-nonces is followed
//! here too; max-ignores-nan is not, since no number that it is about turns NaN in these journals.

// These stand on no crate, or on the published ones here; not all of them is used.
#[path = "../generate/floats.rs"]
#[allow(dead_code)]
mod floats;
#[path = "../reference/lines.rs"]
#[allow(dead_code)]
mod lines;
#[path = "../reference/records.rs"]
#[allow(dead_code)]
mod records;
#[path = "../generate/rng.rs"]
#[allow(dead_code)]
mod rng;
mod world;

use std::{
    io::{self, Read, Write},
    process::{Command, ExitCode, Stdio},
    thread,
};

use lictor_core::{ChunkView, EpisodeInit, ExecMode, ObsView};
use lictor_fuse::fuse::{decide, FuseRt, TickInput};
use rng::Rng;
use world::World;

/// How often things were seen, to show that the check is not empty.
#[derive(Default)]
struct Seen {
    ticks: u64,
    fault_ticks: u64,
    ended: [u64; 9],
    tripped: u64,
    clamped: u64,
    infeasible: u64,
    fired: u64,
    uncalibrated: u64,
    /// an acknowledgement that is new again after the Rust's own reset, and is not with its nonces kept
    replayed: u64,
}

fn main() -> ExitCode {
    let args = rules::words().unwrap_or_default();
    let number = |at: usize| args.get(at).and_then(|text| text.parse::<u64>().ok());
    let (Some(command), Some(seeds)) = (args.first(), number(1)) else {
        eprintln!("usage: unedited [--rule NAME ..] COMMAND SEEDS [FIRST]");
        return ExitCode::from(2);
    };
    let first = number(2).unwrap_or(1);
    let mut seen = Seen::default();
    for seed in first..first + seeds {
        let (journal, trace) = episode(seed, &mut seen);
        let got = match output(command, &journal) {
            Ok(got) => got,
            Err(what) => {
                eprintln!("unedited: {command}: {what}");
                return ExitCode::from(2);
            }
        };
        if got != trace {
            show(seed, &trace, &got);
            return ExitCode::from(1);
        }
    }
    println!(
        "{} ticks equal ({} fault ticks; {} with trips, {} clamped, {} infeasible, {} with a fired score, {} with \
         calibration mask 0, {} with an acknowledgement whose nonce was spent before the reset; by end state {:?})",
        seen.ticks,
        seen.fault_ticks,
        seen.tripped,
        seen.clamped,
        seen.infeasible,
        seen.fired,
        seen.uncalibrated,
        seen.replayed,
        seen.ended
    );
    ExitCode::SUCCESS
}

/// What a program prints for a journal.
fn output(command: &str, journal: &[u8]) -> io::Result<Vec<u8>> {
    let mut words = command.split_whitespace();
    let mut child = Command::new(words.next().unwrap_or_default())
        .args(words)
        .stdin(Stdio::piped())
        .stdout(Stdio::piped())
        .spawn()?;
    let mut stdin = child.stdin.take().expect("piped");
    let mut stdout = child.stdout.take().expect("piped");
    let mut out = Vec::new();
    thread::scope(|scope| {
        // Dropped at its end, which is the end of input.
        scope.spawn(move || stdin.write_all(journal));
        stdout.read_to_end(&mut out)
    })?;
    child.wait()?;
    Ok(out)
}

fn show(seed: u64, trace: &[u8], got: &[u8]) {
    let (trace, got) = (String::from_utf8_lossy(trace), String::from_utf8_lossy(got));
    let mut tick = "";
    for (expected, got) in trace.lines().zip(got.lines().chain(std::iter::repeat(""))) {
        if expected.starts_with("tick") {
            tick = expected;
        }
        if expected != got {
            println!("DIFFERENCE seed {seed}\n  at       {tick}\n  unedited {expected}\n  got      {got}");
            return;
        }
    }
    println!("DIFFERENCE seed {seed}: the unedited file ends first");
}

/// A journal with the detectors' answers, and the trace that the unedited fuse.rs gives for it.
fn episode(seed: u64, seen: &mut Seen) -> (Vec<u8>, Vec<u8>) {
    let rng = Rng::new("unedited", seed);
    let mut world = World::new(&rng);
    let mut rt = Box::new(FuseRt::new());
    let (mut journal, mut trace, mut stopped) = (Vec::new(), Vec::new(), 0);
    journal.push(records::SETTINGS);
    world.settings().write(&mut journal);
    let mut kept = rt.last_nonce;
    for _ in 0..200 {
        if world.ends_episode(&rt, &rng) {
            let nonces = rt.last_nonce;
            rt.reset(EpisodeInit { episode_index: 0, seed, delay_steps: 0, exec: ExecMode::Sync });
            if rules::applies(rules::Rule::ResetKeepsNonces) {
                rt.last_nonce = nonces;
            }
            kept = rt.last_nonce;
            journal.push(records::RESET);
            world.reset();
            stopped = 0;
        }
        let tick = world.tick(&rt, &rng);
        let input = TickInput {
            obs: ObsView { t: tick.t, pos: &tick.pos, vel: tick.vel.as_deref(), aux: &tick.aux, ext: &tick.ext },
            chunk: tick.head.map(|h| ChunkView {
                seq: h.seq,
                t_emit: h.t_emit,
                horizon: h.horizon,
                dim: h.dim,
                exec_steps: h.exec,
                data: &tick.chunk,
            }),
            idx: tick.idx,
            missed_ticks: tick.missed,
            ack: tick.ack,
            schema_fault: tick.schema,
        };
        seen.replayed += u64::from(tick.ack.is_some_and(|ack| {
            let stored = |nonces: &[u64; 8]| nonces.get(usize::from(ack.operator_slot)).copied();
            let since = stored(&rt.last_nonce) != stored(&kept);
            !since && ack.nonce > 0 && stored(&kept).is_some_and(|nonce| ack.nonce <= nonce)
        }));
        lictor_detect::take();
        let verdict = decide(&world.cfg, &mut rt, &input);
        let outcome = world.outcome(lictor_detect::take(), &rt, tick.idx, &rng);
        tick.write(&outcome, &mut journal);
        assert_eq!(rt.cur.is_filled(), rt.scratch.is_filled());
        lines::tick_line(&mut trace, &verdict);
        lines::trace_lines(&mut trace, &verdict, &rt, rt.cur.is_filled());
        world.moves(&verdict);
        stopped += u32::from(lines::stops(&verdict));

        seen.ticks += 1;
        seen.fault_ticks += u64::from(verdict.brake_margin.is_nan() && verdict.trips & 0x380 != 0);
        seen.ended[verdict.state as usize] += 1;
        seen.tripped += u64::from(verdict.trips & 0x3f != 0);
        seen.clamped += u64::from(verdict.clamped_dims != 0);
        seen.infeasible += u64::from(verdict.trips & 0x40 != 0);
        seen.fired += u64::from(verdict.scores.fired != 0);
        seen.uncalibrated += u64::from(world.cfg.calib.mask == 0);
    }
    lines::end_line(&mut trace, rt.tally.ticks, stopped);
    (journal, trace)
}
