//! Runs a program on a journal and compares what it prints with the reference, line by line.

use std::{
    cell::Cell,
    io::{self, Read, Write},
    process::{Command, Stdio},
    sync::mpsc::{self, RecvTimeoutError},
    thread,
    time::Duration,
};

use oracle::{
    answer::{Answer, Program},
    journal::{Observer, Unobserved},
};

/// A program under comparison: what it should print, its command with arguments, and what is not compared.
pub struct Subject {
    pub program: Program,
    pub command: Vec<String>,
    pub left_out: Vec<Field>,
    /// how many lines it printed in journals that show no difference
    pub lines: Cell<u64>,
}

/// A field of the trace that is left out on both sides, and how many lines of the program that were.
pub struct Field {
    pub name: String,
    pub lines: Cell<u64>,
}

impl Field {
    fn has(&self, line: &[u8]) -> bool {
        line.strip_prefix(self.name.as_bytes()).is_some_and(|rest| rest.starts_with(b"="))
    }
}

/// The first line that is not as the reference has it.
pub struct Difference {
    pub line: usize,
    /// the last `tick` line before it, or that line itself
    pub tick: String,
    pub expected: String,
    pub got: String,
}

/// A program that writes nothing for so long is stopped.
const PATIENCE: Duration = Duration::from_secs(60);

impl Subject {
    /// None if the program prints what the reference prints.
    pub fn compare(&self, journal: &[u8], observer: &mut impl Observer) -> io::Result<Option<Difference>> {
        let mut child = Command::new(&self.command[0])
            .args(&self.command[1..])
            .stdin(Stdio::piped())
            .stdout(Stdio::piped())
            .stderr(Stdio::piped())
            .spawn()
            .map_err(|what| io::Error::new(what.kind(), format!("{}: {what}", self.command[0])))?;
        let stdin = child.stdin.take().expect("piped");
        let mut stdout = child.stdout.take().expect("piped");
        let mut stderr = child.stderr.take().expect("piped");
        let (alive, watch) = mpsc::channel();
        thread::scope(|scope| {
            scope.spawn(|| feed(stdin, journal));
            let errors = scope.spawn(move || {
                let mut said = Vec::new();
                stderr.read_to_end(&mut said).map(|_| said)
            });
            let watcher = scope.spawn(move || {
                let silent = loop {
                    match watch.recv_timeout(PATIENCE) {
                        Ok(()) => continue,
                        Err(RecvTimeoutError::Timeout) => break true,
                        Err(RecvTimeoutError::Disconnected) => break false,
                    }
                };
                if silent {
                    let _ = child.kill();
                }
                (silent, child)
            });
            let compared = self.read(&mut stdout, journal, observer, || alive.send(()).is_ok());
            drop(stdout); // a program that still writes is told that nobody reads
            drop(alive);
            let (silent, mut child) = watcher.join().expect("the watcher does not panic");
            let status = child.wait()?;
            if silent {
                return Ok(Some(self.ended("nothing for a minute, and was stopped".into())));
            }
            let found = compared?;
            let said = errors.join().expect("reading does not panic")?;
            if found.is_none() && !said.is_empty() {
                return Ok(Some(self.ended(format!("on standard error: {}", said.escape_ascii()))));
            }
            if found.is_none() && !status.success() {
                return Ok(Some(self.ended(format!("all lines, but ended with {status}"))));
            }
            Ok(found)
        })
    }

    fn ended(&self, got: String) -> Difference {
        Difference { line: 0, tick: String::new(), expected: "an ordinary end".into(), got }
    }

    /// Compares as the output comes in; neither side is held in memory.
    fn read(
        &self,
        stdout: &mut impl Read,
        journal: &[u8],
        observer: &mut impl Observer,
        alive: impl Fn() -> bool,
    ) -> io::Result<Option<Difference>> {
        let mut answer = Answer::new(self.program, journal);
        let mut expected = Vec::new();
        let mut at = 0;
        let (mut equal, mut lines) = (0, 0);
        let mut buffer = vec![0; 1 << 16];
        let (mut come, mut kept) = (Vec::new(), Vec::new());
        loop {
            let n = stdout.read(&mut buffer)?;
            alive();
            let mut got = &buffer[..n];
            lines += got.iter().filter(|b| **b == b'\n').count() as u64;
            if !self.left_out.is_empty() {
                come.extend_from_slice(got);
                kept.clear();
                self.keep(&mut come, &mut kept, n == 0);
                got = &kept;
            }
            loop {
                while at == expected.len() {
                    expected.clear();
                    at = 0;
                    if !self.step(&mut answer, &mut expected, observer) {
                        break;
                    }
                }
                if got.is_empty() {
                    break;
                }
                let common = got.len().min(expected.len() - at);
                if common == 0 || got[..common] != expected[at..at + common] {
                    let same = (0..common).take_while(|i| got[*i] == expected[at + i]).count();
                    return Ok(Some(self.locate(journal, equal + same, &got[same..])));
                }
                got = &got[common..];
                at += common;
                equal += common;
            }
            if n == 0 {
                let all = at == expected.len();
                if all {
                    self.lines.set(self.lines.get() + lines);
                }
                return Ok(if all { None } else { Some(self.locate(journal, equal, b"")) });
            }
        }
    }

    /// Moves the whole lines of `come` that are compared to `kept`, and at the end the part of a line that is left.
    fn keep(&self, come: &mut Vec<u8>, kept: &mut Vec<u8>, end: bool) {
        let whole = if end { come.len() } else { come.iter().rposition(|b| *b == b'\n').map_or(0, |i| i + 1) };
        for line in come[..whole].split_inclusive(|b| *b == b'\n') {
            match self.left_out.iter().find(|field| field.has(line)) {
                Some(field) => field.lines.set(field.lines.get() + 1),
                None => kept.extend_from_slice(line),
            }
        }
        come.drain(..whole);
    }

    /// One more record of the reference's answer, without what is left out.
    fn step(&self, answer: &mut Answer, out: &mut Vec<u8>, observer: &mut impl Observer) -> bool {
        if self.left_out.is_empty() {
            return answer.step(out, observer);
        }
        let mut all = Vec::new();
        let more = answer.step(&mut all, observer);
        let compared = |line: &&[u8]| !self.left_out.iter().any(|field| field.has(line));
        all.split_inclusive(|b| *b == b'\n').filter(compared).for_each(|line| out.extend_from_slice(line));
        more
    }

    /// The line at so many bytes into the reference's answer; `got` is what came instead of the rest.
    fn locate(&self, journal: &[u8], equal: usize, got: &[u8]) -> Difference {
        let mut text = Vec::new();
        let mut answer = Answer::new(self.program, journal);
        let mut dropped = 0;
        let mut lines = 0;
        while text.len() + dropped <= equal {
            // Keep what one record prints: the line is in the last one.
            dropped += text.len();
            lines += text.iter().filter(|b| **b == b'\n').count();
            text.clear();
            if !self.step(&mut answer, &mut text, &mut Unobserved) {
                break;
            }
        }
        let offset = equal - dropped;
        let start = text[..offset].iter().rposition(|b| *b == b'\n').map_or(0, |i| i + 1);
        let end = text[offset..].iter().position(|b| *b == b'\n').map_or(text.len(), |i| offset + i);
        let got_end = got.iter().position(|b| *b == b'\n').unwrap_or(got.len());
        let show = |bytes: &[u8]| bytes.escape_ascii().to_string();
        let first = text.split(|b| *b == b'\n').next().unwrap_or(b"");
        Difference {
            line: lines + text[..start].iter().filter(|b| **b == b'\n').count() + 1,
            tick: if first.starts_with(b"tick") { show(first) } else { String::new() },
            expected: if end > start { show(&text[start..end]) } else { "nothing more".into() },
            got: if got.is_empty() {
                "nothing more".into()
            } else {
                show(&[&text[start..offset], &got[..got_end]].concat())
            },
        }
    }
}

/// Writes the journal in parts of uneven length; a program that stops reading is left alone.
fn feed(mut stdin: impl Write, journal: &[u8]) {
    let part = if journal.len() < 1 << 16 { 997 } else { 1 << 16 };
    for bytes in journal.chunks(part) {
        if stdin.write_all(bytes).is_err() {
            return;
        }
    }
}
