//! Compares programs with the Rust reference on generated journals.
//!
//!     compare [--fuse COMMAND] [--trace COMMAND] [--proximity COMMAND] [options] [JOURNAL ..]
//!
//! COMMAND is a path with arguments after blanks. A program has to print what the reference does and nothing on standard
//! error, and to end with status 0. With files, those journals are compared; else generated ones:
//!     --seeds N      so many seeds (20)
//!     --first S      from this one on (1)
//!     --profile P    this profile alone (may be repeated)
//!     --each         only the profiles that are run with every seed
//!     --once         only those that are run with the first one alone
//!     --failures D   folder for journals that show a difference (target/differential/failures)
//!     --quick        stop at the first difference, do not shrink
//!     --all          print every point of the coverage
//!     --brief        print no points of the coverage, only how many were reached
//!     --prefixes     compare every prefix of the files
//!     --write D      write the journals to a folder instead of comparing
//!     --show         print the files in words instead of comparing
//!     --rule R       the reference follows this rule of rust/rules where it has one that the Rust has not (may be repeated)
//!     --leave-out F  these fields of the trace are not compared: names as in the trace, with commas (may be repeated)
//!     --list         list the profiles and the rules
//! The exit status is 0 if nothing differs, 1 if something does, 2 for anything else.

mod shrink;
mod subject;

use std::{
    cell::Cell,
    fs, io,
    path::PathBuf,
    process::ExitCode,
    time::{Duration, Instant},
};

use coverage::Coverage;
use generate::profiles::{named, Often, Profile, PROFILES};
use oracle::{answer::Program, journal::Unobserved, records::describe};
use rules::{Rule, RULES};
use subject::{Difference, Field, Subject};

struct Options {
    subjects: Vec<Subject>,
    seeds: u64,
    first: u64,
    profiles: Vec<&'static Profile>,
    each: bool,
    once: bool,
    failures: PathBuf,
    quick: bool,
    all: bool,
    brief: bool,
    prefixes: bool,
    write: Option<PathBuf>,
    show: bool,
    left_out: Vec<String>,
    files: Vec<PathBuf>,
}

fn options() -> Result<Options, String> {
    let mut given = Options {
        subjects: Vec::new(),
        seeds: 20,
        first: 1,
        profiles: Vec::new(),
        each: true,
        once: true,
        failures: PathBuf::from("target/differential/failures"),
        quick: false,
        all: false,
        brief: false,
        prefixes: false,
        write: None,
        show: false,
        left_out: Vec::new(),
        files: Vec::new(),
    };
    let mut args = oracle::words()?.into_iter();
    while let Some(arg) = args.next() {
        let mut value = || args.next().ok_or(format!("{arg} needs a value"));
        let number = |text: String| text.parse().map_err(|_| format!("{text} is no number"));
        match arg.as_str() {
            "--fuse" => given.subjects.push(subject(Program::Fuse, &value()?)),
            "--trace" => given.subjects.push(subject(Program::Trace, &value()?)),
            "--proximity" => given.subjects.push(subject(Program::Proximity, &value()?)),
            "--seeds" => given.seeds = number(value()?)?,
            "--first" => given.first = number(value()?)?,
            "--profile" => {
                let name = value()?;
                given.profiles.push(named(&name).ok_or(format!("no profile {name}"))?);
            }
            "--each" => given.once = false,
            "--once" => given.each = false,
            "--failures" => given.failures = value()?.into(),
            "--quick" => given.quick = true,
            "--all" => given.all = true,
            "--brief" => given.brief = true,
            "--prefixes" => given.prefixes = true,
            "--write" => given.write = Some(value()?.into()),
            "--show" => given.show = true,
            "--leave-out" => given.left_out.extend(value()?.split(',').map(String::from)),
            "--list" => {
                PROFILES.iter().for_each(|p| println!("{:16} {}", p.name, p.what));
                RULES.iter().for_each(|(_, name, what)| println!("--rule {name}: {what}"));
                std::process::exit(0);
            }
            other if other.starts_with("--") => return Err(format!("unknown option {other}")),
            file => given.files.push(file.into()),
        }
    }
    if given.profiles.is_empty() {
        given.profiles = PROFILES.iter().collect();
    }
    for subject in &mut given.subjects {
        subject.left_out =
            given.left_out.iter().map(|name| Field { name: name.clone(), lines: Cell::new(0) }).collect();
    }
    if given.subjects.is_empty() && given.write.is_none() && !given.show {
        return Err("nothing to compare: give --fuse, --trace or --proximity".into());
    }
    Ok(given)
}

fn subject(program: Program, command: &str) -> Subject {
    let command = command.split_whitespace().map(String::from).collect();
    Subject { program, command, left_out: Vec::new(), lines: Cell::new(0) }
}

fn main() -> ExitCode {
    let given = match options() {
        Ok(given) => given,
        Err(what) => {
            eprintln!("compare: {what}");
            return ExitCode::from(2);
        }
    };
    let started = Instant::now();
    let mut run =
        Run { given, coverage: Coverage::new(), bytes: 0, applied: [0; RULES.len()], differences: 0, started };
    match run.everything() {
        Ok(()) if run.differences == 0 => ExitCode::SUCCESS,
        Ok(()) => ExitCode::from(1),
        Err(what) => {
            eprintln!("compare: {what}");
            ExitCode::from(2)
        }
    }
}

struct Run {
    given: Options,
    coverage: Coverage,
    bytes: u64,
    /// in how many journals each rule gave something else than the Rust
    applied: [u64; RULES.len()],
    differences: u64,
    started: Instant,
}

impl Run {
    fn everything(&mut self) -> io::Result<()> {
        if self.given.show {
            for file in &self.given.files {
                print!("{}", describe(&fs::read(file)?));
            }
            return Ok(());
        }
        if self.given.files.is_empty() {
            self.generated()?;
        }
        for file in std::mem::take(&mut self.given.files) {
            let name = file.file_stem().unwrap_or_default().to_string_lossy().into_owned();
            let whole = fs::read(&file)?;
            let first = if self.given.prefixes { 0 } else { whole.len() };
            for n in first..=whole.len() {
                let name = if n == whole.len() { name.clone() } else { format!("{name}-{n}") };
                self.journal(&name, &whole[..n])?;
            }
        }
        if self.given.write.is_none() {
            self.report()?;
        }
        Ok(())
    }

    fn generated(&mut self) -> io::Result<()> {
        for seed in self.given.first..self.given.first + self.given.seeds {
            for profile in self.given.profiles.clone() {
                let due = match profile.often {
                    Often::EachSeed => self.given.each,
                    Often::Once => self.given.once && seed == self.given.first,
                };
                if !due {
                    continue;
                }
                for (i, journal) in profile.journals(seed).iter().enumerate() {
                    let name = format!("{}-{seed}-{i}", profile.name);
                    self.journal(&name, journal)?;
                    if self.given.quick && self.differences > 0 {
                        return Ok(());
                    }
                }
            }
        }
        Ok(())
    }

    fn journal(&mut self, name: &str, journal: &[u8]) -> io::Result<()> {
        if let Some(folder) = &self.given.write {
            fs::create_dir_all(folder)?;
            return fs::write(folder.join(format!("{name}.journal")), journal);
        }
        self.bytes += journal.len() as u64;
        self.coverage.begin();
        rules::forget();
        for (i, subject) in self.given.subjects.iter().enumerate() {
            // The coverage and the rules are counted once for each journal.
            let found = if i == 0 {
                let found = subject.compare(journal, &mut self.coverage)?;
                self.applied.iter_mut().zip(RULES).for_each(|(n, (rule, ..))| *n += u64::from(rules::applied(rule)));
                let met = [
                    (Rule::MaxIgnoresNan, self.coverage.met_nan()),
                    (Rule::ResetKeepsNonces, self.coverage.carried_nonces()),
                ];
                for (rule, met) in met {
                    if rules::applied(rule) != (rules::on(rule) && met) && found.is_none() {
                        let what =
                            format!("{name}: {rule:?} applied where it has no case, or did not where it has one");
                        return Err(io::Error::other(what));
                    }
                }
                found
            } else {
                subject.compare(journal, &mut Unobserved)?
            };
            if let Some(difference) = found {
                self.differences += 1;
                self.show(name, subject, journal, &difference)?;
                break;
            }
        }
        Ok(())
    }

    fn show(&self, name: &str, subject: &Subject, journal: &[u8], found: &Difference) -> io::Result<()> {
        println!("DIFFERENCE {name} ({:?}, line {})", subject.program, found.line);
        println!("  at       {}", found.tick);
        println!("  expected {}", found.expected);
        println!("  got      {}", found.got);
        if self.given.quick {
            return Ok(());
        }
        let small = shrink::shrink(journal, Duration::from_secs(40), |bytes| {
            subject.compare(bytes, &mut Unobserved).is_ok_and(|found| found.is_some())
        });
        fs::create_dir_all(&self.given.failures)?;
        let whole = self.given.failures.join(format!("{name}.journal"));
        let shrunk = self.given.failures.join(format!("{name}.shrunk.journal"));
        fs::write(&whole, journal)?;
        fs::write(&shrunk, &small)?;
        println!("  journal  {} ({} bytes)", whole.display(), journal.len());
        println!("  shrunk   {} ({} bytes)", shrunk.display(), small.len());
        if let Some(found) = subject.compare(&small, &mut Unobserved)? {
            println!("  there    {}", found.tick);
            println!("  expected {}", found.expected);
            println!("  got      {}", found.got);
        }
        Ok(())
    }

    fn report(&self) -> io::Result<()> {
        let seconds = self.started.elapsed().as_secs_f64();
        if self.given.brief {
            let (reached, of) = self.coverage.counted();
            println!("{reached} of {of} points of the coverage were reached");
        } else {
            self.coverage.print(&mut io::stdout().lock(), self.given.all)?;
            self.coverage.missing().iter().for_each(|what| println!("missing: {what}"));
        }
        for ((rule, name, _), n) in RULES.iter().zip(self.applied) {
            if rules::on(*rule) {
                println!(
                    "rule {name}: applied in {n} of {} journals, the others as the Rust is",
                    self.coverage.journals
                );
            }
        }
        let nan = self.coverage.nan_ticks;
        println!(
            "NaNs that max met: as s in {} ticks, as the z of a live channel in {}, as the brake factor in {}",
            nan.s, nan.live_z, nan.factor
        );
        let acks = self.coverage.ack_ticks();
        println!(
            "acknowledgements: {} consumed, {} of them a second time; spent before a reset, and new again without the rule: \
             {}, of which {} would be consumed",
            acks.consumed, acks.twice, acks.stopped, acks.unconsumed
        );
        if rules::on(Rule::ResetKeepsNonces) && acks.twice > 0 {
            return Err(io::Error::other("an acknowledgement was consumed twice"));
        }
        for (i, name) in self.given.left_out.iter().enumerate() {
            let lines: u64 = self.given.subjects.iter().map(|subject| subject.left_out[i].lines.get()).sum();
            if lines == 0 {
                return Err(io::Error::other(format!("no line to leave out: the programs print no field {name}")));
            }
            println!("left out: {name} in {lines} lines");
        }
        let lines = self.given.subjects.iter().map(|subject| format!("{} {:?}", subject.lines.get(), subject.program));
        println!("lines that are the same: {}", lines.collect::<Vec<_>>().join(", "));
        println!(
            "{} ticks in {} journals of {} bytes, {} programs, {seconds:.1} s ({:.0} ticks/s), {} differences",
            self.coverage.ticks,
            self.coverage.journals,
            self.bytes,
            self.given.subjects.len(),
            self.coverage.ticks as f64 / seconds,
            self.differences,
        );
        Ok(())
    }
}
