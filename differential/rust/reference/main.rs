//! The reference program.
//!
//!     reference [--rule NAME ..] [fuse|trace|proximity] < journal
//!     reference widen|narrow < journal
//!     reference root|margin < doubles
//!
//! Prints what `fuse`, `trace` or `proximity` prints for a journal. `root` and `margin` take doubles, 16 hexadecimal digits a line, and
//! print each with its square root (by its bits) or with its margin text. `widen` and `narrow` write the journal in the other form, and the
//! line of a refusal to standard error. `--rule` turns a rule of rust/rules on.

use std::{
    io::{self, Read, Write},
    process::ExitCode,
};

use oracle::{
    answer::{Answer, Program},
    forms::{self, Form},
    journal::Unobserved,
    lines,
};

fn main() -> ExitCode {
    let words = match oracle::words() {
        Ok(words) => words,
        Err(what) => {
            eprintln!("reference: {what}");
            return ExitCode::from(2);
        }
    };
    let done = match words.first().map_or("fuse", String::as_str) {
        "fuse" => journal(Program::Fuse),
        "trace" => journal(Program::Trace),
        "proximity" => journal(Program::Proximity),
        "widen" => other_form(Form::Narrow),
        "narrow" => other_form(Form::Wide),
        "root" => doubles(|out, x| lines::float(out, lictor_core::fmath::sqrt(x))),
        "margin" => doubles(lines::margin),
        other => Err(io::Error::other(format!("{other} is none of fuse, trace, proximity, widen, narrow, root, margin"))),
    };
    match done {
        Ok(()) => ExitCode::SUCCESS,
        Err(what) => {
            eprintln!("reference: {what}");
            ExitCode::from(2)
        }
    }
}

fn journal(program: Program) -> io::Result<()> {
    let mut bytes = Vec::new();
    io::stdin().lock().read_to_end(&mut bytes)?;
    let mut stdout = io::stdout().lock();
    let mut answer = Answer::new(program, &bytes);
    let mut out = Vec::with_capacity(1 << 17);
    while answer.step(&mut out, &mut Unobserved) {
        if out.len() >= 1 << 16 {
            stdout.write_all(&out)?;
            out.clear();
        }
    }
    stdout.write_all(&out)
}

fn other_form(from: Form) -> io::Result<()> {
    let mut bytes = Vec::new();
    io::stdin().lock().read_to_end(&mut bytes)?;
    let (records, refused) = forms::converted(from, &bytes);
    io::stdout().write_all(&records)?;
    if let Some((number, place)) = refused {
        eprintln!("refused {number} {place}");
    }
    Ok(())
}

/// One line for each double: its digits, then what `show` makes of it.
fn doubles(show: fn(&mut Vec<u8>, f64)) -> io::Result<()> {
    let mut out = Vec::new();
    for line in io::stdin().lines() {
        let line = line?;
        let bits = u64::from_str_radix(&line, 16).map_err(|e| io::Error::other(format!("{line}: {e}")))?;
        out.extend_from_slice(line.as_bytes());
        out.push(b' ');
        show(&mut out, f64::from_bits(bits));
        out.push(b'\n');
    }
    io::stdout().write_all(&out)
}
