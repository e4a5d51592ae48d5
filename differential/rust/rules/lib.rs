//! Rules that the fuse has otherwise than the Rust, by request. Each is off unless a program is called with `--rule NAME`.
//!
//! The edited Rust (edits.py) and the driver ask here, and only where the rule gives something else than the Rust does:
//! a journal in which no rule applied has the Rust's own answer.

use std::cell::Cell;

#[derive(Clone, Copy, Debug, PartialEq)]
pub enum Rule {
    MaxIgnoresNan,
    ResetKeepsNonces,
}

/// In the order of their numbers.
pub const RULES: [(Rule, &str, &str); 2] = [
    (Rule::MaxIgnoresNan, "max-ignores-nan", "the larger of a number and a NaN is the number"),
    (Rule::ResetKeepsNonces, "reset-keeps-nonces", "reset keeps the eight stored nonces"),
];

thread_local! {
    static ON: Cell<[bool; RULES.len()]> = const { Cell::new([false; RULES.len()]) };
    static APPLIED: Cell<[bool; RULES.len()]> = const { Cell::new([false; RULES.len()]) };
}

fn set(rules: &'static std::thread::LocalKey<Cell<[bool; RULES.len()]>>, rule: Rule) {
    let mut all = rules.get();
    all[rule as usize] = true;
    rules.set(all);
}

pub fn on(rule: Rule) -> bool {
    ON.get()[rule as usize]
}

/// Whether the rule is on, asked where it gives something else than the Rust; that it applied is noted.
pub fn applies(rule: Rule) -> bool {
    if on(rule) {
        set(&APPLIED, rule);
    }
    on(rule)
}

/// Whether the rule has applied since the last `forget`.
pub fn applied(rule: Rule) -> bool {
    APPLIED.get()[rule as usize]
}

pub fn forget() {
    APPLIED.take();
}

/// Turns a rule on in this thread.
fn follow(name: &str) -> Result<(), String> {
    let names = || RULES.map(|(_, name, _)| name).join(", ");
    let found =
        RULES.iter().find(|(_, own, _)| *own == name).ok_or_else(|| format!("{name} is none of {}", names()))?;
    set(&ON, found.0);
    Ok(())
}

/// The words that this program was called with; `--rule NAME` among them turns a rule on and is left out.
pub fn words() -> Result<Vec<String>, String> {
    let mut words = Vec::new();
    let mut given = std::env::args().skip(1);
    while let Some(word) = given.next() {
        match word.as_str() {
            "--rule" => follow(&given.next().ok_or("--rule needs a name")?)?,
            _ => words.push(word),
        }
    }
    Ok(words)
}
