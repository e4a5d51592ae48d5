//! The reference: the Rust's `decide` under the journal of 01-scope.md.
//!
//! Records, reader and printing are written from 01-scope.md, the tick is the Rust's.

pub mod answer;
pub mod forms;
pub mod journal;
pub mod lines;
pub mod proximity;
pub mod records;

use rules::Rule;

/// `rules::words`, and whether the Rust that this is linked with can follow the rules.
pub fn words() -> Result<Vec<String>, String> {
    let words = rules::words()?;
    if rules::on(Rule::MaxIgnoresNan) && lictor_core::fmath::max(0.0, f64::NAN).is_nan() {
        return Err("this was built without the rules (build.py --fast)".into());
    }
    Ok(words)
}
