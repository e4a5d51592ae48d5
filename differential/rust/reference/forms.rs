//! A journal in the other form (02-change-requests.md, Ask 9), written from the request's words with the Rust's casts: a third program
//! beside `widen`, `narrow` and runs/forms.

/// How many bytes a float has: 8 or 4.
#[derive(Clone, Copy, PartialEq)]
pub enum Form {
    Wide,
    Narrow,
}

/// A body as so many bytes that are no float and then so many floats, in turns.
fn parts(kind: u8) -> Option<&'static [(usize, usize)]> {
    Some(match kind {
        1 => &[(44, 22)],
        2 => &[],
        3 | 4 => &[(14, 0)],
        5 => &[(1, 1)],
        6 => &[(9, 2), (8, 28)],
        7 => &[(9, 0)],
        8 => &[(0, 1)],
        _ => return None,
    })
}

/// The float at the front in the other form, unless that cannot hold it.
fn other(from: Form, bytes: &[u8]) -> Option<Vec<u8>> {
    match from {
        Form::Narrow => {
            let x = f32::from_le_bytes(bytes.try_into().ok()?);
            let bits = if x.is_nan() { 0x7FF8_0000_0000_0000 } else { f64::from(x).to_bits() };
            Some(bits.to_le_bytes().to_vec())
        }
        Form::Wide => {
            let x = f64::from_le_bytes(bytes.try_into().ok()?);
            let short = x as f32;
            if x.is_nan() {
                return Some(0x7FC0_0000_u32.to_le_bytes().to_vec());
            }
            (f64::from(short).to_bits() == x.to_bits()).then(|| short.to_le_bytes().to_vec())
        }
    }
}

/// One body in the other form, or nothing where a float cannot be held.
fn body(from: Form, parts: &[(usize, usize)], mut bytes: &[u8]) -> Option<Vec<u8>> {
    let float = if from == Form::Wide { 8 } else { 4 };
    let mut out = Vec::new();
    for &(copied, floats) in parts {
        let (before, rest) = bytes.split_at(copied);
        out.extend_from_slice(before);
        let (run, rest) = rest.split_at(floats * float);
        for x in run.chunks(float) {
            out.extend_from_slice(&other(from, x)?);
        }
        bytes = rest;
    }
    Some(out)
}

/// The records of a journal in the other form, and the number and the place of its refusal.
pub fn converted(from: Form, journal: &[u8]) -> (Vec<u8>, Option<(u8, usize)>) {
    let float = if from == Form::Wide { 8 } else { 4 };
    let mut out = Vec::new();
    let mut place = 0;
    while let Some(&kind) = journal.get(place) {
        let Some(parts) = parts(kind) else { return (out, Some((5, place))) };
        let length: usize = parts.iter().map(|&(copied, floats)| copied + floats * float).sum();
        let Some(bytes) = journal.get(place + 1..place + 1 + length) else { return (out, Some((6, place))) };
        let Some(made) = body(from, parts, bytes) else { return (out, Some((11, place))) };
        out.push(kind);
        out.extend(made);
        place += 1 + length;
    }
    (out, None)
}
