//! Makes a journal that shows a difference smaller.

use std::time::{Duration, Instant};

use oracle::records::*;

/// A record as bytes; what the end cuts, or what has no kind, is one piece.
fn split(journal: &[u8]) -> Vec<Vec<u8>> {
    let mut pieces = Vec::new();
    let mut rest = journal;
    while let Some(kind) = rest.first() {
        let whole = body_len(*kind).map(|n| 1 + n).filter(|n| *n <= rest.len());
        let (piece, after) = rest.split_at(whole.unwrap_or(rest.len()));
        pieces.push(piece.to_vec());
        rest = after;
    }
    pieces
}

/// The same records with a clock and chunk numbers that run on without gaps, as after a dropped tick they do not.
fn retimed(pieces: &[Vec<u8>]) -> Vec<Vec<u8>> {
    let mut pieces = pieces.to_vec();
    let (mut t, mut seq, mut first) = (0u32, 0u32, true);
    let mut head = None;
    for at in 0..pieces.len() {
        match pieces[at][0] {
            RESET => (t, seq, first, head) = (0, 0, true, None),
            HEAD if pieces[at].len() == 1 + Head::LEN => head = Some(at),
            TICK if pieces[at].len() == 1 + Tick::LEN => {
                let mut tick = Tick::read(&pieces[at][1..]);
                t = if first { 0 } else { t.wrapping_add(1).wrapping_add(u32::from(tick.missed)) };
                first = false;
                tick.t = t;
                if let Some(place) = head.take() {
                    let mut record = Head::read(&pieces[place][1..]);
                    tick.idx = tick.idx.min(t.min(65535) as u16);
                    record.seq = seq;
                    record.t_emit = t - u32::from(tick.idx);
                    seq = seq.wrapping_add(1);
                    pieces[place].truncate(1);
                    record.write(&mut pieces[place]);
                }
                pieces[at].truncate(1);
                tick.write(&mut pieces[at]);
            }
            _ => {}
        }
    }
    pieces
}

/// The smallest number of records, counted from the start, for which `fails` holds.
fn shortest_prefix(pieces: &[Vec<u8>], fails: &impl Fn(&[u8]) -> bool) -> usize {
    let (mut low, mut high) = (0, pieces.len());
    while low < high {
        let middle = (low + high) / 2;
        if fails(&pieces[..middle].concat()) {
            high = middle;
        } else {
            low = middle + 1;
        }
    }
    high
}

/// A smaller journal for which `fails` still holds: cut off, records dropped, then fields set to zero. Stops after
/// `time`.
pub fn shrink(journal: &[u8], time: Duration, fails: impl Fn(&[u8]) -> bool) -> Vec<u8> {
    let end = Instant::now() + time;
    let mut pieces = split(journal);
    pieces.truncate(shortest_prefix(&pieces, &fails));
    let try_it = |candidate: Vec<Vec<u8>>, pieces: &mut Vec<Vec<u8>>| {
        let better = Instant::now() < end && fails(&candidate.concat());
        if better {
            *pieces = candidate;
        }
        better
    };
    let mut size = pieces.len() / 2;
    while size > 0 && Instant::now() < end {
        let mut dropped = false;
        let mut end = pieces.len();
        while end > 0 {
            let start = end.saturating_sub(size);
            let mut fewer = pieces[..start].to_vec();
            fewer.extend_from_slice(&pieces[end..]);
            let retimed = retimed(&fewer);
            dropped |= try_it(fewer, &mut pieces) || try_it(retimed, &mut pieces);
            end = start.min(pieces.len());
        }
        if !dropped || size > 1 {
            size /= 2;
        }
    }
    for at in 0..pieces.len() {
        let mut zeros = pieces.clone();
        zeros[at][1..].fill(0);
        if zeros == pieces || try_it(zeros, &mut pieces) {
            continue;
        }
        let mut from = 1;
        while from < pieces[at].len() && Instant::now() < end {
            // Single bytes in the small fields at the front, floats as a whole.
            let to = if pieces[at].len() > 200 && from > 44 { from + 8 } else { from + 1 };
            let to = to.min(pieces[at].len());
            let mut zeros = pieces.clone();
            zeros[at][from..to].fill(0);
            if zeros != pieces {
                try_it(zeros, &mut pieces);
            }
            from = to;
        }
    }
    pieces.truncate(shortest_prefix(&pieces, &fails));
    pieces.concat()
}
