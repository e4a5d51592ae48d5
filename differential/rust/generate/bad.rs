//! Journals that are refused, or nearly.

use oracle::records::*;

use crate::{
    draft::{calm, Draft},
    floats,
    rng::Rng,
    settings::{roomy, small},
    walk::{self, walk, Mix, CALM},
};

/// A journal of a few ticks.
fn short(rng: &Rng) -> Draft {
    let mut draft = Draft::new(small(rng));
    if rng.chance(800) {
        draft.reset();
    }
    walk(&mut draft, rng, &CALM, rng.pick(&[0, 0, 1, 2, 4]));
    draft
}

/// A record's bytes, kind first.
fn bytes_of(kind: u8, write: impl Fn(&mut Vec<u8>)) -> Vec<u8> {
    let mut bytes = vec![kind];
    write(&mut bytes);
    bytes
}

/// Any whole record, in good order or with a code that is not listed.
fn any_record(rng: &Rng, bad_code: bool) -> Vec<u8> {
    let past = |rng: &Rng, last: u8| rng.pick(&[last + 1, last + 2, 128, 255]);
    let draft = Draft::new(small(rng));
    match rng.range(1, 8) as u8 {
        SETTINGS => {
            let mut s = small(rng);
            spoil(&mut s, rng, [bad_code, false, false, false]);
            bytes_of(SETTINGS, |to| s.write(to))
        }
        RESET if !bad_code => vec![RESET],
        HEAD if !bad_code => {
            let head = Head { seq: rng.bits() as u32, t_emit: 0, horizon: rng.bits() as u16, dim: 0, exec: 7 };
            bytes_of(HEAD, |to| head.write(to))
        }
        RESET | ACK => {
            let mut ack = walk::ack(&draft, rng, 500);
            if bad_code {
                ack.decision = past(rng, 2);
            }
            bytes_of(ACK, |to| ack.write(to))
        }
        HEAD | VALUE => {
            let list = if bad_code { past(rng, 4) } else { rng.below(5) as u8 };
            let value = Value { list, x: floats::odd(rng) };
            bytes_of(VALUE, |to| value.write(to))
        }
        OUTCOME => {
            let mut outcome = calm();
            if bad_code {
                outcome.feasible = past(rng, 1);
            }
            bytes_of(OUTCOME, |to| outcome.write(to))
        }
        WIDTH if !bad_code => {
            let w = if rng.chance(300) { floats::bad_width(rng) } else { floats::width(rng) };
            bytes_of(WIDTH, |to| Width { w }.write(to))
        }
        _ => {
            let mut tick = Tick { t: rng.bits() as u32, idx: 0, missed: 0, schema: 0, velocity: 0 };
            if bad_code {
                *(if rng.chance(500) { &mut tick.schema } else { &mut tick.velocity }) = past(rng, 1);
            }
            bytes_of(TICK, |to| tick.write(to))
        }
    }
}

/// Makes settings that are refused for the causes asked for: a code, a size, a float, a box.
fn spoil(s: &mut Settings, rng: &Rng, causes: [bool; 4]) {
    let [code, size, float, bounds] = causes;
    if code {
        match rng.below(4) {
            0 => s.mode = rng.pick(&[2, 255]),
            1 => s.kind = rng.pick(&[5, 255]),
            2 => s.clamp = rng.pick(&[2, 255]),
            _ => s.rearm = rng.pick(&[2, 255]),
        }
    }
    if size {
        match rng.below(4) {
            0 => s.dim = rng.pick(&[0, 9, 255]),
            1 => s.pos_dim = rng.pick(&[0, 9, 255]),
            2 => s.horizon = rng.pick(&[0, 65, 256, 65535]),
            _ => s.exec = rng.pick(&[0, s.horizon + 1, 65535]),
        }
    }
    if bounds {
        let c = rng.below(8);
        s.box_lo[c] = rng.pick(&[floats::up(s.box_hi[c]), s.box_hi[c] + 1.0]);
    }
    if float {
        let wrong = floats::not_finite(rng);
        match rng.below(22) {
            0 => s.dt = wrong,
            1 => s.inv_dt = wrong,
            2 => s.a_max = wrong,
            3 => s.v_stop_eps = wrong,
            4 => s.warn_margin = wrong,
            5 => s.tau = f64::from_bits(rng.bits() | 0x7ff8 << 48),
            c @ 6..14 => s.box_lo[c - 6] = wrong,
            c => s.box_hi[c - 14] = wrong,
        }
    }
}

fn some(rng: &Rng) -> bool {
    rng.chance(500)
}

pub fn refusals(rng: &Rng) -> Vec<Vec<u8>> {
    let cases: [fn(&Rng) -> Vec<u8>; 12] = [
        unknown_kind,
        cut_record,
        before_settings,
        settings_again,
        record_again,
        unlisted_code,
        first_settings,
        full_list,
        tick_lacks,
        settings_at_the_edge,
        lists_at_the_edge,
        far_along,
    ];
    let mut journals: Vec<Vec<u8>> = cases.iter().map(|case| case(rng)).collect();
    for journal in &mut journals {
        // Bytes after a refused record are not looked at.
        for _ in 0..rng.pick(&[0, 0, 3, 300]) {
            journal.push(rng.below(10) as u8);
        }
    }
    journals
}

fn unknown_kind(rng: &Rng) -> Vec<u8> {
    let mut bytes = if some(rng) { short(rng).bytes } else { Vec::new() };
    bytes.push(rng.pick(&[0, 9, 10, 11, 12, 128, 255]));
    bytes
}

fn cut_record(rng: &Rng) -> Vec<u8> {
    let mut bytes = if some(rng) { short(rng).bytes } else { Vec::new() };
    let bad = some(rng);
    let record = any_record(rng, bad);
    bytes.extend_from_slice(&record[..rng.range(1, record.len())]);
    bytes
}

fn before_settings(rng: &Rng) -> Vec<u8> {
    let bad = some(rng);
    loop {
        let record = any_record(rng, bad);
        if record[0] != SETTINGS {
            return record;
        }
    }
}

fn settings_again(rng: &Rng) -> Vec<u8> {
    let mut bytes = short(rng).bytes;
    let mut s = small(rng);
    let causes = std::array::from_fn(|_| rng.chance(300));
    spoil(&mut s, rng, causes);
    bytes.extend(bytes_of(SETTINGS, |to| s.write(to)));
    bytes
}

/// The same kind twice before a tick; sometimes a reset or a tick between, which makes it new.
fn record_again(rng: &Rng) -> Vec<u8> {
    let mut draft = short(rng);
    let plan = draft.good_with_chunk(0, rng);
    let kind = rng.pick(&[ACK, HEAD, OUTCOME]);
    let send = |draft: &mut Draft, rng: &Rng| match kind {
        ACK => draft.ack(walk::ack(draft, rng, 500)),
        HEAD => draft.head(plan.head.expect("with a chunk")),
        _ => draft.outcome(&plan.outcome),
    };
    send(&mut draft, rng);
    match rng.below(5) {
        0 => draft.reset(),
        1 => {
            let mut rest = plan.clone();
            rest.ack = None;
            if kind == HEAD {
                rest.head = None;
            }
            if kind != OUTCOME {
                draft.send(&rest, rng);
            }
        }
        _ => {}
    }
    send(&mut draft, rng);
    if some(rng) {
        let at = draft.bytes.len() - body_len(kind).expect("a kind");
        if kind == ACK {
            draft.bytes[at] = 3;
        } else if kind == OUTCOME {
            draft.bytes[at + 8] = 2;
        }
    }
    draft.bytes
}

fn unlisted_code(rng: &Rng) -> Vec<u8> {
    let mut draft = short(rng);
    if some(rng) {
        draft.outcome(&calm());
    }
    draft.bytes.extend(any_record(rng, true));
    draft.bytes
}

fn first_settings(rng: &Rng) -> Vec<u8> {
    let mut s = small(rng);
    let causes = std::array::from_fn(|_| rng.chance(400));
    spoil(&mut s, rng, causes);
    bytes_of(SETTINGS, |to| s.write(to))
}

fn full_list(rng: &Rng) -> Vec<u8> {
    let mut draft = short(rng);
    let list = rng.below(5) as u8;
    for _ in 0..=CAPACITY[list as usize] {
        let x = floats::odd(rng);
        draft.value(list, x);
    }
    draft.bytes
}

/// A tick without an outcome, a head or a flag that it needs.
fn tick_lacks(rng: &Rng) -> Vec<u8> {
    let mut draft = short(rng);
    let mut plan = draft.good_with_chunk(0, rng);
    if some(rng) {
        plan.velocity(vec![0.0; plan.pos.len()]);
    }
    let [outcome, head, flag] = std::array::from_fn(|_| some(rng));
    for (list, values) in [(CHUNK, &plan.chunk), (POS, &plan.pos), (VEL, &plan.vel)] {
        values.iter().for_each(|x| draft.value(list, *x));
    }
    if outcome {
        draft.outcome(&plan.outcome);
    }
    if head {
        plan.head.into_iter().for_each(|head| draft.head(head));
    }
    if !flag {
        plan.tick.velocity = 0;
    }
    if rng.chance(200) {
        plan.tick.schema = 2;
    }
    draft.tick(plan.tick);
    draft.bytes
}

/// Sizes and floats that are just accepted, and the first that are not.
fn settings_at_the_edge(rng: &Rng) -> Vec<u8> {
    let mut s = small(rng);
    s.dim = rng.pick(&[1, 8, 8, 9]);
    s.pos_dim = rng.pick(&[1, 8, 8, 9]);
    s.horizon = rng.pick(&[1, 64, 64, 65]);
    s.exec = rng.pick(&[1, s.horizon, s.horizon, s.horizon + 1]);
    s.tau = rng.pick(&[f64::INFINITY, f64::NEG_INFINITY, f64::MAX, f64::NAN, -0.0, 1.0]);
    let c = rng.below(8);
    let x = floats::odd_finite(rng);
    (s.box_lo[c], s.box_hi[c]) =
        rng.pick(&[(x, x), (0.0, -0.0), (-0.0, 0.0), (f64::MIN, f64::MAX), (x, floats::up(x))]);
    if s.box_hi[c].is_infinite() {
        s.box_hi[c] = f64::MAX;
    }
    let mut bytes = bytes_of(SETTINGS, |to| s.write(to));
    bytes.push(RESET);
    bytes.extend(bytes_of(OUTCOME, |to| calm().write(to)));
    let tick = Tick { t: 0, idx: 0, missed: 0, schema: rng.below(3) as u8, velocity: rng.below(3) as u8 };
    bytes.extend(bytes_of(TICK, |to| tick.write(to)));
    bytes
}

/// Lists that are exactly full when the tick comes.
fn lists_at_the_edge(rng: &Rng) -> Vec<u8> {
    let mut draft = short(rng);
    for list in [CHUNK, POS, VEL, AUX, EXT] {
        if some(rng) {
            (0..CAPACITY[list as usize]).for_each(|_| draft.value(list, 0.5));
        }
    }
    draft.head(Head {
        seq: 0,
        t_emit: 0,
        horizon: rng.pick(&[64, 512, 65535]),
        dim: rng.pick(&[8, 1, 65535]),
        exec: 1,
    });
    draft.outcome(&calm());
    draft.tick(Tick { t: 0, idx: rng.pick(&[0, 65535]), missed: 0, schema: 0, velocity: 1 });
    walk(&mut draft, rng, &CALM, 2);
    draft.bytes
}

/// A refusal at a place above 16 bits.
fn far_along(rng: &Rng) -> Vec<u8> {
    let mut draft = Draft::new(small(rng));
    draft.reset();
    while draft.bytes.len() < 65536 {
        walk(&mut draft, rng, &CALM, 10);
    }
    let bad = some(rng);
    let record = any_record(rng, bad);
    draft.bytes.extend_from_slice(&record[..rng.range(1, record.len())]);
    draft.bytes
}

/// What makes a width late: another one, a reset, a clean tick, a fault tick.
const LATE: [fn(&mut Draft, &Rng); 4] = [
    |draft, rng| draft.width(floats::width(rng)),
    |draft, _| draft.reset(),
    |draft, rng| {
        let plan = draft.good(0, rng);
        draft.send(&plan, rng);
    },
    |draft, rng| walk(draft, rng, &Mix { guard: 1000, reset_other: 0, ..CALM }, 1),
];

/// A late width, as good as the first or bad, alone and with another cause before.
fn late_widths(rng: &Rng) -> Vec<Vec<u8>> {
    let one = |late: &fn(&mut Draft, &Rng)| {
        let mut draft = Draft::new(small(rng));
        if rng.chance(200) {
            draft.width(floats::width(rng));
        }
        late(&mut draft, rng);
        draft.width(if some(rng) { floats::bad_width(rng) } else { floats::width(rng) });
        walk(&mut draft, rng, &CALM, 2);
        draft.bytes
    };
    LATE.iter().map(one).collect()
}

/// A width anywhere: good or bad, cut, before the settings, while records wait, again, after a reset or a tick. Ticks
/// follow.
pub fn widths(rng: &Rng) -> Vec<Vec<u8>> {
    let mut journals = Vec::new();
    for _ in 0..8 {
        let mut draft = Draft::new(small(rng));
        let mut plan = draft.good(0, rng);
        plan.ack = some(rng).then(|| walk::ack(&draft, rng, 500));
        let [waiting, reset] = std::array::from_fn(|_| some(rng));
        if waiting {
            plan.ack.take().into_iter().for_each(|ack| draft.ack(ack));
            plan.pos.drain(..).for_each(|x| draft.value(POS, x));
            plan.head.take().into_iter().for_each(|head| draft.head(head));
        }
        draft.width(match rng.below(8) {
            0 => floats::bad_width(rng),
            1 => rng.pick(&[0.0, -0.0]),
            _ => floats::width(rng),
        });
        if rng.chance(100) {
            draft.width(floats::width(rng));
        }
        if reset {
            draft.reset();
            plan = draft.good(0, rng);
        }
        draft.send(&plan, rng);
        walk(&mut draft, rng, &CALM, rng.pick(&[0, 1, 5]));
        if rng.chance(200) {
            draft.width(floats::width(rng));
        }
        journals.push(draft.bytes);
    }
    for w in [f64::INFINITY, f64::NEG_INFINITY, floats::any_nan(rng), -f64::from_bits(1), floats::plain(rng, 1.0), -0.0]
    {
        let mut draft = Draft::new(small(rng));
        draft.width(w);
        walk(&mut draft, rng, &CALM, 1);
        journals.push(draft.bytes);
    }
    journals.extend(late_widths(rng));
    let alone = bytes_of(WIDTH, |to| Width { w: rng.pick(&[0.25, -1.0, f64::NAN]) }.write(to));
    let cut = &alone[..rng.range(1, alone.len() - 1)];
    let settings = bytes_of(SETTINGS, |to| small(rng).write(to));
    journals.extend([cut.to_vec(), [&settings[..], cut].concat(), alone]);
    journals
}

/// Every code, flag, size and settings float by itself: values on both sides of what is accepted.
pub fn codes(rng: &Rng) -> Vec<Vec<u8>> {
    const BYTES: [u8; 18] = [0, 1, 2, 3, 4, 5, 6, 7, 8, 9, 10, 16, 64, 127, 128, 129, 254, 255];
    const SIZES: [u16; 9] = [0, 1, 2, 3, 63, 64, 65, 256, 65535];
    let floats = [f64::INFINITY, f64::NEG_INFINITY, f64::NAN, -f64::NAN, f64::MAX, f64::MIN, -0.0, f64::from_bits(1)];
    let good = bytes_of(SETTINGS, |to| Settings { horizon: 3, exec: 2, ..roomy() }.write(to));
    let mut journals = Vec::new();
    let mut with = |at: usize, field: &[u8]| {
        let mut bytes = good.clone();
        bytes[1 + at..1 + at + field.len()].copy_from_slice(field);
        journals.push(bytes);
    };
    for at in 0..6 {
        BYTES.iter().for_each(|x| with(at, &[*x]));
    }
    for at in [12, 14] {
        SIZES.iter().for_each(|x| with(at, &x.to_le_bytes()));
    }
    for at in (44..220).step_by(8) {
        floats.iter().for_each(|x| with(at, &x.to_le_bytes()));
    }
    let start = Draft::new(roomy());
    for x in BYTES {
        let ack = Ack { decision: x, ..walk::ack(&start, rng, 1000) };
        let outcome = Outcome { feasible: x, ..calm() };
        let tick = Tick { t: 0, idx: 0, missed: 0, schema: 0, velocity: 0 };
        let waiting = bytes_of(OUTCOME, |to| calm().write(to));
        for record in [
            bytes_of(ACK, |to| ack.write(to)),
            bytes_of(VALUE, |to| Value { list: x, x: 0.5 }.write(to)),
            bytes_of(OUTCOME, |to| outcome.write(to)),
            [&waiting, &*bytes_of(TICK, |to| Tick { schema: x, ..tick }.write(to))].concat(),
            [&waiting, &*bytes_of(TICK, |to| Tick { velocity: x, ..tick }.write(to))].concat(),
            vec![x],
            bytes_of(x, |to| Width { w: 0.5 }.write(to)),
        ] {
            journals.push([&*start.bytes, &*record].concat());
        }
    }
    for w in floats {
        journals.push([&*start.bytes, &*bytes_of(WIDTH, |to| Width { w }.write(to))].concat());
    }
    journals
}

pub fn bytes(rng: &Rng) -> Vec<Vec<u8>> {
    let mut journals = Vec::new();
    for _ in 0..2 {
        journals.push((0..rng.below(700)).map(|_| rng.bits() as u8).collect());
        journals.push((0..rng.below(700)).map(|_| rng.below(10) as u8).collect());
    }
    for _ in 0..6 {
        let mut bytes = short(rng).bytes;
        for _ in 0..rng.range(1, 4) {
            let at = rng.below(bytes.len());
            match rng.below(5) {
                0 => bytes[at] = rng.bits() as u8,
                1 => bytes[at] ^= 1 << rng.below(8),
                2 => {
                    bytes.remove(at);
                }
                3 => bytes.insert(at, rng.below(10) as u8),
                _ => {
                    let end = (at + rng.below(300)).min(bytes.len());
                    let part = bytes[at..end].to_vec();
                    bytes.splice(at..at, part);
                }
            }
            if bytes.is_empty() {
                break;
            }
        }
        journals.push(bytes);
    }
    journals
}

/// A journal that has each kind of record.
fn all_kinds(rng: &Rng) -> Vec<u8> {
    let mut s = small(rng);
    s.horizon = 1;
    s.exec = 1;
    s.dim = 1;
    s.pos_dim = 1;
    let mut draft = Draft::new(s);
    draft.width(floats::width(rng));
    draft.reset();
    let mut plan = draft.good(0, rng);
    plan.ack = Some(walk::ack(&draft, rng, 500));
    plan.velocity(vec![0.5]);
    plan.aux.push(0.5);
    plan.ext.push(0.5);
    draft.send(&plan, rng);
    draft.reset();
    draft.bytes
}

pub fn cuts(rng: &Rng) -> Vec<Vec<u8>> {
    let whole = if some(rng) { all_kinds(rng) } else { short(rng).bytes };
    (0..6).map(|_| whole[..rng.below(whole.len() + 1)].to_vec()).collect()
}

pub fn prefixes(rng: &Rng) -> Vec<Vec<u8>> {
    let whole = all_kinds(rng);
    (0..=whole.len()).map(|n| whole[..n].to_vec()).collect()
}
