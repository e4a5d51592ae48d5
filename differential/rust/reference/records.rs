//! The records of a journal (01-scope.md, "Journal", and Ask 7 of 02-change-requests.md): the kind byte tells how long
//! the body after it is.

pub const SETTINGS: u8 = 1;
pub const RESET: u8 = 2;
pub const ACK: u8 = 3;
pub const HEAD: u8 = 4;
pub const VALUE: u8 = 5;
pub const OUTCOME: u8 = 6;
pub const TICK: u8 = 7;
pub const WIDTH: u8 = 8;

/// The length of the body of a kind, if there is such a kind.
pub fn body_len(kind: u8) -> Option<usize> {
    match kind {
        SETTINGS => Some(Settings::LEN),
        RESET => Some(0),
        ACK => Some(Ack::LEN),
        HEAD => Some(Head::LEN),
        VALUE => Some(Value::LEN),
        OUTCOME => Some(Outcome::LEN),
        TICK => Some(Tick::LEN),
        WIDTH => Some(Width::LEN),
        _ => None,
    }
}

/// The five lists that values collect in: code and capacity.
pub const CHUNK: u8 = 0;
pub const POS: u8 = 1;
pub const VEL: u8 = 2;
pub const AUX: u8 = 3;
pub const EXT: u8 = 4;
pub const CAPACITY: [usize; 5] = [512, 16, 16, 16, 16];

/// A field of a body: little-endian, floats by their bits.
trait Field: Sized {
    const LEN: usize;
    fn read(from: &[u8]) -> Self;
    fn write(&self, to: &mut Vec<u8>);
}

macro_rules! number_fields {
    ($($number:ty),*) => { $(
        impl Field for $number {
            const LEN: usize = size_of::<$number>();
            fn read(from: &[u8]) -> Self {
                <$number>::from_le_bytes(from[..Self::LEN].try_into().unwrap())
            }
            fn write(&self, to: &mut Vec<u8>) {
                to.extend_from_slice(&self.to_le_bytes());
            }
        }
    )* };
}
number_fields!(u8, u16, u32, u64, f64);

impl<const N: usize> Field for [f64; N] {
    const LEN: usize = 8 * N;
    fn read(from: &[u8]) -> Self {
        std::array::from_fn(|i| f64::read(&from[8 * i..]))
    }
    fn write(&self, to: &mut Vec<u8>) {
        for x in self {
            x.write(to);
        }
    }
}

/// A record by its fields in the order of their bytes.
macro_rules! record {
    ($(#[$doc:meta])* $name:ident { $($field:ident: $type:ty),* $(,)? }) => {
        $(#[$doc])*
        #[derive(Clone, Copy, Debug)]
        pub struct $name { $(pub $field: $type),* }

        impl $name {
            pub const LEN: usize = 0 $(+ <$type as Field>::LEN)*;

            pub fn read(body: &[u8]) -> Self {
                let mut at = 0;
                $(
                    let $field = <$type as Field>::read(&body[at..]);
                    at += <$type as Field>::LEN;
                )*
                assert_eq!(at, Self::LEN);
                Self { $($field),* }
            }

            pub fn write(&self, to: &mut Vec<u8>) {
                $(self.$field.write(to);)*
            }
        }
    };
}

record! {
    /// Kind 1. Codes are numbers here: the reader refuses those that are not listed.
    Settings {
        mode: u8, kind: u8, clamp: u8, rearm: u8, dim: u8, pos_dim: u8,
        k: u8, clear: u8, streak: u8, confirm: u8, watchdog: u8, max_rearms: u8,
        horizon: u16, exec: u16, max_clamps: u16, brake: u16, rearm_hold: u16, hold: u16,
        handoff: u32, tier0_enabled: u32, calib_mask: u32,
        window_mask: u64,
        dt: f64, inv_dt: f64, a_max: f64, v_stop_eps: f64, warn_margin: f64, tau: f64,
        box_lo: [f64; 8], box_hi: [f64; 8],
    }
}

record! {
    /// Kind 3.
    Ack { decision: u8, slot: u8, nonce: u64, handoff: u32 }
}

record! {
    /// Kind 4.
    Head { seq: u32, t_emit: u32, horizon: u16, dim: u16, exec: u16 }
}

record! {
    /// Kind 5.
    Value { list: u8, x: f64 }
}

record! {
    /// Kind 6.
    Outcome {
        trips: u32, clamped_dims: u32, feasible: u8, margin: f64, s: f64, valid: u32, fired: u32,
        z: [f64; 12], policy_row: [f64; 8], clamped_row: [f64; 8],
    }
}

record! {
    /// Kind 7.
    Tick { t: u32, idx: u16, missed: u8, schema: u8, velocity: u8 }
}

record! {
    /// Kind 8.
    Width { w: f64 }
}

// The lengths that the papers state.
const _: () = assert!(Settings::LEN == 220 && Ack::LEN == 14 && Head::LEN == 14);
const _: () = assert!(Value::LEN == 9 && Outcome::LEN == 257 && Tick::LEN == 9 && Width::LEN == 8);

/// A journal in words, one record a line with its place, for a reader.
pub fn describe(journal: &[u8]) -> String {
    let mut text = String::new();
    let mut at = 0;
    while at < journal.len() {
        let kind = journal[at];
        let body = body_len(kind).and_then(|n| journal.get(at + 1..at + 1 + n));
        let Some(body) = body else {
            text += &format!("{at} kind {kind}, {} bytes to the end\n", journal.len() - at);
            break;
        };
        let record = match kind {
            SETTINGS => format!("{:?}", Settings::read(body)),
            ACK => format!("{:?}", Ack::read(body)),
            HEAD => format!("{:?}", Head::read(body)),
            VALUE => format!("{:?}", Value::read(body)),
            OUTCOME => format!("{:?}", Outcome::read(body)),
            TICK => format!("{:?}", Tick::read(body)),
            WIDTH => format!("{:?}", Width::read(body)),
            _ => "Reset".into(),
        };
        text += &format!("{at} {record}\n");
        at += 1 + body.len();
    }
    text
}
