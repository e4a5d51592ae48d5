//! The second program beside the crate `roots`: a list of binary64 patterns, and their roots by `f64::sqrt`.
//!
//!     rustc -O differential/roots.rs -o target/roots-rust
//!     target/roots-rust list > crates/roots/stdin
//!     target/roots-rust answers < crates/roots/stdin > crates/roots/stdout
//!
//! and, for any number of random patterns from a seed,
//!
//!     target/roots-rust random 5000000 7 > patterns
//!     target/roots-rust answers < patterns > expected
//!     target/bin/roots < patterns | cmp - expected
//!
//! The list, one pattern to a line of 16 lower-case hexadecimal digits:
//! - zeros, infinities, NaNs of both signs, quiet and signalling, and the ends of the subnormal and the normal numbers;
//! - every power of two from 2^-1074 to 2^1023, and its negative at each hundredth;
//! - squares m^2 * 4^j of m with 26 binary digits, which are exact, with both neighbours;
//! - doubles whose root is next to the middle between two neighbouring doubles, on either side of it;
//! - random patterns of all kinds, random numbers above zero, and random subnormal ones.
//! The last line has a digit in upper case and so is no pattern: the answer to it is `bad line`.
use std::io::{self, BufRead, BufWriter, Read, Write};

const PLACE: u64 = 1 << 52;
const INF: u64 = 0x7ff0_0000_0000_0000;
const SIGN: u64 = 1 << 63;

/// Marsaglia's xorshift: the same numbers at every run.
struct Random(u64);

impl Random {
    fn next(&mut self) -> u64 {
        self.0 ^= self.0 << 13;
        self.0 ^= self.0 >> 7;
        self.0 ^= self.0 << 17;
        self.0
    }
}

fn special(list: &mut Vec<u64>) {
    for b in [0, 1, 2, 3, PLACE - 1, PLACE, PLACE + 1, INF - 1, INF, INF + 1, INF + PLACE / 2, SIGN - 1] {
        list.push(b);
        list.push(b | SIGN);
    }
    // 1, 2, 2.25, 0.1 and their neighbours
    for x in [1.0f64, 2.0, 2.25, 0.1] {
        for b in x.to_bits() - 1..=x.to_bits() + 1 {
            list.push(b);
            list.push(b | SIGN);
        }
    }
}

fn powers_of_two(list: &mut Vec<u64>) {
    for place in 0..52 {
        list.push(1 << place);
    }
    for field in 1..2047 {
        list.push(field * PLACE);
        if field % 100 == 0 {
            list.push(field * PLACE | SIGN);
        }
    }
}

/// m * m * 4^j for an m of 26 binary digits has 52 digits at most and is a double; so are its neighbours.
fn squares(list: &mut Vec<u64>, random: &mut Random) {
    for _ in 0..400 {
        let m = (1 << 25) + random.next() % (1 << 25);
        let j = random.next() % 460;
        let scale = f64::from_bits((2 * j + 64) * PLACE);
        let b = ((m * m) as f64 * scale).to_bits();
        list.extend([b - 1, b, b + 1]);
    }
}

/// The z below 2^k with z * z = r modulo 2^k, for an r that is 1 modulo 8: one of them, found bit by bit, gives all four.
fn roots_modulo(r: i128, k: u32) -> [u64; 4] {
    let mut z: i128 = 1;
    for bit in 3..k {
        if (z * z - r) % (1 << (bit + 1)) != 0 {
            z += 1 << (bit - 1);
        }
    }
    let half = 1 << (k - 1);
    [z, -z, z + half, half - z].map(|z| z.rem_euclid(1 << k) as u64)
}

/// Doubles whose root is next to a tie. The tie is at z = 2g + 1 halves, for a g of 53 binary digits, and z * z is no double: it has 107 or 108 digits, and the
/// lower k of them, 54 or 55, fall away. Where they are a small r, or 2^k less a small r, the double z * z - r has a root that is off the tie by r / 2z halves only.
fn halfway_points(list: &mut Vec<u64>, random: &mut Random) {
    for j in -150..150 {
        let r = 8 * j + 1;
        for k in [54, 55] {
            for z in roots_modulo(r, k) {
                let square = z as i128 * z as i128 - r;
                if z >= 2 * PLACE && 128 - square.leading_zeros() == 53 + k {
                    // times a power of four, so that the root keeps its digits: the value is digits * 2^(field - 1075)
                    let field = 401 + 2 * (random.next() % 600) + k as u64 % 2;
                    list.push(field * PLACE + (square >> k) as u64 % PLACE);
                }
            }
        }
    }
}

fn random_ones(list: &mut Vec<u64>, random: &mut Random) {
    for _ in 0..600 {
        list.push(random.next());
        list.push(random.next() % INF);
        list.push(random.next() % PLACE >> (random.next() % 52));
    }
}

fn list() -> Vec<u64> {
    let mut list = Vec::new();
    let mut random = Random(88_172_645_463_325_252);
    special(&mut list);
    powers_of_two(&mut list);
    squares(&mut list, &mut random);
    halfway_points(&mut list, &mut random);
    random_ones(&mut list, &mut random);
    list
}

/// The pattern that a line of 17 bytes, newline included, says.
fn read(line: &[u8]) -> Option<u64> {
    let digits = line.strip_suffix(b"\n").filter(|d| d.len() == 16)?;
    if !digits.iter().all(|c| matches!(c, b'0'..=b'9' | b'a'..=b'f')) {
        return None;
    }
    u64::from_str_radix(std::str::from_utf8(digits).ok()?, 16).ok()
}

fn answers(mut input: impl BufRead, mut out: impl Write) -> io::Result<()> {
    loop {
        let mut line = Vec::new();
        input.by_ref().take(17).read_to_end(&mut line)?;
        if line.is_empty() {
            return out.flush();
        }
        let Some(b) = read(&line) else {
            writeln!(out, "bad line")?;
            return out.flush();
        };
        let root = f64::from_bits(b).sqrt();
        if root.is_nan() {
            writeln!(out, "{b:016x} nan")?;
        } else {
            writeln!(out, "{b:016x} {:016x}", root.to_bits())?;
        }
    }
}

fn main() -> io::Result<()> {
    let args: Vec<String> = std::env::args().skip(1).collect();
    let words: Vec<&str> = args.iter().map(String::as_str).collect();
    let mut out = BufWriter::new(io::stdout().lock());
    match words[..] {
        ["list"] => {
            for b in list() {
                writeln!(out, "{b:016x}")?;
            }
            writeln!(out, "0123456789abcdeF")
        }
        ["answers"] => answers(io::stdin().lock(), out),
        ["random", count, seed] => {
            let mut random = Random(seed.parse().expect("a seed above 0"));
            for _ in 0..count.parse::<u64>().expect("a count") {
                let b = random.next();
                writeln!(out, "{:016x}", if b & 7 == 0 { b } else { b % INF })?;
            }
            Ok(())
        }
        _ => panic!("roots list | roots answers | roots random COUNT SEED"),
    }
}
