//! The list that crates/number_vectors replays, and what it must answer.
//!
//! The list is 64-bit words, the low byte first: for each record the code of an operation and the bits of its
//! arguments. The answers are those of the Rust: sine, cosine and atan2 of the oracle's shim `libm` (document 01's
//! stand-ins) and the refusal 8 outside their ranges; `cell_of` of the reference's track.rs; Rust's own f64 for
//! the rest. Random values come from the reference's SplitMix64 at fixed seeds, so the files come out the same
//! each time. Of min and max, and of clamp, zeros of both signs at once are left out: the Rust leaves open which
//! of the two it answers.
use super::Stored;
use crate::car::{bits, step, P};
use crate::lent::between;
use oracle::oracle::probe;
use reinfors_core::SplitMix64;
use std::fmt::Write;

const SINE: u64 = 1;
const COSINE: u64 = 2;
const ATAN2: u64 = 3;
const SQRT: u64 = 4;
const CELL: u64 = 5;
const ABS: u64 = 6;
const MIN: u64 = 7;
const MAX: u64 = 8;
const CLAMP: u64 = 9;
const SIGNUM: u64 = 10;
const INSIDE: u64 = 11;

/// The program's buffer, in bytes: a longer list would be cut off.
const ROOM: usize = 262_144;

/// The list and its answers as they grow.
struct Record {
    list: Vec<u8>,
    lines: String,
}

impl Record {
    fn ask(&mut self, code: u64, arguments: &[f64]) {
        self.list.extend(code.to_le_bytes());
        for x in arguments {
            self.list.extend(x.to_bits().to_le_bytes());
        }
    }
    fn value(&mut self, x: f64) {
        writeln!(self.lines, "{:016x}", bits(x)).unwrap();
    }
    /// A value, or the refusal of arguments that are not within `bound`.
    fn angle(&mut self, arguments: &[f64], bound: f64, f: impl Fn(&[f64]) -> f64) {
        if arguments.iter().all(|x| x.is_finite() && x.abs() <= bound) {
            self.value(f(arguments));
        } else {
            writeln!(self.lines, "refused 8").unwrap();
        }
    }
    fn sine_cosine(&mut self, a: f64) {
        self.ask(SINE, &[a]);
        self.angle(&[a], 16.0, |a| libm::sin(a[0]));
        self.ask(COSINE, &[a]);
        self.angle(&[a], 16.0, |a| libm::cos(a[0]));
    }
    fn atan2(&mut self, y: f64, x: f64) {
        self.ask(ATAN2, &[y, x]);
        self.angle(&[y, x], 1_000_000.0, |a| libm::atan2(a[0], a[1]));
    }
    fn sqrt(&mut self, x: f64) {
        self.ask(SQRT, &[x]);
        self.value(x.sqrt());
    }
    fn cell(&mut self, v: f64) {
        self.ask(CELL, &[v]);
        writeln!(self.lines, "{}", probe::cell(v)).unwrap();
    }
    fn abs_signum(&mut self, x: f64) {
        self.ask(ABS, &[x]);
        self.value(x.abs());
        self.ask(SIGNUM, &[x]);
        self.value(x.signum());
    }
    fn min_max(&mut self, a: f64, b: f64) {
        if a == 0.0 && b == 0.0 && a.is_sign_negative() != b.is_sign_negative() {
            return;
        }
        self.ask(MIN, &[a, b]);
        self.value(a.min(b));
        self.ask(MAX, &[a, b]);
        self.value(a.max(b));
    }
    fn clamp(&mut self, x: f64, lo: f64, hi: f64) {
        if x == 0.0 && lo == 0.0 && hi == 0.0 {
            return;
        }
        self.ask(CLAMP, &[x, lo, hi]);
        self.value(x.clamp(lo, hi));
    }
    fn inside(&mut self, x: f64, bound: f64) {
        self.ask(INSIDE, &[x, bound]);
        writeln!(self.lines, "{}", u8::from(-bound <= x && x <= bound)).unwrap();
    }
}

/// 2^e, e from -1074 to 1023.
fn power(e: i64) -> f64 {
    if e < -1022 {
        f64::from_bits(1 << (e + 1074))
    } else {
        f64::from_bits(((e + 1023) as u64) << 52)
    }
}

/// Zeros, subnormals, the least and the greatest normal numbers, infinities and NaNs.
fn specials() -> Vec<f64> {
    let sizes = [
        0,
        1,
        2,
        3,
        0x0000_0000_8000_0000,
        0x0001_2345_6789_abcd,
        0x0007_ffff_ffff_ffff,
        0x0008_0000_0000_0000,
        0x000f_ffff_ffff_ffff,
        0x0010_0000_0000_0000,
        0x0010_0000_0000_0001,
        0x3ff0_0000_0000_0000,
        0x7fef_ffff_ffff_ffff,
        0x7ff0_0000_0000_0000,
        0x7ff0_0000_0000_0001,
        0x7ff8_0000_0000_0000,
        0x7fff_ffff_ffff_ffff,
    ];
    sizes.iter().flat_map(|&b| [f64::from_bits(b), f64::from_bits(b | 1 << 63)]).collect()
}

/// The values that the helpers are tried on in pairs.
fn few() -> [f64; 14] {
    let least = f64::from_bits(1);
    [
        0.0,
        -0.0,
        least,
        -least,
        f64::MIN_POSITIVE,
        1.0,
        -1.0,
        1.5,
        -400.0,
        f64::MAX,
        f64::MIN,
        f64::INFINITY,
        f64::NEG_INFINITY,
        f64::NAN,
    ]
}

/// Specials, the ends of the range, the multiples of a quarter of pi (between which the reduction
/// changes), powers of two, and random angles.
fn angles(r: &mut Record) {
    for x in specials() {
        r.sine_cosine(x);
    }
    for end in [16.0, -16.0] {
        for d in -3..=3 {
            r.sine_cosine(step(end, d));
        }
    }
    for x in [16.5, -17.0, 100.0, -1e6, 1e300] {
        r.sine_cosine(x);
    }
    for k in -20..=20 {
        let a = f64::from(k) * std::f64::consts::FRAC_PI_4;
        for d in [-9, -2, -1, 0, 1, 2, 9] {
            r.sine_cosine(step(a, d));
        }
    }
    for e in -60..=3 {
        for d in -1..=1 {
            let x = step(power(e), d);
            r.sine_cosine(if e % 2 == 0 { x } else { -x });
        }
    }
    let mut g = SplitMix64::new(1);
    for _ in 0..300 {
        r.sine_cosine(between(&mut g, -16.0, 16.0));
    }
}

/// Zeros of both signs, axes, diagonals, the ends of the range, and what is refused.
fn directions_at_edges(r: &mut Record) {
    let least = f64::from_bits(1);
    let edges = [0.0, -0.0, 1.0, -1.0, 2.0, -2.0, least, -least, f64::MIN_POSITIVE, 1e6, -1e6];
    for y in edges {
        for x in edges {
            r.atan2(y, x);
        }
    }
    for d in -2..=2 {
        for end in [1e6, -1e6] {
            r.atan2(step(end, d), 0.5);
            r.atan2(-0.5, step(end, d));
            r.atan2(step(end, d), step(-end, d));
        }
    }
    for odd in [f64::NAN, -f64::NAN, f64::INFINITY, f64::NEG_INFINITY, f64::MAX, f64::MIN, 1e7] {
        for x in [0.0, -3.0, odd] {
            r.atan2(odd, x);
            r.atan2(x, odd);
        }
    }
}

/// The ratio at which the rule changes its base, and the diagonals, each in all octants; random pairs, also of
/// sizes far apart and of subnormals.
fn directions(r: &mut Record) {
    for t in [0.41421356237309503, 1.0] {
        for d in -3..=3 {
            for (sy, sx) in [(1.0, 1.0), (1.0, -1.0), (-1.0, 1.0), (-1.0, -1.0)] {
                r.atan2(sy * step(t, d), sx);
                r.atan2(sy, sx * step(t, d));
            }
        }
    }
    let mut g = SplitMix64::new(2);
    for i in 0..300 {
        let size = [1.0, 400.0, 1e6][i % 3];
        let (y, x) = (between(&mut g, -size, size), between(&mut g, -size, size));
        r.atan2(y, x);
    }
    for _ in 0..100 {
        let y = between(&mut g, -1.0, 1.0) * power((g.next_u64() % 1040) as i64 - 1021);
        let x = between(&mut g, -1.0, 1.0) * power((g.next_u64() % 1040) as i64 - 1021);
        r.atan2(y, x);
    }
    for _ in 0..20 {
        let (y, x) = (f64::from_bits(g.next_u64() >> 13), f64::from_bits(g.next_u64() >> 13));
        r.atan2(y, -x);
    }
}

/// Specials; powers of two with their neighbours; random bits, of either sign and of subnormals.
fn roots(r: &mut Record) {
    for x in specials() {
        r.sqrt(x);
    }
    for e in -1074..=1023 {
        if (e + 1074) % 7 == 0 || (-60..=60).contains(&e) {
            for d in -1..=1 {
                r.sqrt(step(power(e), d));
            }
        }
    }
    let mut g = SplitMix64::new(3);
    for i in 0..300 {
        let bits = g.next_u64();
        r.sqrt(f64::from_bits(if i % 15 == 0 { bits } else { bits >> 1 }));
    }
    for i in 0..100 {
        r.sqrt(f64::from_bits(g.next_u64() >> (12 + i % 50)));
    }
}

/// Whole squares with their neighbours.
fn roots_of_squares(r: &mut Record) {
    let mut g = SplitMix64::new(4);
    for i in 0..80u64 {
        let n = if i < 20 { i } else { g.next_u64() % (1 << 26) } as f64;
        for d in -1..=1 {
            r.sqrt(step(n * n, d));
        }
    }
}

/// An odd h whose square leaves d modulo 2^bits, for a d that leaves 1 modulo 8: found bit by bit.
fn root_modulo(d: i128, bits: u32) -> i128 {
    let mut h = 1;
    for k in 3..bits {
        if (h * h - d) % (1 << (k + 1)) != 0 {
            h += 1 << (k - 1);
        }
    }
    h
}

/// The roots that are hardest to round. With h odd and of 54 binary digits, h/2 is halfway between two floats'
/// digits; where h * h - d ends in 54 or 55 zeros and d is small, its other digits are those of a float whose
/// root is as close to halfway as a root comes.
fn roots_near_halfway(r: &mut Record) {
    let mut g = SplitMix64::new(8);
    for i in -50..50 {
        let d = 1 + 8 * i;
        for bits in [54, 55] {
            let (h, all) = (root_modulo(d, bits), 1 << bits);
            for h in [h, -h, h + all / 2, all / 2 - h] {
                let h = h.rem_euclid(all);
                let digits = (h * h - d) >> bits;
                if 1 << 53 < h && h < 1 << 54 && 1 << 52 <= digits && digits < 1 << 53 {
                    let scale = power(i64::from(bits) - 106 + 2 * ((g.next_u64() % 800) as i64 - 400));
                    r.sqrt(digits as f64 * scale);
                }
            }
        }
    }
}

/// The cell by the reading that document 01 does not mean: v against the edges, rounded.
fn cell_by_edges(v: f64) -> usize {
    (1..=66).filter(|&k| v >= 10.0 * f64::from(k) - P).count()
}

/// Specials, the marked examples, the playfield's ends; around each edge the floats next to it and those among
/// 40 to each side that part the two readings; random coordinates.
fn cells(r: &mut Record) {
    for v in specials() {
        r.cell(v);
    }
    for v in [-400.0, 7.0, 1000.0, -1000.0, 1e6, -1e6] {
        r.cell(v);
    }
    for d in -2..=2 {
        r.cell(step(P, d));
        r.cell(step(-P, d));
    }
    let mut parted = 0;
    for k in 1..=66 {
        let edge = 10.0 * f64::from(k) - P;
        for d in -40..=40 {
            let v = step(edge, d);
            let parts = cell_by_edges(v) != probe::cell(v);
            parted += u32::from(parts);
            if parts || (-1..=1).contains(&d) {
                r.cell(v);
            }
        }
    }
    eprintln!("{parted} floats part the two readings of a cell");
    let mut g = SplitMix64::new(5);
    for _ in 0..100 {
        r.cell(between(&mut g, -340.0, 340.0));
    }
}

/// abs, signum, min, max: specials, pairs of a few, random bits.
fn methods(r: &mut Record) {
    for x in specials() {
        r.abs_signum(x);
    }
    for a in few() {
        for b in few() {
            r.min_max(a, b);
        }
    }
    let mut g = SplitMix64::new(6);
    for _ in 0..50 {
        let (a, b) = (f64::from_bits(g.next_u64()), f64::from_bits(g.next_u64()));
        r.abs_signum(a);
        r.min_max(a, b);
    }
}

/// clamp where lo is at most hi, as the Rust asks, and inside at any bound.
fn ranges(r: &mut Record) {
    let inf = f64::INFINITY;
    let ends = [(0.0, 0.0), (-0.0, 0.0), (-0.0, 1.0), (-1.0, 0.0), (-1.0, -0.0), (-1.0, 1.0), (1.0, 1.0)];
    let far = [(f64::MIN_POSITIVE, f64::MAX), (-inf, f64::MIN), (-inf, inf), (0.0, inf), (-inf, -inf)];
    for x in few() {
        for (lo, hi) in ends.into_iter().chain(far) {
            r.clamp(x, lo, hi);
        }
        for bound in few() {
            r.inside(x, bound);
        }
    }
    for bound in [16.0, 1e6, P] {
        for d in -1..=1 {
            r.inside(step(bound, d), bound);
            r.inside(step(-bound, d), bound);
            r.clamp(step(bound, d), -bound, bound);
            r.clamp(step(-bound, d), -bound, bound);
        }
    }
    let mut g = SplitMix64::new(7);
    for _ in 0..30 {
        let (x, b) = (between(&mut g, -20.0, 20.0), between(&mut g, 0.0, 20.0));
        r.inside(x, b);
        r.clamp(x, -b, 0.5 * b);
    }
}

pub fn make() -> Stored {
    let mut r = Record { list: Vec::new(), lines: String::new() };
    angles(&mut r);
    directions_at_edges(&mut r);
    directions(&mut r);
    roots(&mut r);
    roots_of_squares(&mut r);
    roots_near_halfway(&mut r);
    cells(&mut r);
    methods(&mut r);
    ranges(&mut r);
    // An unknown code ends the run: the record behind it has no answer.
    r.ask(0, &[]);
    r.ask(ABS, &[1.0]);
    Stored::new(r.list, ROOM, r.lines)
}
