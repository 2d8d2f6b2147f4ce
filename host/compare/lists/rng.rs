//! What crates/rng_vectors must print, by the reference's SplitMix64 (rng.rs) as published. That program reads no list.
use super::Stored;
use crate::lent::between;
use reinfors_core::{Rng, SplitMix64};
use std::fmt::Write;

/// Seeds, the state that a course's generator starts in, and its first draw: the table of order 3's page of tests.
const FIRST_DRAWS: [(u64, u64, u64); 6] = [
    (0, 0xca75_eed0, 0xe75c_b5e7_d55d_33aa),
    (7, 0xca75_eed7, 0xa3fb_5e74_90e7_5a83),
    ((1 << 32) - 1, 0x358a_112f, 0xd879_7ac9_efeb_cd64),
    (1 << 32, 0x1_ca75_eed0, 0xf2a5_c4ae_5267_af77),
    ((1 << 32) + 7, 0x1_ca75_eed7, 0xe745_947f_bd85_a1a6),
    (u64::MAX, 0xffff_ffff_358a_112f, 0xfa4d_ab7a_1f8f_f299),
];

fn draws(lines: &mut String, seed: u64) {
    let mut g = SplitMix64::new(seed);
    for _ in 0..5 {
        writeln!(lines, "{}", g.next_u64()).unwrap();
    }
}

fn of_course(seed: u64) -> SplitMix64 {
    SplitMix64::new(0xCA75_EED0 ^ seed)
}

fn units(lines: &mut String, seed: u64) {
    let mut g = of_course(seed);
    for _ in 0..48 {
        writeln!(lines, "{:016x}", g.unit().to_bits()).unwrap();
    }
}

// The generator whose next draw is `draw`: `next_u64` taken back, its two products by their inverses modulo 2^64.
fn drawing(draw: u64) -> SplitMix64 {
    let unshifted = |z: u64, k: u32| z ^ (z >> k) ^ (z >> (2 * k));
    let z = unshifted(draw, 31).wrapping_mul(0x3196_42B2_D24D_8EC3);
    let z = unshifted(z, 27).wrapping_mul(0x96DE_1B17_3F11_9089);
    SplitMix64::new(unshifted(z, 30).wrapping_sub(0x9E37_79B9_7F4A_7C15))
}

// The unit of a draw is the reference's own, with its division.
fn unit(lines: &mut String, draw: u64) {
    assert_eq!(drawing(draw).next_u64(), draw);
    writeln!(lines, "{:016x}", drawing(draw).unit().to_bits()).unwrap();
}

// `uniform` of track.rs is private there; `between` is its expression.
fn uniform(lines: &mut String, seed: u64, lo: f64, hi: f64) {
    writeln!(lines, "{:016x}", between(&mut of_course(seed), lo, hi).to_bits()).unwrap();
}

pub fn make() -> Stored {
    let mut lines = String::new();
    draws(&mut lines, 1234567);
    draws(&mut lines, 0);
    for seed in [0, 42, 0xCA75_EED0, u32::MAX.into()] {
        units(&mut lines, seed);
    }
    uniform(&mut lines, 7, 50.0, 150.0);
    uniform(&mut lines, 7, 0.0, 0.5235987755982988);
    for (a, b) in [(u64::MAX, u64::MAX), (0x9E37_79B9_7F4A_7C15, 0xBF58_476D_1CE4_E5B9)] {
        writeln!(lines, "{}", a.wrapping_mul(b)).unwrap();
    }
    for draw in [0, 2047, 2048, 4095, 4096, 0xCA75_EED0, 1 << 63, u64::MAX - 2047, u64::MAX] {
        unit(&mut lines, draw);
    }
    for (seed, state, draw) in FIRST_DRAWS {
        assert!(of_course(seed) == SplitMix64::new(state) && of_course(seed).next_u64() == draw, "{seed}");
        writeln!(lines, "{draw}").unwrap();
    }
    Stored { list: None, answers: lines }
}
