//! Seeds of 64 bits. A seed below 2^32 has the reference's course. From 2^32 on the reference says nothing, and a seed's course is that
//! of the oracle's second track, which is the reference's with its seed widened (../oracle/build.sh).
use oracle::oracle::{probe, Track};
use oracle::wide::probe as widened;
use reinfors_core::SplitMix64;

/// The least seed that 32 bits do not hold.
pub const WIDE: u64 = 1 << 32;

/// Wide seeds at an end, and with the same low half as another seed.
pub const WIDE_ENDS: [u64; 8] = [WIDE, WIDE + 7, 1 << 63, u64::MAX, WIDE + 1, (1 << 63) + 7, u64::MAX - 7, WIDE | 0xCA75_EED0];

/// The course of a seed.
pub fn course(seed: u64) -> Track {
    u32::try_from(seed).map_or_else(|_| widened::generate(seed), Track::generate)
}

/// The course of a seed with so many attempts.
pub fn within(seed: u64, attempts: u32) -> Track {
    u32::try_from(seed).map_or_else(|_| widened::within(seed, attempts), |low| probe::within(low, attempts))
}

/// Attempts made for a seed (64 and true where all were refused).
pub fn attempts(seed: u64) -> (u32, bool) {
    u32::try_from(seed).map_or_else(|_| widened::attempts(seed), probe::attempts)
}

/// A seed below 2^32, one in four near an end.
pub fn low(g: &mut SplitMix64) -> u64 {
    let any = g.next_u64();
    match g.next_u64() % 8 {
        0 => any % 4,
        1 => WIDE - 1 - any % 4,
        _ => any % WIDE,
    }
}

/// A seed of 2^32 or more, one in two near an end or with a single bit in its high half.
pub fn wide(g: &mut SplitMix64) -> u64 {
    let any = g.next_u64();
    match g.next_u64() % 8 {
        0 | 1 => WIDE + any % 16,
        2 => u64::MAX - any % 16,
        3 => any % WIDE | WIDE << (any >> 59),
        _ => any.max(WIDE),
    }
}

/// Half of them below 2^32, half not.
pub fn some(g: &mut SplitMix64) -> u64 {
    if g.next_u64() % 2 == 0 {
        low(g)
    } else {
        wide(g)
    }
}

/// Points, tiles, index and fallback are the same, bit for bit.
pub fn same_course(a: &Track, b: &Track) -> bool {
    let points = |t: &Track| -> Vec<u64> { t.points.iter().flat_map(|p| [p.beta, p.x, p.y]).map(f64::to_bits).collect() };
    let tiles = |t: &Track| -> Vec<u64> { t.tiles.iter().flat_map(|t| t.quad.into_iter().flatten()).map(f64::to_bits).collect() };
    a.fallback == b.fallback && points(a) == points(b) && tiles(a) == tiles(b) && probe::raw_ref(a) == probe::raw_ref(b)
}
