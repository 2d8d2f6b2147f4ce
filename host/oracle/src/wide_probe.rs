//! A child module of the widened `track`, so that it sees what is private there. What it answers has the first module's types, so that a
//! wide seed's course is lent, compared and driven on as any other.
use super::*;
use crate::oracle as first;

/// The course of a seed. Points, tiles and index are the widened module's own, number by number; curbs are left out, as the first module
/// makes them of the points alone.
pub fn generate(seed: u64) -> first::Track {
    in_first_types(Track::generate(seed))
}

/// The course of a seed with so many attempts.
pub fn within(seed: u64, attempts: u32) -> first::Track {
    in_first_types(Track::generate_with_attempts(seed, attempts))
}

/// Attempts made for a seed (64 and true where all were refused).
pub fn attempts(seed: u64) -> (u32, bool) {
    let mut rng = SplitMix64::new(seed ^ 0xCA75_EED0);
    for k in 0..MAX_ATTEMPTS {
        if try_generate(&mut rng).is_some() {
            return (k + 1, false);
        }
    }
    (MAX_ATTEMPTS, true)
}

fn in_first_types(t: Track) -> first::Track {
    let points = t.points.iter().map(|p| first::TrackPoint { beta: p.beta, x: p.x, y: p.y }).collect();
    let tiles = t.tiles.iter().map(|t| first::Tile { quad: t.quad }).collect();
    let mut track = first::probe::made(points, tiles, t.grid_offsets, t.grid_data);
    track.fallback = t.fallback;
    track
}
