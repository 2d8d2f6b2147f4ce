//! Checkpoints for an attempt, made up, drawn as a seed draws them, and found by search so that the third pass, a second turn of
//! beta, a beta beyond 10, the last step or the gluing of the ends decides the course.
use crate::lent::between;
use crate::seeds::WIDE;
use reinfors_core::SplitMix64;

pub const TAU: f64 = 2.0 * std::f64::consts::PI;

/// An attempt's checkpoints: angle, x, y.
pub type Set = [(f64, f64, f64); 12];

/// Number `number` of a family of made-up sets.
pub fn made_up(family: u64, number: u64) -> Set {
    let g = &mut SplitMix64::new(number * 7 + family);
    std::array::from_fn(|c| {
        let twelfth = TAU / 12.0;
        let at = |angle: f64, r: f64, place: f64| (angle, r * libm::cos(place), r * libm::sin(place));
        match family {
            // anything
            0 => (between(g, -8.0, 8.0), between(g, -300.0, 300.0), between(g, -300.0, 300.0)),
            // as drawn, but nearer and farther
            1 => {
                let angle = twelfth * between(g, c as f64, c as f64 + 1.0);
                at(angle, between(g, 10.0, 400.0), angle)
            }
            // as drawn, but elsewhere than at their angles
            2 => {
                let angle = twelfth * between(g, c as f64, c as f64 + 1.0);
                at(angle, between(g, 10.0, 400.0), angle + between(g, 0.0, 6.0))
            }
            // some a tau too low
            3 => {
                let angle = twelfth * c as f64;
                let low = if between(g, 0.0, 1.0) < 0.3 { TAU } else { 0.0 };
                at(angle - low, between(g, 10.0, 200.0), angle)
            }
            // near the middle, round which angles change fast
            4 => {
                let low = between(g, 0.0, 1.0) < 0.5;
                let angle = if low { between(g, -6.3, 0.0) } else { between(g, -1.0, 7.0) };
                (angle, between(g, -30.0, 30.0), between(g, -30.0, 30.0))
            }
            // the other way round
            _ => at(-twelfth * c as f64, between(g, 10.0, 400.0), -twelfth * c as f64),
        }
    })
}

/// The checkpoints that a seed's first attempt draws.
pub fn drawn(seed: u64) -> Set {
    let g = &mut SplitMix64::new(0xCA75_EED0 ^ seed);
    std::array::from_fn(|c| {
        let noise = between(g, 0.0, TAU / 12.0);
        let rad = between(g, 150.0 / 3.0, 150.0);
        let base = TAU * c as f64 / 12.0;
        let (angle, rad) = match c {
            0 => (0.0, 225.0),
            11 => (base, 225.0),
            _ => (base + noise, rad),
        };
        (angle, rad * libm::cos(angle), rad * libm::sin(angle))
    })
}

/// The checkpoints that a seed draws, each a tau lower, so that the second pass finds them; the first of them is the
/// last, at an angle of its own.
pub fn lowered(seed: u64, last: f64) -> Set {
    let cs = drawn(seed);
    let lower = |(angle, x, y): (f64, f64, f64)| (angle - TAU, x, y);
    std::array::from_fn(|c| if c == 11 { (last, cs[0].1, cs[0].2) } else { lower(cs[c + 1]) })
}

/// Made-up sets, by family, of each kind that the first 12,000 of the family hold: accepted and refused; with no, one
/// and two turns of beta in a step; a third pass met; with the fewest points and the most.
pub const FOUND: [&[u64]; 6] = [
    &[60, 171, 9_898, 9_859, 0, 1, 408, 572, 2_829],
    &[5, 15, 10_124, 1_081, 11_481, 0, 5_265],
    &[244, 9_647, 6_029, 10, 5_813, 10_743, 1, 0, 235, 372],
    &[10_828, 8_567, 1, 4, 0, 2],
    &[9_910, 4_567, 8_249, 9_137, 6, 1_851, 0, 7, 2_457, 4_335, 1_358, 1_930],
    &[693, 943, 2, 7, 0, 1],
];

/// Made-up sets, by family and number, accepted: on whose walk beta goes beyond 10.
pub const FAR_TURNED: [(u64, u64); 4] = [(5, 25), (5, 358), (5, 828), (5, 4_239)];

/// Made-up sets, accepted: the 2,500th step of the walk passes the start, or a 2,501st would.
pub const LAST_STEPS: [(u64, u64); 7] = [(0, 5_550), (1, 4_541), (2, 4_072), (2, 5_016), (4, 5_759), (1, 3_723), (1, 4_574)];

/// Sets that a seed draws but for the x of one checkpoint: seed, checkpoint, x. The ends of the course lie just a step of the walk
/// apart, the farthest at which they are still glued. Found by halving between an x with the ends nearer and one with them farther.
pub const GLUED: [(u64, usize, f64); 6] = [
    (3, 10, 61.18287925674932),
    (24, 6, -77.19775215226899),
    (24, 7, -59.48622538806307),
    (40, 10, 91.80521849895543),
    (46, 10, 93.71091407979226),
    (65, 10, 46.71390327006538),
];

/// A seed's checkpoints with another x for one of them.
pub fn moved(seed: u64, c: usize, x: f64) -> Set {
    let mut cs = drawn(seed);
    cs[c].1 = x;
    cs
}

/// All sets that were found by search, and those on which the third pass decides (see `deciding_passes` of lists/lay.rs).
pub fn known() -> Vec<Set> {
    let found = FOUND.iter().zip(0..).flat_map(|(numbers, family)| numbers.iter().map(move |&k| made_up(family, k)));
    let more = FAR_TURNED.into_iter().chain(LAST_STEPS).map(|(family, k)| made_up(family, k));
    let glued = GLUED.map(|(seed, c, x)| moved(seed, c, x));
    let seeds = [0, 1, 2, 4, 5, WIDE - 1];
    let deciding = seeds.into_iter().flat_map(|s| [0.0, -0.01, -0.05, -0.2].map(|last| lowered(s, last)));
    found.chain(more).chain(glued).chain(deciding).collect()
}
