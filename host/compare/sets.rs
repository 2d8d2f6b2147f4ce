//! Sets of checkpoints for one attempt: those that a search has found, and random ones.
use crate::car::pick;
use crate::checkpoints::{known, lowered, made_up, moved, Set, TAU};
use crate::lent::between;
use reinfors_core::SplitMix64;
use std::sync::LazyLock;

/// The sets of checkpoints that a search has found, which come first.
pub static KNOWN: LazyLock<Vec<Set>> = LazyLock::new(known);

/// Random checkpoints: anything; drawn wider than a seed draws them; near the middle; all at one low angle (a third pass); with some
/// that are not finite; a seed's, a tau lower or with one moved; of the families by which the known ones were found.
pub fn random_set(g: &mut SplitMix64, kind: u64) -> Set {
    let low = between(g, -9.0, -3.0);
    let (seed, moving, family) = (g.next_u64(), 1 + g.next_u64() as usize % 10, g.next_u64() % 6);
    let anything = |g: &mut SplitMix64, _| (between(g, -8.0, 8.0), between(g, -300.0, 300.0), between(g, -300.0, 300.0));
    let middle = |g: &mut SplitMix64, _| (between(g, -6.3, 7.0), between(g, -30.0, 30.0), between(g, -30.0, 30.0));
    let lower = |g: &mut SplitMix64, _| (low, between(g, -200.0, 200.0), between(g, -200.0, 200.0));
    let mut twelve = |of: &dyn Fn(&mut SplitMix64, usize) -> (f64, f64, f64)| std::array::from_fn(|c| of(g, c));
    match kind % 8 {
        0 => twelve(&anything),
        1 => twelve(&wider),
        2 => twelve(&middle),
        3 => twelve(&lower),
        4 => twelve(&not_finite),
        5 => lowered(seed, between(g, -0.4, 0.0)),
        6 => moved(seed, moving, between(g, -150.0, 150.0)),
        _ => made_up(family, g.next_u64() % 1_000_000),
    }
}

/// A checkpoint in its twelfth, nearer or farther than a seed draws it.
fn wider(g: &mut SplitMix64, c: usize) -> (f64, f64, f64) {
    let angle = TAU / 12.0 * between(g, c as f64, c as f64 + 1.0);
    let r = between(g, 10.0, 400.0);
    (angle, r * libm::cos(angle), r * libm::sin(angle))
}

/// A checkpoint on a circle, one in three a tau lower, one in twelve not finite or far.
fn not_finite(g: &mut SplitMix64, c: usize) -> (f64, f64, f64) {
    let any = |g: &mut SplitMix64| pick(g, &[f64::NAN, f64::INFINITY, -f64::INFINITY, 1e300, -7.0, 0.0, -0.0]);
    let angle = TAU / 12.0 * c as f64 - if g.next_u64() % 3 == 0 { TAU } else { 0.0 };
    if g.next_u64() % 12 == 0 {
        (any(g), any(g), any(g))
    } else {
        (angle, 150.0 * libm::cos(angle), 150.0 * libm::sin(angle))
    }
}
