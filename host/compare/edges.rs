//! Floats, poses and motions at edges.
use crate::car::{near, pick, step, FAR, P};
use crate::lent::between;
use oracle::{Motion, Pose};
use reinfors_core::SplitMix64;

/// An input float at an edge, not refused.
pub fn edge(g: &mut SplitMix64) -> f64 {
    let any = [between(g, -1.0, 1.0), between(g, -FAR, FAR), between(g, -400.0, 400.0)];
    let edges = [0.0, -0.0, FAR, -FAR, 5e-324, -3e-310, f64::MIN_POSITIVE, 0.6, -0.6, 1e-160, P, -P, step(P, 1), 1.0];
    if g.next_u64() % 3 == 0 {
        pick(g, &any)
    } else {
        pick(g, &edges)
    }
}

/// A float of a state or a tile: any at all.
pub fn wild(g: &mut SplitMix64) -> f64 {
    let some = edge(g);
    let far = [f64::NAN, f64::INFINITY, f64::NEG_INFINITY, f64::MAX, f64::MIN, 1e200, -1e155, 0.1, 12.0, -12.0, 15.0];
    match g.next_u64() % 4 {
        0 => f64::from_bits(g.next_u64()),
        1 => some,
        _ => pick(g, &far),
    }
}

pub fn edge_pose(g: &mut SplitMix64) -> Pose {
    let k = pick(g, &[1.0, 1.0, 1e-4, 3e-4]);
    Pose { x: edge(g) * k, y: edge(g) * k, cos: edge(g) * k, sin: edge(g) * k }
}

pub fn edge_motion(g: &mut SplitMix64) -> Motion {
    Motion { joint_angle: edge(g), sin: edge(g), cos: edge(g), vx: edge(g), vy: edge(g) }
}

/// 0 of either sign.
pub fn nought(g: &mut SplitMix64) -> f64 {
    pick(g, &[0.0, -0.0])
}

/// The motion with its joint at the angle wished for, beside it by one float, or at a 0 of either sign: the difference of the two
/// angles is then 0, its smallest, or, of noughts, -0.
pub fn met_motion(g: &mut SplitMix64, m: Motion, wished: f64) -> Motion {
    let angle = pick(g, &[wished, wished, step(wished, 1), step(wished, -1), 0.0, -0.0]);
    Motion { joint_angle: if near(angle) { angle } else { 0.0 }, ..m }
}
