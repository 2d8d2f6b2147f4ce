//! The range of input floats and the field's edge, the bits by which a float is compared and printed, and a car's poses and
//! motions.
use crate::lent::between;
use oracle::oracle::TrackPoint;
use oracle::{Motion, Pose};
use reinfors_core::SplitMix64;

/// The most tiles of a course, and half the width of the playfield (P of document 01).
pub const MOST: u32 = 2_500;
pub const P: f64 = 2000.0 / 6.0;

/// The greatest magnitude of an input float.
pub const FAR: f64 = 1_000_000.0;

const NAN: u64 = 0x7ff8_0000_0000_0000;

/// The bits of x, the same for every NaN. Optimized, rustc may take one NaN for another where the test is
/// `x.is_nan()`, so the test is of bits that it knows nothing about.
pub fn bits(x: f64) -> u64 {
    let b = std::hint::black_box(x.to_bits());
    if b % (1 << 63) > 0x7ff0_0000_0000_0000 {
        NAN
    } else {
        b
    }
}

/// An input float that is not refused.
pub fn near(x: f64) -> bool {
    (-FAR..=FAR).contains(&x)
}

pub fn numbers(p: &Pose) -> [f64; 4] {
    [p.x, p.y, p.cos, p.sin]
}

pub fn five(m: &Motion) -> [f64; 5] {
    [m.joint_angle, m.sin, m.cos, m.vx, m.vy]
}

/// The float d places after x in the order of the floats, where the two zeros are one place.
pub fn step(x: f64, d: i64) -> f64 {
    let size = (x.to_bits() << 1 >> 1) as i64;
    let place = if x.is_sign_negative() { d - size } else { d + size };
    let there = f64::from_bits(place.unsigned_abs());
    if place < 0 {
        -there
    } else {
        there
    }
}

pub fn pick<T: Copy>(g: &mut SplitMix64, from: &[T]) -> T {
    from[g.next_u64() as usize % from.len()]
}

/// A float that is refused.
pub fn beyond(g: &mut SplitMix64) -> f64 {
    pick(g, &[f64::NAN, f64::INFINITY, f64::NEG_INFINITY, step(FAR, 1), -step(FAR, 1), f64::MAX, -1e300])
}

pub fn road_motion(g: &mut SplitMix64) -> Motion {
    let a = between(g, -3.0, 3.0);
    let (sin, cos) = (libm::sin(a) as f32 as f64, libm::cos(a) as f32 as f64);
    Motion { joint_angle: between(g, -0.5, 0.5), sin, cos, vx: between(g, -40.0, 40.0), vy: between(g, -40.0, 40.0) }
}

/// A car at a point, turned by d and moved by (ox, oy).
pub fn car(p: &TrackPoint, d: f64, ox: f64, oy: f64) -> [Pose; 4] {
    let a = (p.beta + d).clamp(-16.0, 16.0);
    let (c, s) = (libm::cos(a), libm::sin(a));
    [[-55.0, 80.0], [55.0, 80.0], [-55.0, -82.0], [55.0, -82.0]].map(|[u, v]| Pose {
        x: (p.x + ox + (c * u - s * v) * 0.02) as f32 as f64,
        y: (p.y + oy + (s * u + c * v) * 0.02) as f32 as f64,
        cos: c as f32 as f64,
        sin: s as f32 as f64,
    })
}

/// A car near a point.
pub fn near_car(g: &mut SplitMix64, p: &TrackPoint, noise: f64) -> [Pose; 4] {
    let d = between(g, -0.3, 0.3);
    car(p, d, between(g, -noise, noise), between(g, -noise, noise))
}
