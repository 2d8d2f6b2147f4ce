//! What both sides are given: numbers, courses with a car on each of their points, and motions.
use crate::lent::{stated, Lent};
use crate::port::{self, Columns, Laid, Opening};
use oracle::oracle::{Track, TrackPoint};
use oracle::{Motion, Pose};
use reinfors_core::SplitMix64;
use std::sync::Arc;

/// Any seed: a run keeps it, and nothing is tested or graded by it.
const SEED: u64 = 7;

const WHEELS: [[f64; 2]; 4] = [[-55.0, 80.0], [55.0, 80.0], [-55.0, -82.0], [55.0, -82.0]];

/// Positive numbers from 1 to 2^24.
pub fn numbers() -> Vec<f64> {
    let mut g = SplitMix64::new(7);
    (0..1_024).map(|_| f64::from_bits((g.next_u64() % (1 << 52)) | ((1_023 + g.next_u64() % 24) << 52))).collect()
}

/// The wheels of a car that stands on a point of the track, the front ones turned; widened from f32 as a host's are.
pub fn wheels(p: &TrackPoint, turn: f64) -> [Pose; 4] {
    let (c, s) = (p.beta.cos(), p.beta.sin());
    std::array::from_fn(|i| {
        let [wx, wy] = WHEELS[i];
        let a = if i < 2 { p.beta + turn } else { p.beta };
        let wide = |v: f64| f64::from(v as f32);
        Pose {
            x: wide(p.x + (c * wx - s * wy) * 0.02),
            y: wide(p.y + (s * wx + c * wy) * 0.02),
            cos: wide(a.cos()),
            sin: wide(a.sin()),
        }
    })
}

/// A wheel's quad at each point of the track.
pub fn quads(track: &Track) -> Vec<[[f64; 2]; 4]> {
    let corners = [[-0.28, 0.54], [0.28, 0.54], [0.28, -0.54], [-0.28, -0.54]];
    track.points.iter().map(|p| corners.map(|[x, y]: [f64; 2]| [p.x + p.beta.cos() * x - p.beta.sin() * y, p.y + p.beta.sin() * x + p.beta.cos() * y])).collect()
}

/// Four wheels' motions, as fast as `most` m/s; the wheels slip where they are fast.
pub fn motions(many: usize, most: f64) -> Vec<[Motion; 4]> {
    let wide = |v: f64| f64::from(v as f32);
    let wheel = |k: usize, i: usize| {
        let a = (k * 4 + i) as f64 * 0.37;
        Motion { joint_angle: 0.3 * (a * 1.7).sin(), sin: wide(a.sin()), cos: wide(a.cos()), vx: wide(most * (a * 0.3).sin()), vy: wide(most * (a * 0.7).cos()) }
    };
    (0..many).map(|k| std::array::from_fn(|i| wheel(k, i))).collect()
}

pub fn port_motions(m: &[Motion; 4]) -> [port::Motion; 4] {
    m.map(|m| port::Motion { joint_angle: m.joint_angle, sin: m.sin, cos: m.cos, vx: m.vx, vy: m.vy })
}

pub fn port_poses(p: &[Pose; 4]) -> [port::Pose; 4] {
    p.map(|p| port::Pose { x: p.x, y: p.y, cos: p.cos, sin: p.sin })
}

/// A course in both forms, and a car on each of its points.
pub struct Ground {
    pub track: Arc<Track>,
    pub lent: Lent,
    pub laid: Laid,
    pub cars: Vec<[Pose; 4]>,
}

impl Ground {
    /// Of a seed that the Rust has too: of 32 bits.
    pub fn laid(seed: u32) -> Ground {
        let long = stated(60_000);
        let mut lent = Lent::untouched(&long);
        let laid = port::lay(seed.into(), &mut lent, &long);
        Ground::of(Track::generate(seed), lent, laid)
    }
    /// Of given points.
    pub fn given(track: Track, entries: usize) -> Ground {
        let long = stated(entries);
        let mut lent = Lent::untouched(&long);
        let columns = columns(&track.points);
        let laid = port::points([&columns[0], &columns[1], &columns[2]], track.points.len() as u32, &mut lent, &long);
        Ground::of(track, lent, laid)
    }
    fn of(track: Track, lent: Lent, laid: Laid) -> Ground {
        assert_eq!((laid.cause, laid.n as usize), (0, track.points.len()));
        let cars = track.points.iter().enumerate().map(|(i, p)| wheels(p, ((i % 7) as f64 - 3.0) * 0.1)).collect();
        Ground { track: Arc::new(track), lent, laid, cars }
    }
    pub fn course(&self) -> Columns<'_> {
        Columns { tiles: &self.lent.floats[4], offsets: &self.lent.offsets, list: &self.lent.ids }
    }
    /// The port's run at its start, with no limit of ticks that matters.
    pub fn start(&self, share: f64) -> port::State {
        let opening = Opening { lap_share: share, tick_limit: 1_000_000, poses: port_poses(&self.cars[0]) };
        let s = port::start(self.course(), self.laid.n, self.laid.fallback, SEED, opening);
        assert_eq!(s.cause, 0);
        s.run
    }
    /// The Rust's.
    pub fn begin(&self, share: f64) -> oracle::oracle::Run {
        oracle::oracle::Run::start(self.track.clone(), share, HULL, self.cars[0])
    }
}

/// The hull stands in the middle of the field: only its place is looked at.
pub const HULL: Pose = Pose { x: 0.0, y: 0.0, cos: 1.0, sin: 0.0 };

/// The columns of a list of points: beta, x, y.
pub fn columns(points: &[TrackPoint]) -> [Vec<f64>; 3] {
    [points.iter().map(|p| p.beta).collect(), points.iter().map(|p| p.x).collect(), points.iter().map(|p| p.y).collect()]
}
