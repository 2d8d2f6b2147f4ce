//! Whole runs, call by call: start, drive, settle, sheet and reward, on courses of seeds and of given points, at edge poses and
//! motions, on damaged tiles and indexes and from hand-made states, with refused calls among them. Every answer and the whole
//! state after each call are held to the model (model.rs): the Rust's where a call is accepted, document 01's
//! causes where it is not. Every twentieth tick the run goes through a save and a restore, and on from there: bytes and refusals are held
//! to saved.rs, the restored wheel sets to the Rust's `contact_pass_derived`.
use crate::both::Both;
use crate::car::{beyond, bits, near_car, pick, road_motion, P};
use crate::edges::{edge, edge_motion, edge_pose, met_motion, nought, wild};
use crate::lent::between;
use crate::model::{Begin, Model, State, STATED};
use crate::points::made_up;
use crate::port;
use crate::saved;
use crate::seeds;
use crate::spoilt::spoilt;
use crate::tally::{Tally, Unit};
use oracle::oracle::{overlap, probe, reward, Track, TrackPoint};
use oracle::{Motion, Pose};
use reinfors_core::SplitMix64;

/// A hand-made state, any counts and flags, any floats, any sets.
fn made_state(b: &mut Both, g: &mut SplitMix64, n: u32) {
    let mut s = b.model.state.clone();
    let some = g.next_u64() as u32 % (n + 2);
    (s.n, s.count) = (pick(g, &[n, n, n, n, 1, 0, 2_501]), pick(g, &[some, some, n, 0]));
    (s.tick, s.limit) = (pick(g, &[0, 1, 5, u32::MAX]), pick(g, &[2, 1_000_000, u32::MAX]));
    let flags = g.next_u64();
    (s.lap, s.ended, s.driven) = (flags % 4 == 0, flags % 16 == 5, flags % 3 != 0);
    let noughts = flags % 7 < 2;
    s.ctl = s.ctl.map(|c| {
        c.map(|x| match g.next_u64() % 3 {
            _ if noughts => nought(g),
            0 => wild(g),
            _ => x,
        })
    });
    (s.fuel, s.share) = (wild(g), pick(g, &[0.0, 0.5, 0.95, f64::NAN, -1.0]));
    for w in s.credited.iter_mut().chain(&mut s.wheels) {
        *w = pick(g, &[*w, *w, 0, u64::MAX, 0x5555_5555_5555_5555]);
    }
    if half(g) {
        s.poses = s.poses.map(|p| if half(g) { edge_pose(g) } else { p });
        s.seed = seeds::some(g);
    }
    b.put(s);
}

/// A number of the tiles, an offset or an id of the list becomes another.
fn damage(m: &mut Model, g: &mut SplitMix64, n: u32) {
    m.made = None;
    match g.next_u64() % 4 {
        0 | 1 => m.tiles[g.next_u64() as usize % (8 * n as usize)] = wild(g),
        2 => {
            let at = g.next_u64() as usize % STATED[1];
            m.offsets[at] = pick(g, &[0, m.offsets[at].wrapping_add(1), m.offsets[at].saturating_sub(1), u32::MAX]);
        }
        _ => {
            let entries = (m.offsets[STATED[1] - 1] as usize).clamp(1, m.ids.len());
            m.ids[g.next_u64() as usize % entries] = pick(g, &[n, u32::MAX, 0, n - 1, g.clone().next_u64() as u32 % n]);
        }
    }
}

fn half(g: &mut SplitMix64) -> bool {
    g.next_u64() % 2 == 0
}

/// Motions with one number out of range, of any wheel.
fn bad_motions(g: &mut SplitMix64) -> [Motion; 4] {
    let mut motions = [Motion::default(); 4];
    let m = &mut motions[g.next_u64() as usize % 4];
    let number = match g.next_u64() % 5 {
        0 => &mut m.joint_angle,
        1 => &mut m.sin,
        2 => &mut m.cos,
        3 => &mut m.vx,
        _ => &mut m.vy,
    };
    *number = beyond(g);
    motions
}

/// The poses with one number out of range, of any wheel.
fn bad_poses(g: &mut SplitMix64, mut poses: [Pose; 4]) -> [Pose; 4] {
    let p = &mut poses[g.next_u64() as usize % 4];
    let number = match g.next_u64() % 4 {
        0 => &mut p.x,
        1 => &mut p.y,
        2 => &mut p.cos,
        _ => &mut p.sin,
    };
    *number = beyond(g);
    poses
}

/// A call that is refused by one cause or by the first of several, out of turn, or lent another length; or a sheet.
fn odd_call(b: &mut Both, g: &mut SplitMix64, poses: &[Pose; 4]) {
    let whole = b.whole();
    match g.next_u64() % 8 {
        0 | 1 => {
            let action = g.next_u64() as u32 % 5 + if half(g) { 5 } else { 0 };
            let motions = if half(g) { bad_motions(g) } else { [Motion::default(); 4] };
            b.drive(action, &motions)
        }
        2 | 3 | 4 => {
            let (mut lent, mut hull) = (whole, [0.0, 0.0]);
            if half(g) {
                let k = g.next_u64() as usize % 2;
                lent[k] = STATED[k] - 1;
            }
            if half(g) {
                hull[g.next_u64() as usize % 2] = beyond(g);
            }
            let poses = if half(g) { bad_poses(g, *poses) } else { *poses };
            b.settle(lent, hull[0], hull[1], &poses)
        }
        5 => b.settle([STATED[0], STATED[1], g.next_u64() as usize % whole[2]], 0.0, 0.0, poses),
        6 => b.settle(whole, 0.0, 0.0, poses),
        _ => b.sheet(),
    }
}

/// A start, good or with one or two of its arguments bad.
fn begin(g: &mut SplitMix64, n: u32, lent: [usize; 3], bad: bool) -> Begin {
    let share = pick(g, &[0.95, 1.0, 0.5, 0.0, 0.25]);
    let limit = pick(g, &[1_000_000, 1_000, 40]);
    let seed = if half(g) { seeds::wide(g) } else { pick(g, &[0, seeds::low(&mut g.clone())]) };
    let mut b = Begin { lent, n, fallback: n == 100, seed, share, limit };
    for _ in 0..if bad { 1 + g.next_u64() % 2 } else { 0 } {
        match g.next_u64() % 5 {
            0 => b.share = pick(g, &[f64::NAN, -0.1, 1.0000000000000002, f64::INFINITY]),
            1 => b.limit = pick(g, &[0, 1_000_001, u32::MAX]),
            2 => b.n = pick(g, &[0, 2_501, u32::MAX]),
            3 => b.lent[g.next_u64() as usize % 2] = 4_000,
            _ => b.lent[2] = 0,
        }
    }
    b
}

/// The points of a unit's course: a seed's or given ones. Whatever the seed, the track that the Rust drives on is made of them by the
/// reference's own `from_points`.
fn points_of(g: &mut SplitMix64, unit: Unit) -> Vec<TrackPoint> {
    if unit.number % 3 == 0 {
        made_up(g, 8 + g.clone().next_u64() % 1_000)
    } else {
        seeds::course(seeds::some(g)).points
    }
}

/// What the ticks of a unit have in common.
struct Ground {
    points: Vec<TrackPoint>,
    track: Track,
    /// The stated lengths, and the list's own.
    exact: [usize; 3],
    /// Edge poses and motions; damaged columns; hand-made states.
    wild: bool,
    damaged: bool,
    made: bool,
    noise: f64,
}

impl Ground {
    fn new(g: &mut SplitMix64, unit: Unit) -> Ground {
        let points = points_of(g, unit);
        let track = probe::given(points.clone(), false);
        let exact = [STATED[0], STATED[1], probe::raw_ref(&track).1.len()];
        let (wild, damaged, made) = (unit.number % 4 == 1, unit.number % 5 == 2, unit.number % 7 == 3);
        Ground { points, track, exact, wild, damaged, made, noise: pick(g, &[0.0, 0.5, 3.0, 8.0]) }
    }
    /// The four wheels at a place of the course, or anywhere.
    fn poses(&self, g: &mut SplitMix64, p: &TrackPoint) -> [Pose; 4] {
        let poses = near_car(g, p, self.noise);
        if self.wild && g.next_u64() % 3 == 0 {
            poses.map(|p| if g.next_u64() % 2 == 0 { edge_pose(g) } else { p })
        } else {
            poses
        }
    }
    /// The wheels' motions; in one tick of four some joints stand at the angle that is wished for.
    fn motions(&self, g: &mut SplitMix64, action: u32, s: &State) -> [Motion; 4] {
        let wished = [0.0, -0.6, 0.6][if action < 3 { action as usize } else { 0 }];
        let met = g.next_u64() % 4 == 0;
        [0, 1, 2, 3].map(|i| {
            let m = if self.wild { edge_motion(g) } else { road_motion(g) };
            if met { met_motion(g, m, if i < 2 { wished } else { s.ctl[i][2] }) } else { m }
        })
    }
}

/// No drive or settle is accepted any more.
fn over(s: &State) -> bool {
    s.ended || s.unfit() || s.tick >= s.limit
}

/// Another start where the run is over, but for one time in sixteen, so that calls after the end are refused too; before one in six
/// a bad one.
fn start_anew(b: &mut Both, g: &mut SplitMix64, ground: &Ground, first: bool, poses: &[Pose; 4]) {
    if !first && !(over(&b.model.state) && g.next_u64() % 16 > 0) {
        return;
    }
    let bad = g.next_u64() % 6 == 0;
    for wrong in [true, false] {
        if bad || !wrong {
            let lent = if g.next_u64() % 2 == 0 { ground.exact } else { b.whole() };
            let asked = begin(g, ground.points.len() as u32, lent, wrong);
            let poses = if wrong && half(g) { bad_poses(g, *poses) } else { *poses };
            b.start(&asked, &poses);
        }
    }
}

/// A tick: a drive and a settle, odd calls among them, and before them a start where the run is over.
fn tick(b: &mut Both, g: &mut SplitMix64, ground: &Ground, place: usize, first: bool) {
    let p = &ground.points[place];
    let poses = ground.poses(g, p);
    start_anew(b, g, ground, first, &poses);
    if g.next_u64() % 12 == 0 {
        odd_call(b, g, &poses);
    }
    let action = (g.next_u64() % 5) as u32;
    let motions = ground.motions(g, action, &b.model.state);
    b.drive(action, &motions);
    if g.next_u64() % 24 == 0 {
        odd_call(b, g, &poses);
    }
    let (x, y) = if g.next_u64() % 200 == 0 { (edge(g), edge(g)) } else { (p.x.clamp(-P, P), p.y.clamp(-P, P)) };
    let lent = if g.next_u64() % 2 == 0 { ground.exact } else { b.whole() };
    b.settle(lent, x, y, &poses);
}

/// A save into an output about the length asked for, and restores of spoilt bytes, or for another course, or lent other lengths; the
/// state before them stands again.
fn odd_saves(b: &mut Both, g: &mut SplitMix64) {
    let before = b.model.state.clone();
    b.save(pick(g, &[0, 1, 641, saved::ROOM - 1, saved::ROOM + 1, 700]));
    let Some(bytes) = b.save(saved::ROOM) else { return };
    let mut lent = b.whole();
    if half(g) {
        let k = g.next_u64() as usize % 2;
        lent[k] = STATED[k] - 1;
    }
    let n = if half(g) { before.n } else { pick(g, &[0, before.n + 1, 2_500]) };
    b.restore(&bytes, lent, n);
    let bytes = spoilt(g, bytes);
    b.restore(&bytes, lent, n);
    b.restore(&bytes, b.whole(), before.n);
    b.put(before);
}

/// So many ticks along the course, by ones, by jumps, or at edges.
pub fn run(t: &mut Tally, g: &mut SplitMix64, unit: Unit, ticks: u64) {
    let ground = Ground::new(g, unit);
    let n = ground.points.len();
    let mut model = Model::new([STATED[0] + 9, STATED[1] + 3, ground.exact[2] + 5]);
    model.lay(&ground.track);
    let mut b = Both::new(t, unit, model);
    let mut place = 0;
    b.sheet();
    for k in 0..ticks {
        if ground.damaged && k % 8 == 5 {
            damage(&mut b.model, g, n as u32);
        }
        // a damaged index refuses more and more
        if ground.damaged && k % 64 == 63 {
            b.model.lay(&ground.track);
        }
        if ground.made && k % 6 == 4 {
            made_state(&mut b, g, n as u32);
        }
        place = if g.next_u64() % 40 == 0 { g.next_u64() as usize } else { place + 1 } % n;
        tick(&mut b, g, &ground, place, k == 0);
        if k % 20 == 19 {
            // hand-made states, and sets found on other columns, come back changed
            let lent = if half(g) { ground.exact } else { b.whole() };
            b.keep(lent, !ground.damaged && !ground.made);
        }
        if k % 50 == 24 {
            odd_saves(&mut b, g);
        }
        if k % 32 == 31 {
            b.sheet();
        }
    }
}

/// Rewards at any weights, and overlaps of quads at edges.
pub fn beside(t: &mut Tally, g: &mut SplitMix64, unit: Unit) {
    for _ in 0..200 {
        let w = [wild(g), wild(g), wild(g)];
        let (new, n, off) = (g.next_u64() as u32 % 300, pick(g, &[0, 1, 250, 2_500, u32::MAX]), g.next_u64() % 4 == 0);
        let rust = reward(w[0], w[1], w[2], new, n, off);
        let here = port::reward(port::Weights { tile: w[0], step: w[1], off_playfield: w[2] }, new, n, off);
        t.check("reward", bits(here) == bits(rust), unit, 1, || format!("{w:?} {new} {n} {off}: {here:?}, not {rust:?}"));
        let near = between(g, -3.0, 3.0);
        let mut quad = || [0; 4].map(|_| [0; 2].map(|_| pick(g, &[0.0, 1.0, near, -0.0, 2.0, f64::NAN, 1e300])));
        let (a, b) = (quad(), quad());
        t.check("overlap", port::overlap(a, b) == overlap(&a, &b), unit, 1, || format!("{a:?} {b:?}"));
    }
}
