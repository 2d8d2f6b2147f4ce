//! The list that crates/run_vectors replays, and what it must answer.
//!
//! The list is 64-bit words, the low byte first: for each record a code and its arguments, floats by their bits.
//! What an accepted call answers and leaves is the Rust's: the reference's `realize_from` for a start, its `step`
//! for a drive and for a settle, over the lent tiles and index as they stand, damaged or not; its `step_reward`,
//! `quad_overlap` and `wheel_quad`. The Rust refuses nothing, takes no turns and has no tick limit: which call is
//! refused by what number, what state it leaves, and the sheet, is written out in ../model.rs and here from document 01
//! ("Refusals by cause", "Beside the run"). The braking rule alone is the Rust's lines too, and held to what the Rust's
//! phase shows of it. In whole runs the Rust also goes its own way, from the start on, and must come to the same state at
//! every tick. Saves and restores are ../saved.rs's, with the Rust's contacts; run/saves.rs, run/kept.rs and, for seeds of
//! 2^32 or more, run/wide.rs make their records.
//!
//! Random values come from the reference's SplitMix64 at a fixed seed, so the files come out the same each time.
mod kept;
mod saves;
mod wide;

use super::blocks::{append, ROOM};
use super::Stored;
use crate::car::{beyond, bits, car, five, near_car, numbers, pick, road_motion, step, FAR, P};
use crate::edges::{edge, edge_motion, edge_pose, wild};
use crate::lent::{between, hash};
use crate::model::{box_cells, Begin, Model, State, STATED};
use crate::seeds::course;
use oracle::oracle::{braked, default_weights, overlap, probe, reward, Run, TrackPoint};
use oracle::{Motion, Pose, Push};
use reinfors_core::SplitMix64;
use std::fmt::Write;
use std::ops::{Deref, DerefMut};

const COURSE: u64 = 1;
const TILE: u64 = 2;
const OFFSET: u64 = 3;
const ID: u64 = 4;
const CORE: u64 = 5;
const CREDITED: u64 = 6;
const WHEELS: u64 = 7;
const START: u64 = 8;
const DRIVE: u64 = 9;
const SETTLE: u64 = 10;
const SHEET: u64 = 11;
const REWARD: u64 = 12;
const OVERLAP: u64 = 13;
const BRAKED: u64 = 14;
const QUAD: u64 = 15;
const CELLS: u64 = 16;
const WEIGHTS: u64 = 17;
const PUT_LAST: u64 = 18;
const LAST: u64 = 19;
const SAVE: u64 = 20;
const RESTORE: u64 = 21;

/// The lengths of the program's tiles, offsets and index list.
const LONG: [usize; 3] = [20_100, 4_600, 60_000];

/// What is counted: records of each code, refusals of start, drive, settle, sheet, save and restore by each cause, settles
/// that ended a run, and the ticks of each whole run.
#[derive(Default)]
struct Tally {
    records: [usize; 22],
    refused: [[usize; 13]; 6],
    laps: usize,
    offs: usize,
    all: usize,
    ticks: Vec<u32>,
}

impl Tally {
    fn tell(&self) {
        let names = [
            "course", "tile", "offset", "id", "core", "credited", "wheels", "start", "drive", "settle", "sheet", "reward",
            "overlap", "braked", "quad", "cells", "weights", "put last", "last", "save", "restore",
        ];
        let counts: Vec<String> = names.iter().zip(&self.records[1..]).map(|(name, count)| format!("{name} {count}")).collect();
        eprintln!("{}", counts.join(", "));
        eprintln!("refused, by cause from 0: start, drive, settle, sheet, save, restore {:?}", self.refused);
        eprintln!("settles that ended a run: by lap {}, off {}, all {}", self.laps, self.offs, self.all);
        eprintln!("ticks of whole runs: {:?}", self.ticks);
    }
}

/// The list and its answers as they grow; and the lent columns and the state, which stand from record to record.
struct Replay {
    list: Vec<u8>,
    lines: String,
    model: Model,
    tally: Tally,
}

impl Deref for Replay {
    type Target = Model;
    fn deref(&self) -> &Model {
        &self.model
    }
}

impl DerefMut for Replay {
    fn deref_mut(&mut self) -> &mut Model {
        &mut self.model
    }
}

impl Replay {
    fn new() -> Replay {
        Replay { list: Vec::new(), lines: String::new(), model: Model::new(LONG), tally: Tally::default() }
    }
    fn ask(&mut self, code: u64, arguments: impl IntoIterator<Item = u64>) {
        self.tally.records[code as usize] += 1;
        append(&mut self.list, [code].into_iter().chain(arguments));
    }
    fn whole(&mut self, n: impl Into<u64>) {
        writeln!(self.lines, "{}", n.into()).unwrap();
    }
    fn hex(&mut self, bits: u64) {
        writeln!(self.lines, "{bits:016x}").unwrap();
    }
    fn value(&mut self, x: f64) {
        self.hex(bits(x));
    }
    fn refuse(&mut self, call: usize, cause: usize) {
        self.tally.refused[call][cause] += 1;
        writeln!(self.lines, "refused {cause}").unwrap();
    }
    fn line_state(&mut self) {
        self.hex(self.state.hash());
    }

    /// A course of these points; its tile count.
    fn course(&mut self, points: &[TrackPoint]) -> u32 {
        let given = points.iter().flat_map(|p| [p.beta, p.x, p.y]).map(f64::to_bits);
        self.ask(COURSE, [points.len() as u64].into_iter().chain(given));
        let track = probe::given(points.to_vec(), false);
        self.model.lay(&track);
        self.whole(points.len() as u64);
        self.whole(probe::raw_ref(&track).1.len() as u64);
        self.hex(hash(self.tiles.iter().map(|&x| bits(x))));
        self.hex(hash(self.offsets.iter().map(|&o| o.into())));
        self.hex(hash(self.ids.iter().map(|&id| id.into())));
        points.len() as u32
    }
    fn tile(&mut self, at: usize, x: f64) {
        self.ask(TILE, [at as u64, x.to_bits()]);
        self.tiles[at] = x;
        self.made = None;
    }
    fn offset(&mut self, at: usize, value: u32) {
        self.ask(OFFSET, [at as u64, value.into()]);
        self.offsets[at] = value;
        self.made = None;
    }
    fn id(&mut self, at: usize, value: u32) {
        self.ask(ID, [at as u64, value.into()]);
        self.ids[at] = value;
        self.made = None;
    }
    /// The state but for its sets, last poses and seed becomes that of s.
    fn core(&mut self, s: &State) {
        let counts = [s.n, s.count, s.tick, s.limit].map(u64::from);
        let flags = s.flags().iter().rev().fold(0, |w, &b| w * 2 + u64::from(b));
        let controls = s.ctl.iter().flatten().map(|x| x.to_bits());
        let front = counts.into_iter().chain([s.share.to_bits(), flags]);
        self.ask(CORE, front.chain(controls).chain([s.fuel.to_bits()]));
        let State { credited, wheels, poses, seed, .. } = self.state;
        self.state = State { credited, wheels, poses, seed, ..s.clone() };
    }
    fn credited(&mut self, first: usize, end: usize, w: u64) {
        self.ask(CREDITED, [first as u64, end as u64, w]);
        self.state.credited[first..end].fill(w);
    }
    fn wheels(&mut self, first: usize, end: usize, w: u64) {
        self.ask(WHEELS, [first as u64, end as u64, w]);
        self.state.wheels[first..end].fill(w);
    }

    /// A start; the number of the cause, or 0.
    fn start(&mut self, b: &Begin, poses: &[Pose; 4]) -> usize {
        let lent = b.lent.map(|l| l as u64);
        let rest = [b.n.into(), b.fallback.into(), b.seed, b.share.to_bits(), b.limit.into()];
        self.ask(START, lent.into_iter().chain(rest).chain(poses.iter().flat_map(numbers).map(f64::to_bits)));
        let cause = self.model.start(b, poses);
        if cause > 0 {
            self.refuse(0, cause);
        } else {
            self.whole(self.state.count);
            self.whole(self.state.lap);
        }
        self.line_state();
        cause
    }

    /// A drive; the number of the cause, or 0, and the forces.
    fn drive(&mut self, action: u32, m: &[Motion; 4]) -> (usize, [Push; 4]) {
        self.ask(DRIVE, [action.into()].into_iter().chain(m.iter().flat_map(five).map(f64::to_bits)));
        let (cause, push) = self.model.drive(action, m);
        if cause > 0 {
            self.refuse(1, cause);
            self.hex(hash([0; 12]));
        } else {
            for x in push.iter().flat_map(|f| [f.motor, f.fx, f.fy]) {
                self.value(x);
            }
        }
        self.line_state();
        (cause, push)
    }

    /// A settle; the number of the cause, or 0, and the number of new tiles.
    fn settle(&mut self, lent: [usize; 3], x: f64, y: f64, poses: &[Pose; 4]) -> (usize, u32) {
        let front = lent.map(|l| l as u64).into_iter().chain([x, y].map(f64::to_bits));
        self.ask(SETTLE, front.chain(poses.iter().flat_map(numbers).map(f64::to_bits)));
        let (mut cause, mut fresh) = (0, 0);
        match self.model.settle(lent, x, y, poses) {
            Err(number) => {
                cause = number;
                self.refuse(2, cause);
            }
            Ok(e) => {
                fresh = e.new_tiles;
                self.whole(fresh);
                self.whole(e.n);
                for b in [e.off, e.lap, e.ended] {
                    self.whole(b);
                }
                self.tally.laps += usize::from(e.ended && e.lap);
                self.tally.offs += usize::from(e.ended && e.off);
                self.tally.all += usize::from(e.ended && self.state.count == e.n);
            }
        }
        self.line_state();
        (cause, fresh)
    }
    fn sheet(&mut self) {
        self.ask(SHEET, []);
        let s = self.state.clone();
        if s.unfit() {
            self.refuse(3, 4);
            return;
        }
        for w in [s.tick, s.count, s.n, s.lap.into(), s.ended.into(), s.fallback.into(), 1000 * s.count / s.n] {
            self.whole(w);
        }
    }

    fn reward(&mut self, weights: [f64; 3], fresh: u32, n: u32, off: bool) {
        let rest = [fresh.into(), n.into(), off.into()];
        self.ask(REWARD, weights.map(f64::to_bits).into_iter().chain(rest));
        self.value(reward(weights[0], weights[1], weights[2], fresh, n, off));
    }
    fn weights(&mut self) {
        self.ask(WEIGHTS, []);
        for x in default_weights() {
            self.value(x);
        }
    }
    fn overlap(&mut self, a: [[f64; 2]; 4], b: [[f64; 2]; 4]) {
        self.ask(OVERLAP, a.into_iter().chain(b).flatten().map(f64::to_bits));
        self.whole(overlap(&a, &b));
    }
    /// The Rust's rule alone; its tyre pass without gas shows omega after the brake in the phase, which must be the same.
    fn braked(&mut self, brake: f64, omega: f64) {
        self.ask(BRAKED, [brake, omega].map(f64::to_bits));
        let after = braked(brake, omega);
        self.rust.put_motion(&[Motion::default(); 4]);
        self.rust.put_ctl(0, [0.0, brake, 0.0, omega, 0.0]);
        self.rust.tyres_alone();
        let shown = self.rust.ctl(0)[4];
        assert_eq!(bits(shown), bits(0.0 + after * (1.0 / 50.0)), "brake {brake} omega {omega}");
        self.value(after);
    }
    fn box_of(&mut self, q: [[f64; 2]; 4]) {
        self.ask(CELLS, q.into_iter().flatten().map(f64::to_bits));
        for c in box_cells(q) {
            self.whole(c as u64);
        }
    }
    fn quad(&mut self, p: Pose) {
        self.ask(QUAD, numbers(&p).map(f64::to_bits));
        self.rust.put_wheels(&[p; 4]);
        for x in self.rust.wheel_quad(0).into_iter().flatten() {
            self.value(x);
        }
    }
}

fn begin(n: u32, share: f64, limit: u32) -> Begin {
    Begin { lent: LONG, n, fallback: false, seed: 0, share, limit }
}

/// Points that wander: n of them, each up to `far` from the one before.
fn walk(g: &mut SplitMix64, n: usize, far: f64) -> Vec<TrackPoint> {
    let (mut beta, mut x, mut y) = (between(g, -6.0, 6.0), between(g, -250.0, 250.0), between(g, -250.0, 250.0));
    let next = |i| {
        beta = (beta + if i % 11 < 6 { between(g, 0.0, 0.2) } else { between(g, -0.3, 0.0) }).clamp(-16.0, 16.0);
        x = (x + between(g, -far, far)).clamp(-1000.0, 1000.0);
        y = (y + between(g, -far, far)).clamp(-1000.0, 1000.0);
        TrackPoint { beta, x, y }
    };
    (0..n).map(next).collect()
}

fn seed(s: u64) -> Vec<TrackPoint> {
    course(s).points
}

/// The state that the Rust has which went from the start on its own.
fn same(r: &Replay, whole: &Run) {
    let mut s = r.state.clone();
    s.take_sets(whole);
    s.take_controls(whole);
    s.tick = whole.tick();
    assert_eq!(s.hash(), r.state.hash());
}

/// A whole run over the points by these places of it: a drive and a settle at each, until the run ends. Beside it
/// goes the Rust alone.
fn whole_run(r: &mut Replay, g: &mut SplitMix64, points: &[TrackPoint], b: &Begin, noise: f64, places: &[usize], off: usize) {
    let n = points.len();
    let first = near_car(g, &points[0], noise);
    assert_eq!(r.start(b, &first), 0);
    let mut whole = Run::start(r.track(b.n), b.share, Pose::default(), first);
    same(r, &whole);
    for (k, place) in places.iter().enumerate() {
        let action = (g.next_u64() % 5) as u32;
        let m = [0; 4].map(|_| road_motion(g));
        let (poses, p) = (near_car(g, &points[place % n], noise), &points[place % n]);
        let (x, y) = if k == off { (p.x, -step(P, 1)) } else { (p.x.clamp(-P, P), p.y.clamp(-P, P)) };
        let (cause, push) = r.drive(action, &m);
        let (other, fresh) = r.settle(b.lent, x, y, &poses);
        assert_eq!((cause, other), (0, 0));
        let e = whole.step(action as usize, &m, Pose { x, y, cos: 1.0, sin: 0.0 }, poses);
        same(r, &whole);
        assert_eq!(e.new_tiles, fresh);
        for (a, b) in e.push.iter().zip(push) {
            assert_eq!([a.motor, a.fx, a.fy].map(bits), [b.motor, b.fx, b.fy].map(bits));
        }
        if k % 16 == 0 || e.ended {
            r.sheet();
            r.reward([1000.0, -0.1, -100.0], fresh, e.n, e.off);
        }
        if e.ended {
            break;
        }
    }
    r.tally.ticks.push(r.state.tick);
    // An ended run refuses; one that goes on does not mind.
    let p = &points[0];
    r.drive(0, &[Motion::default(); 4]);
    r.settle(b.lent, p.x.clamp(-P, P), p.y.clamp(-P, P), &first);
    r.sheet();
}

/// Laid courses: once round for a lap and for all tiles, part of the way for smaller shares, and off the field.
fn laid_runs(r: &mut Replay, g: &mut SplitMix64) {
    let exact = |need: usize| [STATED[0], STATED[1], need];
    for (s, share, noise, kind) in [
        (7, 0.95, 0.0, 0),
        (0, 1.0, 0.0, 0),
        (3, 0.4, 0.5, 1),
        (11, 0.0, 1.0, 2),
        (417, 0.95, 6.0, 2),
        (12345, 0.5, 0.2, 1),
        (u32::MAX.into(), 0.25, 3.0, 2),
    ] {
        let points = seed(s);
        let n = r.course(&points);
        let mut b = begin(n, share, 1_000_000);
        b.fallback = s == 3;
        b.seed = s;
        b.lent = exact(r.offsets[4_489] as usize);
        let around: Vec<usize> = (1..n as usize + 8).collect();
        let part = n as usize / 2;
        let back: Vec<usize> = (2..part).chain([n as usize - 3, n as usize - 2, n as usize - 1, 0, 1, 2]).collect();
        let jumps: Vec<usize> = (0..120).map(|_| g.next_u64() as usize % n as usize).collect();
        match kind {
            0 => whole_run(r, g, &points, &b, noise, &around, usize::MAX),
            1 => whole_run(r, g, &points, &b, noise, &back, usize::MAX),
            _ => whole_run(r, g, &points, &b, noise, &jumps, 100),
        }
    }
}

/// Given courses: one, two and three points, fifty, and the most.
fn given_runs(r: &mut Replay, g: &mut SplitMix64) {
    for (n, far, share) in [(1, 0.0, 0.0), (1, 0.0, 1.0), (2, 60.0, 0.5), (3, 60.0, 0.9), (50, 3.0, 0.95), (2_500, 2.0, 0.9)] {
        let points = walk(g, n, far);
        let n = r.course(&points);
        for (limit, noise) in [(1_000_000, 0.0), (7, 4.0)] {
            let most = if limit == 7 { 7 } else { 60 };
            let places: Vec<usize> = (0..most).map(|k| if n > 100 { k * 41 } else { k }).collect();
            whole_run(r, g, &points, &begin(n, share, limit), noise, &places, 50);
        }
    }
    // Clamped cells: points at the ends of their range.
    let points: Vec<TrackPoint> =
        [(-1000.0, 1000.0), (1000.0, 1000.0), (1000.0, -1000.0)].map(|(x, y)| TrackPoint { beta: 0.5, x, y }).into();
    let n = r.course(&points);
    whole_run(r, g, &points, &begin(n, 0.9, 9), 1.0, &[1, 1], usize::MAX);
    for p in &points {
        r.start(&begin(n, 0.3, 9), &car(p, 0.0, 0.0, 0.0));
        r.start(&begin(n, 0.3, 9), &car(p, 0.0, 0.0, 0.0).map(|q| Pose { x: q.x * 1000.0, y: q.y * 1000.0, ..q }));
    }
}

/// The start's own ends: an index of zeros, shares and limits at their ends, and stacked tiles.
fn starts(r: &mut Replay, g: &mut SplitMix64) {
    let origin = TrackPoint { beta: 0.0, x: 0.0, y: 0.0 };
    let poses = car(&origin, 0.0, 0.0, 0.0);
    r.sheet();
    r.drive(0, &[Motion::default(); 4]);
    r.settle(LONG, 0.0, 0.0, &poses);
    for list in [0, LONG[2]] {
        r.start(&Begin { lent: [STATED[0], STATED[1], list], ..begin(5, 0.0, 3) }, &poses);
        r.drive(3, &[Motion::default(); 4]);
        r.settle([STATED[0], STATED[1], list], 0.0, 0.0, &poses);
    }
    let n = r.course(&vec![origin; 200]);
    for share in [0.0, -0.0, 1.0, 0.95, 5e-324, step(1.0, -1), -5e-324, step(1.0, 1), f64::NAN, f64::INFINITY, -1.0] {
        for limit in [1, 1_000_000, 0, 1_000_001, u32::MAX, 2] {
            r.start(&begin(n, share, limit), &poses);
        }
        r.start(&begin(n, share, 1), &poses);
        r.drive(3, &[Motion::default(); 4]);
        r.settle(LONG, 0.0, 0.0, &poses);
        r.drive(3, &[Motion::default(); 4]);
        r.sheet();
    }
    for m in [0, 1, 2, 199, 200, 201, 2_499, 2_500, 2_501, u32::MAX] {
        r.start(&begin(m, 0.5, 9), &poses);
    }
    let n = r.course(&vec![origin; 2_500]);
    r.start(&begin(n, 0.5, 9), &poses);
    let far = poses.map(|p| Pose { x: p.x + 100.0, ..p });
    for k in 0..6 {
        r.drive(k, &[0; 4].map(|_| road_motion(g)));
        r.settle(LONG, 0.0, 0.0, if k % 2 == 0 { &far } else { &poses });
    }
}

/// One tick, with edge values where `edges`; the lent columns are whole.
fn tick(r: &mut Replay, g: &mut SplitMix64, edges: bool, x: f64, y: f64, poses: &[Pose; 4]) {
    let m = [0; 4].map(|_| if edges { edge_motion(g) } else { road_motion(g) });
    r.drive((g.next_u64() % 5) as u32, &m);
    r.settle(LONG, x, y, poses);
}

/// Edge poses and motions, on a course whose tiles are damaged from round to round.
fn wild_runs(r: &mut Replay, g: &mut SplitMix64) {
    for s in [5, 23] {
        let points = seed(s);
        let n = r.course(&points);
        for round in 0..5 {
            for _ in 0..round * 15 {
                let at = g.next_u64() as usize % (8 * n as usize);
                r.tile(at, wild(g));
            }
            // One point that every wheel is near, with its own tile damaged: by one number of it, or all.
            let k = g.next_u64() as usize % n as usize;
            for i in 0..[0, 1, 2, 5, 8][round] {
                r.tile(k * 8 + i, pick(g, &[f64::NAN, f64::INFINITY, f64::NEG_INFINITY]));
            }
            r.start(&begin(n, 0.5, 1_000_000), &near_car(g, &points[0], 1.0));
            for i in 0..50 {
                let place = if i % 3 == 0 { k } else { g.next_u64() as usize % n as usize };
                let mut poses = near_car(g, &points[place], 2.0);
                if i % 2 == 0 {
                    poses = poses.map(|p| if g.next_u64() % 2 == 0 { edge_pose(g) } else { p });
                }
                let (x, y) = if i % 25 == 24 { (edge(g), edge(g)) } else { (between(g, -300.0, 300.0), -0.0) };
                tick(r, g, true, x, y, &poses);
                if r.state.ended {
                    r.start(&begin(n, 1.0, 40), &poses);
                }
            }
        }
    }
}

/// The field's edge: off is strict.
fn off_edges(r: &mut Replay, g: &mut SplitMix64) {
    let points = walk(g, 50, 3.0);
    let n = r.course(&points);
    for at in [P, -P, step(P, 1), -step(P, 1), step(P, -1), FAR, -FAR, 0.0, -0.0, 5e-324] {
        for (x, y) in [(at, 0.0), (0.0, at), (at, at)] {
            r.start(&begin(n, 0.95, 2), &near_car(g, &points[0], 0.0));
            tick(r, g, false, x, y, &car(&points[3], 0.0, 0.0, 0.0));
            r.sheet();
        }
    }
}

/// Wheels on the corners of four cells, each wheel elsewhere.
fn straddling(points: &[TrackPoint]) -> [Pose; 4] {
    let n = points.len();
    [0, n / 4, n / 2, 3 * n / 4].map(|i| {
        let [x, y] = [points[i].x, points[i].y].map(|v| ((v + P) / 10.0).round() * 10.0 - P);
        Pose { x, y, cos: 1.0, sin: 0.0 }
    })
}

/// A start and a settle at these poses, the state before which stands again after it.
fn both(r: &mut Replay, lent: [usize; 3], n: u32, poses: &[Pose; 4]) -> [usize; 2] {
    let before = r.state.clone();
    let (settled, _) = r.settle(lent, 0.0, 0.0, poses);
    let started = r.start(&Begin { lent, ..begin(n, 0.5, 100) }, poses);
    r.core(&before);
    [settled, started]
}

/// Damaged indexes: each of the sixteen look-ups alone; legal lists that no course has.
fn damaged_index(r: &mut Replay, g: &mut SplitMix64) {
    let points = seed(7);
    let n = r.course(&points);
    let poses = straddling(&points);
    r.start(&begin(n, 0.5, 100), &car(&points[0], 0.0, 0.0, 0.0));
    r.drive(3, &[0; 4].map(|_| road_motion(g)));
    assert_eq!(both(r, LONG, n, &poses), [0, 0]);
    for cell in r.cells(&poses).into_iter().flatten().collect::<Vec<_>>() {
        let (from, to) = (r.offsets[cell], r.offsets[cell + 1]);
        for value in [to + 1, u32::MAX] {
            r.offset(cell, value);
            assert_eq!(both(r, LONG, n, &poses), [10, 10]);
        }
        r.offset(cell, from);
        let places = if from < to { vec![(from as usize, n), (to as usize - 1, u32::MAX)] } else { Vec::new() };
        for (at, value) in places {
            let id = r.ids[at];
            r.id(at, value);
            assert_eq!(both(r, LONG, n, &poses), [10, 10]);
            r.id(at, n - 1);
            assert_eq!(both(r, LONG, n, &poses), [0, 0]);
            r.id(at, id);
        }
        // The lent list ends with this cell's part, or one before.
        both(r, [LONG[0], LONG[1], to as usize], n, &poses);
        if from < to {
            assert_eq!(both(r, [LONG[0], LONG[1], to as usize - 1], n, &poses), [10, 10]);
        }
    }
    legal_lists(r, g, &points);
}

/// Unsorted and repeated ids, ids of tiles elsewhere, a tile that no cell lists, a part that runs over many cells'.
fn legal_lists(r: &mut Replay, g: &mut SplitMix64, points: &[TrackPoint]) {
    let n = r.course(points);
    for k in 0..24 {
        let poses = car(&points[k * 7 % points.len()], 0.1, 0.0, 0.0);
        let cells = r.cells(&poses);
        let cell = cells[k % 4][k / 4 % 4];
        let (from, to) = (r.offsets[cell] as usize, r.offsets[cell + 1] as usize);
        for at in from..to {
            let value = match k % 4 {
                0 => r.ids[from + to - 1 - at],
                1 => r.ids[from],
                2 => (g.next_u64() % u64::from(n)) as u32,
                _ => 0,
            };
            r.id(at, value);
        }
        if k % 6 == 5 {
            r.offset(cell, 0);
        }
        r.start(&begin(n, 0.0, 100), &poses);
        r.drive(3, &[0; 4].map(|_| road_motion(g)));
        r.settle(LONG, 0.0, 0.0, &car(&points[(k * 7 + 1) % points.len()], 0.0, 0.0, 0.0));
        // The tile goes elsewhere, and the index stays.
        let t = k * 7 % points.len();
        for i in 0..8 {
            r.tile(t * 8 + i, r.tiles[(t + 100) % n as usize * 8 + i]);
        }
        r.start(&begin(n, 0.0, 100), &poses);
        r.start(&begin(n, 0.0, 100), &car(&points[(t + 100) % n as usize], 0.0, 0.0, 0.0));
    }
}

/// Tile 0: a wheel that enters it counts while another stays there, one that stays does not; the share is strict, and
/// this contact's credit is in it.
fn tile_zero(r: &mut Replay, g: &mut SplitMix64) {
    let points = seed(11);
    let n = r.course(&points);
    let on = |k: usize| car(&points[k], 0.0, 0.0, 0.0);
    let run = Run::start(r.track(n), 1.0, Pose::default(), on(0));
    let there = on(0)[(0..4).find(|&w| run.wheel_tiles(w).contains(&0)).expect("no wheel on tile 0")];
    for mask in 0..16 {
        for again in [mask, mask | 1, mask | 8, mask ^ 15, 15, 0] {
            // The wheels of `mask` stand on tile 0 first, and those of `again` after it.
            let place = |m: usize, far: usize| [0, 1, 2, 3].map(|w| if m >> w & 1 == 1 { there } else { on(far)[w] });
            r.start(&begin(n, 1.0, 9), &place(mask, n as usize / 2));
            let count = n / 2;
            let share = f64::from(count + pick(g, &[0, 0, 1, 3, 4])) / f64::from(n);
            r.core(&State { count, share, driven: true, ..r.state.clone() });
            r.settle(LONG, 0.0, 0.0, &place(again, n as usize / 3));
        }
    }
}

/// Sets that no run has: credited cleared while the wheels' stay, all bits set, bits of no tile, another n.
fn damaged_sets(r: &mut Replay, g: &mut SplitMix64) {
    let points = seed(7);
    let n = r.course(&points);
    let poses = car(&points[0], 0.0, 0.0, 0.0);
    r.start(&begin(n, 0.5, 100), &poses);
    assert!(r.state.count > 0);
    r.credited(0, 40, 0);
    r.core(&State { count: 0, ..r.state.clone() });
    r.drive(3, &[0; 4].map(|_| road_motion(g)));
    assert_eq!(r.settle(LONG, 0.0, 0.0, &poses), (0, 0));
    for round in 0..60 {
        let p = &points[round * 5 % points.len()];
        let near = near_car(g, p, 2.0);
        if !r.state.driven || r.state.ended {
            r.start(&begin(n, 0.1, 100), &near);
        }
        let first = g.next_u64() as usize % 40;
        match round % 4 {
            0 => r.credited(first.min(4), 40, g.next_u64()),
            1 => r.wheels(first * 4, 160, g.next_u64() & g.next_u64()),
            2 => r.wheels(round % 4 * 40, round % 4 * 40 + 40, u64::MAX),
            _ => r.credited(0, 40, pick(g, &[0, u64::MAX, 1, 1 << 63])),
        }
        let count = pick(g, &[0, 1, n - 1, n, n / 2]);
        let size = pick(g, &[n, n, n, n + 1, 2_500, n - 1]);
        let (tick, limit) = pick(g, &[(0, 1), (9, 100), (u32::MAX - 1, u32::MAX), (5, 5), (0, 0), (999_999, 1_000_000)]);
        let share = pick(g, &[0.5, f64::NAN, -1.0, f64::INFINITY, f64::NEG_INFINITY, 0.0, f64::from(n - 1) / f64::from(n)]);
        let (lap, driven) = (round % 8 == 3, round % 3 > 0);
        r.core(&State { n: size, count, tick, limit, share, lap, ended: false, driven, ..r.state.clone() });
        if !driven {
            r.drive(round as u32 % 5, &[0; 4].map(|_| road_motion(g)));
        }
        r.settle(LONG, 0.0, 0.0, &near);
        r.sheet();
    }
}

/// Those of the causes that `set` has a bit for, in their order.
fn chosen(causes: &[usize], set: usize) -> Vec<usize> {
    causes.iter().enumerate().filter(|(i, _)| set >> i & 1 == 1).map(|(_, &c)| c).collect()
}

/// The state in which cause 4 holds or not, 5 by `driven`, and 6.
fn state_for(r: &Replay, g: &mut SplitMix64, n: u32, causes: &[usize], turn: bool) -> State {
    let mut s = State {
        n,
        count: n / 2,
        tick: 3,
        limit: 4,
        share: 0.5,
        ended: false,
        driven: turn ^ causes.contains(&5),
        ..r.state.clone()
    };
    if causes.contains(&4) {
        match g.next_u64() % 6 {
            0 => s.n = 0,
            1 => s.n = 2_501,
            2 => s.count = n + 1,
            3 => s.n = u32::MAX,
            4 => s.count = u32::MAX,
            _ => s.ended = true,
        }
    }
    if causes.contains(&6) {
        (s.tick, s.limit) = pick(g, &[(4, 4), (5, 4), (0, 0), (u32::MAX, 7), (u32::MAX, u32::MAX)]);
    }
    s
}

/// Every set of causes of a drive, several times: the first in the order is the answer.
fn drive_refusals(r: &mut Replay, g: &mut SplitMix64, n: u32) {
    for set in 0..160 {
        let causes = chosen(&[4, 5, 6, 7, 8], set % 32);
        let s = state_for(r, g, n, &causes, false);
        r.core(&s);
        let mut m = [0; 4].map(|_| road_motion(g));
        if causes.contains(&8) {
            let (w, x) = (&mut m[set % 4], beyond(g));
            *[&mut w.joint_angle, &mut w.sin, &mut w.cos, &mut w.vx, &mut w.vy][g.next_u64() as usize % 5] = x;
        }
        let action = if causes.contains(&7) { pick(g, &[5, 6, 255, u32::MAX]) } else { set as u32 % 5 };
        assert_eq!(r.drive(action, &m).0, causes.first().copied().unwrap_or(0));
        r.sheet();
    }
}

/// Columns of a length that is refused, or of the stated.
fn lengths(g: &mut SplitMix64, short: bool) -> [usize; 3] {
    let [t, o] = STATED;
    match short {
        true => {
            pick(g, &[[t - 1, o, LONG[2]], [t, o - 1, LONG[2]], [0, 0, 0], [0, o, LONG[2]], [t, 0, LONG[2]], [t - 1, o - 1, 0]])
        }
        false => [t, o, LONG[2]],
    }
}

/// One number of a pose is refused.
fn spoil(g: &mut SplitMix64, poses: &mut [Pose; 4]) {
    let (w, x) = (&mut poses[g.next_u64() as usize % 4], beyond(g));
    *[&mut w.x, &mut w.y, &mut w.cos, &mut w.sin][g.next_u64() as usize % 4] = x;
}

/// Poses near a point of the course, with cause 8 or 10 where the causes have it; the damaged offset as it was.
fn poses_for(r: &mut Replay, g: &mut SplitMix64, p: &TrackPoint, causes: &[usize], k: usize) -> ([Pose; 4], usize, u32) {
    let mut poses = near_car(g, p, 1.0);
    let cell = r.cells(&poses)[k % 4][k / 4 % 4];
    let keep = r.offsets[cell];
    if causes.contains(&10) {
        r.offset(cell, u32::MAX);
    }
    if causes.contains(&8) {
        spoil(g, &mut poses);
    }
    (poses, cell, keep)
}

/// Every set of causes of a settle, several times.
fn settle_refusals(r: &mut Replay, g: &mut SplitMix64, n: u32, points: &[TrackPoint]) {
    for set in 0..192 {
        let causes = chosen(&[4, 5, 6, 2, 8, 10], set % 64);
        let (mut poses, cell, keep) = poses_for(r, g, &points[set % points.len()], &causes, set);
        let s = state_for(r, g, n, &causes, true);
        r.core(&s);
        let mut hull = [0.0, 0.0];
        if causes.contains(&8) && set % 3 == 0 {
            // The hull alone.
            hull[set % 2] = beyond(g);
            poses = car(&points[set % points.len()], 0.0, 0.0, 0.0);
        }
        let lent = lengths(g, causes.contains(&2));
        assert_eq!(r.settle(lent, hull[0], hull[1], &poses).0, causes.first().copied().unwrap_or(0));
        if r.offsets[cell] != keep {
            r.offset(cell, keep);
        }
    }
}

/// Every set of causes of a start, several times.
fn start_refusals(r: &mut Replay, g: &mut SplitMix64, n: u32, points: &[TrackPoint]) {
    let settings = [(f64::NAN, 9), (step(1.0, 1), 9), (-5e-324, 9), (0.5, 0), (0.5, 1_000_001), (f64::INFINITY, 0)];
    for set in 0..96 {
        let causes = chosen(&[1, 2, 8, 10], set % 16);
        let (poses, cell, keep) = poses_for(r, g, &points[set % points.len()], &causes, set);
        let mut b = Begin { fallback: set % 2 == 0, ..begin(n, 0.5, 9) };
        match (causes.contains(&2), set / 16 % 2) {
            (true, 1) => b.n = pick(g, &[0, 2_501, u32::MAX]),
            (short, _) => b.lent = lengths(g, short),
        }
        if causes.contains(&1) {
            (b.share, b.limit) = pick(g, &settings);
        }
        assert_eq!(r.start(&b, &poses), causes.first().copied().unwrap_or(0));
        if r.offsets[cell] != keep {
            r.offset(cell, keep);
        }
        if set % 16 == 2 {
            // The state of zeros is refused by all.
            r.sheet();
            r.drive(7, &[Motion::default(); 4]);
            r.settle([0; 3], f64::NAN, 0.0, &poses);
        }
    }
}

/// The ends of the input's range, place by place: the last float in, and the next one out.
fn input_ranges(r: &mut Replay, g: &mut SplitMix64, n: u32, points: &[TrackPoint]) {
    for (k, v) in (0..20).flat_map(|k| [(k, FAR), (k, -FAR), (k, step(FAR, 1)), (k, -step(FAR, 1)), (k, f64::NAN), (k, -0.0)]) {
        let s = state_for(r, g, n, &[], k % 2 == 1);
        r.core(&s);
        let mut m = [0; 4].map(|_| road_motion(g));
        let w = &mut m[k / 5];
        *[&mut w.joint_angle, &mut w.sin, &mut w.cos, &mut w.vx, &mut w.vy][k % 5] = v;
        r.drive(k as u32 % 5, &m);
        r.core(&State { driven: true, ..s });
        let mut poses = near_car(g, &points[k], 0.0);
        let (x, y) = (if k == 16 { v } else { 1.0 }, if k == 17 { v } else { 1.0 });
        if k < 16 {
            let p = &mut poses[k / 4];
            *[&mut p.x, &mut p.y, &mut p.cos, &mut p.sin][k % 4] = v;
            r.start(&begin(n, 0.5, 9), &poses);
            r.core(&State { driven: true, ..state_for(r, g, n, &[], true) });
        }
        r.settle(LONG, x, y, &poses);
    }
}

/// Drives from states whose floats are anything.
fn edge_drives(r: &mut Replay, g: &mut SplitMix64, n: u32) {
    for k in 0..1_200 {
        let float = |g: &mut SplitMix64| match (k % 4, g.next_u64() % 3) {
            (0, _) => wild(g),
            (1, _) => edge(g),
            (_, 0) => between(g, -20.0, 20.0),
            (_, 1) => between(g, 0.0, 0.3),
            _ => pick(g, &[0.0, -0.0, 0.1, 0.2, 0.15, 1.0, 5e-324, 12.0, -12.0]),
        };
        let ctl = [0; 4].map(|_| [0; 5].map(|_| float(g)));
        let fuel = float(g);
        if k % 10 == 0 {
            r.wheels(0, 160, 0);
            for w in 0..4 {
                let word = w * 40 + g.next_u64() as usize % 40;
                if g.next_u64() % 2 == 0 {
                    r.wheels(word, word + 1, 1 << (g.next_u64() % 64));
                }
            }
        }
        r.core(&State { n, count: 0, tick: 0, limit: 1, lap: false, ended: false, driven: false, ctl, fuel, ..r.state.clone() });
        let m = [0; 4].map(|_| if k % 3 == 0 { road_motion(g) } else { edge_motion(g) });
        assert_eq!(r.drive(k % 5, &m).0, 0);
    }
}

/// Drives from states whose floats are all one; and with forces about the limit, on the road and beside it.
fn even_drives(r: &mut Replay, g: &mut SplitMix64, n: u32) {
    let base = State { n, limit: 1, ..State::zero() };
    let values = [0.0, -0.0, 5e-324, -5e-324, 0.1, 0.9, 12.0, -12.0, FAR, f64::MAX, f64::INFINITY, f64::NEG_INFINITY, f64::NAN];
    for (i, v) in values.into_iter().enumerate() {
        for k in 0..3 {
            r.core(&State { ctl: [[v; 5]; 4], fuel: v, ..base.clone() });
            r.drive((i as u32 + k) % 5, &[0; 4].map(|_| if k == 0 { Motion::default() } else { edge_motion(g) }));
        }
    }
    for (limit, word) in [(400.0, 1), (240.0, 0)] {
        r.wheels(0, 160, word);
        for d in [[-3, -2, -1, 0], [1, 2, 3, 4], [-1000, 1000, 100_000, -100_000], [1_000_000, 10_000_000, 1 << 30, 1 << 31]] {
            // The factor of a tyre's forces is 205000 * 0.02 * 0.02.
            let side = d.map(|d| Motion { cos: 1.0, vx: step(limit / 82.0, d), ..Motion::default() });
            let ahead = d.map(|d| Motion { cos: 1.0, vy: -step(limit / 82.0, d), ..Motion::default() });
            for m in [side, ahead] {
                r.core(&base);
                r.drive(0, &m);
            }
        }
    }
}

/// Gas up by tenths and down at once; steering to and fro; braking to a stop.
fn action_rows(r: &mut Replay, g: &mut SplitMix64, n: u32) {
    r.core(&State { n, limit: 1, ..State::zero() });
    for action in [3, 3, 3, 3, 0, 3, 4, 4, 4, 1, 2, 1, 3, 3, 1, 4, 3, 2, 0, 0] {
        r.drive(action, &[0; 4].map(|_| Motion { joint_angle: pick(g, &[0.0, -0.6, 0.6, 0.1]), ..Motion::default() }));
        r.core(&State { driven: false, ..r.state.clone() });
    }
}

/// The sheet's counts and flags.
fn sheets(r: &mut Replay, g: &mut SplitMix64) {
    for k in 0..80 {
        let n = pick(g, &[0, 1, 2, 3, 7, 250, 999, 1_000, 1_001, 2_499, 2_500, 2_501, u32::MAX]);
        let count = pick(g, &[0, 1, n / 3, n.saturating_sub(1), n, n.saturating_add(1), n / 2]);
        let (tick, limit) = (pick(g, &[0, 9, u32::MAX]), pick(g, &[0, 9]));
        let [lap, ended, fallback, driven] = [1, 2, 4, 8].map(|b| k & b > 0);
        r.core(&State { n, count, tick, limit, lap, ended, fallback, driven, ..r.state.clone() });
        r.sheet();
    }
}

fn rewards(r: &mut Replay, g: &mut SplitMix64) {
    r.weights();
    r.reward(default_weights(), 2, 250, false);
    for k in 0..200 {
        let mut w = [between(g, -2000.0, 2000.0), between(g, -1.0, 1.0), between(g, -200.0, 0.0)];
        if k % 2 == 0 {
            w = w.map(|x| if g.next_u64() % 2 == 0 { wild(g) } else { x });
        }
        let fresh = pick(g, &[0, 1, 2, 17, 2_500, u32::MAX]);
        let n = pick(g, &[0, 1, 2, 250, 333, 2_500, u32::MAX]);
        r.reward(w, fresh, n, k % 4 == 3);
    }
}

fn overlaps(r: &mut Replay, g: &mut SplitMix64) {
    let square = |x: f64, y: f64, s: f64| [[x, y], [x + s, y], [x + s, y + s], [x, y + s]];
    for x in [1.0, 1.5, step(1.0, 1), step(1.0, -1), -1.0, 0.0, 2.0] {
        for y in [0.0, 1.0, step(1.0, 1), 0.5] {
            r.overlap(square(0.0, 0.0, 1.0), square(x, y, 1.0));
            r.overlap(square(x, y, 0.0), square(0.0, 0.0, 1.0));
            r.overlap(square(x, y, 0.0), square(y, x, 0.0));
        }
    }
    for k in 0..400 {
        let s = pick(g, &[1.0, 3.0, 1e-3]);
        let mut a = [0; 4].map(|_| [between(g, -s, s), between(g, -s, s)]);
        let mut b = [0; 4].map(|_| [between(g, -2.0, 2.0), between(g, -2.0, 2.0)]);
        if k % 4 == 1 {
            // An edge of b lies on an edge of a, and the rest beyond it or within.
            (b[0], b[1]) = (a[1], a[0]);
        }
        if k % 4 > 1 {
            for _ in 0..k % 6 {
                let (at, v) = (g.next_u64() as usize % 16, wild(g));
                if at < 8 {
                    a[at / 2][at % 2] = v
                } else {
                    b[at / 2 - 4][at % 2] = v
                }
            }
        }
        r.overlap(a, b);
    }
    r.overlap([[f64::NAN; 2]; 4], square(0.0, 0.0, 1.0));
    r.overlap([[f64::NAN; 2]; 4], [[f64::NAN; 2]; 4]);
    r.overlap([[f64::INFINITY; 2]; 4], [[f64::NEG_INFINITY; 2]; 4]);
    r.overlap([[f64::MAX; 2]; 4], square(0.0, 0.0, 1.0));
}

fn brakes(r: &mut Replay, g: &mut SplitMix64) {
    let brakes =
        [f64::NAN, -1.0, -0.0, 0.0, 5e-324, 0.1, 0.8, step(0.9, -1), 0.9, step(0.9, 1), 1.0, f64::INFINITY, f64::NEG_INFINITY];
    for brake in brakes {
        for omega in [
            f64::NAN,
            0.0,
            -0.0,
            5.0,
            -5.0,
            12.0,
            -12.0,
            step(12.0, 1),
            20.0,
            -20.0,
            5e-324,
            -3e-310,
            1e308,
            f64::INFINITY,
            f64::NEG_INFINITY,
        ] {
            r.braked(brake, omega);
        }
    }
    for _ in 0..100 {
        r.braked(between(g, 0.0, 1.0), between(g, -20.0, 20.0));
    }
}

fn quads(r: &mut Replay, g: &mut SplitMix64) {
    for k in 0..80 {
        let pose = if k % 2 == 0 { edge_pose(g) } else { Pose { x: wild(g), y: wild(g), cos: wild(g), sin: edge(g) } };
        r.quad(pose);
        let number = |g: &mut SplitMix64| if k % 4 == 0 { wild(g) } else { edge(g) };
        r.box_of([0; 4].map(|_| [number(g), number(g)]));
    }
    r.box_of([[f64::NAN; 2]; 4]);
    r.box_of([[f64::NAN, 0.0], [f64::NAN, 5.0], [f64::NAN, -5.0], [f64::NAN, 12.0]]);
}

/// All records, in the order of the list.
fn records(r: &mut Replay, g: &mut SplitMix64) {
    starts(r, g);
    laid_runs(r, g);
    given_runs(r, g);
    wild_runs(r, g);
    off_edges(r, g);
    damaged_index(r, g);
    tile_zero(r, g);
    damaged_sets(r, g);
    let points = seed(801);
    let n = r.course(&points);
    drive_refusals(r, g, n);
    settle_refusals(r, g, n, &points);
    start_refusals(r, g, n, &points);
    input_ranges(r, g, n, &points);
    edge_drives(r, g, n);
    even_drives(r, g, n);
    action_rows(r, g, n);
    sheets(r, g);
    rewards(r, g);
    overlaps(r, g);
    brakes(r, g);
    quads(r, g);
    saves::records(r, g);
    kept::records(r, g);
    wide::records(r, g);
    // An unknown code ends a block: the record behind it has no answer.
    r.ask(0, []);
    r.list.extend([SHEET, SHEET].iter().flat_map(|w| w.to_le_bytes()));
}

pub fn make() -> Stored {
    let mut r = Replay::new();
    records(&mut r, &mut SplitMix64::new(13));
    r.tally.tell();
    Stored::new(r.list, ROOM, r.lines)
}
