//! The list that crates/course_vectors replays, and what it must answer.
//!
//! The list is 64-bit words, the low byte first: for each record a code and its arguments, floats by their bits.
//! Courses, index lists and curbs are the Rust's: `from_points`, `border_quads` and `candidate_tiles` of the
//! reference's track.rs. The Rust refuses nothing and lends nothing; which call is refused by what number, what
//! stands in a lent column around the Rust's numbers, and what a damaged index answers, is written out in ../model.rs,
//! ../lent.rs and here from document 01 ("Lent", "Refusals by cause", "Tiles and index"). After each call the answer
//! holds a hash of every whole column, so a number written where none belongs shows.
use super::Stored;
use crate::car::step;
use crate::lent::{between, hash, hash_floats, hash_ids, put, roomy, stated, Lent, STATED, UNTOUCHED};
use crate::model::given_cause;
use oracle::oracle::{probe, Track, TrackPoint};
use reinfors_core::SplitMix64;
use std::fmt::Write;

const GIVE: u64 = 1;
const REPEAT: u64 = 2;
const POINTS: u64 = 3;
const CURBS: u64 = 4;
const OFFSET: u64 = 5;
const LOOKUP: u64 = 6;

/// The program's buffer, in bytes: a longer list would be cut off.
const ROOM: usize = 524_288;

/// The lengths of the program's columns: alpha, beta, x, y, tiles, offsets, index list; quads, white marks.
const LONG: [usize; 7] = [2_600, 2_600, 2_600, 2_600, 20_100, 4_600, 450_000];
const LONG_CURBS: [usize; 2] = [20_100, 2_600];

/// The lengths of document 01.
const STATED_CURBS: [usize; 2] = [20_000, 2_500];

/// What stands in each place of the lent marks before a call.
const UNTOUCHED_MARK: u8 = 7;

/// Above how steep a turn a curb may stand: `border_quads`'s expression.
const STEEP: f64 = 0.31 * 0.2;

/// The list and its answers as they grow, and what stands from record to record: the given columns beta, x, y;
/// the index of the last call of points, with its track where that is the track's and unaltered.
struct Replay {
    list: Vec<u8>,
    lines: String,
    given: [Vec<f64>; 3],
    lent: Lent,
    track: Option<Track>,
    /// How many records of points, curbs and look-up there are; how many were refused by each cause.
    records: [usize; 3],
    refused: [[usize; 10]; 2],
}

impl Replay {
    fn new() -> Replay {
        Replay {
            list: Vec::new(),
            lines: String::new(),
            given: [0; 3].map(|_| vec![0.0; LONG[1]]),
            lent: Lent { floats: Vec::new(), offsets: vec![0; LONG[5]], ids: vec![0; LONG[6]] },
            track: None,
            records: [0; 3],
            refused: [[0; 10]; 2],
        }
    }
    fn ask(&mut self, code: u64, arguments: impl IntoIterator<Item = u64>) {
        self.list.extend(code.to_le_bytes());
        for w in arguments {
            self.list.extend(w.to_le_bytes());
        }
    }
    fn whole(&mut self, n: usize) {
        writeln!(self.lines, "{n}").unwrap();
    }
    fn hex(&mut self, bits: u64) {
        writeln!(self.lines, "{bits:016x}").unwrap();
    }
    fn refuse(&mut self, call: usize, cause: usize) {
        self.refused[call][cause] += 1;
        writeln!(self.lines, "refused {cause}").unwrap();
    }

    /// The points into the given columns from place `first` on.
    fn give(&mut self, first: usize, points: &[TrackPoint]) {
        let numbers = points.iter().flat_map(|p| [p.beta, p.x, p.y]).map(f64::to_bits);
        self.ask(GIVE, [first as u64, points.len() as u64].into_iter().chain(numbers));
        for (i, p) in points.iter().enumerate() {
            (self.given[0][first + i], self.given[1][first + i], self.given[2][first + i]) = (p.beta, p.x, p.y);
        }
    }
    /// The given columns up to `count` repeat their first `period` points.
    fn repeat(&mut self, period: usize, count: usize) {
        self.ask(REPEAT, [period as u64, count as u64]);
        for col in &mut self.given {
            for i in period..count {
                col[i] = col[i - period];
            }
        }
    }
    fn point(&self, i: usize) -> TrackPoint {
        TrackPoint { beta: self.given[0][i], x: self.given[1][i], y: self.given[2][i] }
    }
    fn taken(&self, count: usize) -> Vec<TrackPoint> {
        (0..count).map(|i| self.point(i)).collect()
    }
    /// The first of the causes 9, 2 and 8 that holds, else 0. A point is given where it stands in all three columns.
    fn cause(&self, count: u32, [beta, x, y]: [usize; 3], room: bool) -> usize {
        given_cause(&self.taken(beta.min(x).min(y)), count, room)
    }

    fn points(&mut self, count: u32, given: [usize; 3], lent: [usize; 7]) {
        assert!(given.iter().all(|&l| l <= LONG[1]) && lent.iter().zip(LONG).all(|(&l, most)| l <= most));
        self.records[0] += 1;
        self.ask(POINTS, [count as u64].into_iter().chain(given.into_iter().chain(lent).map(|l| l as u64)));
        self.lent = Lent::untouched(&LONG);
        self.track = None;
        let cause = self.cause(count, given, roomy(&lent, &STATED));
        if cause > 0 {
            self.refuse(0, cause);
        } else {
            let track = probe::given(self.taken(count as usize), false);
            match self.lent.write(&track, lent[6]) {
                Ok(lines) => {
                    self.lines += &lines;
                    self.track = Some(track);
                }
                Err(lines) => {
                    self.refused[0][3] += 1;
                    self.lines += &lines;
                }
            }
        }
        self.lines += &self.lent.lines();
    }

    fn curbs(&mut self, count: u32, given: [usize; 3], lent: [usize; 2]) {
        assert!(given.iter().all(|&l| l <= LONG[1]) && lent.iter().zip(LONG_CURBS).all(|(&l, most)| l <= most));
        self.records[1] += 1;
        self.ask(CURBS, [count as u64].into_iter().chain(given.into_iter().chain(lent).map(|l| l as u64)));
        let (mut quads, mut white) = (vec![UNTOUCHED; LONG_CURBS[0]], vec![UNTOUCHED_MARK; LONG_CURBS[1]]);
        let cause = self.cause(count, given, roomy(&lent, &STATED_CURBS));
        if cause > 0 {
            self.refuse(1, cause);
        } else {
            let curbs = probe::curbs(&self.taken(count as usize));
            put(&mut quads, curbs.iter().flat_map(|c| c.quad.into_iter().flatten()), STATED_CURBS[0]);
            put(&mut white, curbs.iter().map(|c| c.white.into()), STATED_CURBS[1]);
            self.whole(curbs.len());
        }
        self.hex(hash_floats(&quads));
        self.hex(hash(white.iter().map(|&w| w.into())));
    }

    fn offset(&mut self, at: usize, value: u32) {
        self.ask(OFFSET, [at as u64, value as u64]);
        self.lent.offsets[at] = value;
        self.track = None;
    }
    /// The part of the list between the cell's two offsets; the empty part where these are missing, fall or pass the
    /// list. Of a whole index that is the Rust's answer too.
    fn lookup(&mut self, offsets: usize, ids: usize, x: f64, y: f64) {
        self.records[2] += 1;
        self.ask(LOOKUP, [offsets as u64, ids as u64, x.to_bits(), y.to_bits()]);
        let cell = probe::cell(y) * 67 + probe::cell(x);
        let (lent, list) = (&self.lent.offsets[..offsets], &self.lent.ids[..ids]);
        let part = match lent {
            o if o.len() < cell + 2 => &list[..0],
            o if o[cell + 1] < o[cell] || list.len() < o[cell + 1] as usize => &list[..0],
            o => &list[o[cell] as usize..o[cell + 1] as usize],
        };
        if let Some(t) = &self.track {
            if offsets >= STATED[5] && ids >= probe::raw_ref(t).1.len() {
                assert_eq!(part, t.candidate_tiles(x, y));
            }
        }
        let (length, sum) = (part.len(), hash_ids(part));
        self.whole(length);
        self.hex(sum);
    }
    /// A look-up in the whole index.
    fn find(&mut self, x: f64, y: f64) {
        self.lookup(LONG[5], LONG[6], x, y);
    }
}

fn at(beta: f64, x: f64, y: f64) -> TrackPoint {
    TrackPoint { beta, x, y }
}

/// Which points have a curb: by `border_quads`, or by a misreading, where spread marks are spread on (`cascade`) or a
/// point's own judgement takes back what was spread to it (`overwrite`).
fn marks(points: &[TrackPoint], cascade: bool, overwrite: bool) -> Vec<bool> {
    let n = points.len();
    let turn = |i: usize| points[i % n].beta - points[(i + n - 1) % n].beta;
    let judge = |i: usize| {
        let turns = [0, 1, 2, 3].map(|k| turn(i + 4 * n - k));
        turns.iter().all(|t| t.abs() > STEEP) && (turns.iter().all(|&t| t > 0.0) || turns.iter().all(|&t| t < 0.0))
    };
    let mut border: Vec<bool> = (0..n).map(judge).collect();
    let judged = border.clone();
    for i in 0..n {
        if overwrite {
            border[i] = judged[i];
        }
        if if cascade { border[i] } else { judged[i] } {
            for k in 0..4 {
                border[(i + 4 * n - k) % n] = true;
            }
        }
    }
    border
}

/// Curbs on the n points that are given: with the stated lengths, and with all that there is.
fn curbs_twice(r: &mut Replay, n: usize) {
    r.curbs(n as u32, [n; 3], STATED_CURBS);
    r.curbs(n as u32, [n, LONG[1], LONG[1].min(n + 7)], LONG_CURBS);
}

/// All calls on some points: the index list one too short, all columns longer than stated, and each of just the
/// length that it must have; look-ups in that index; curbs.
fn course(r: &mut Replay, g: &mut SplitMix64, points: &[TrackPoint]) {
    let n = points.len();
    r.give(0, points);
    let track = probe::given(points.to_vec(), false);
    let need = probe::raw_ref(&track).1.len();
    r.points(n as u32, [n; 3], stated(need - 1));
    r.points(n as u32, [LONG[1], n, LONG[1].min(n + 7)], LONG);
    r.points(n as u32, [n; 3], stated(need));
    for _ in 0..6 {
        let p = points[g.next_u64() as usize % n];
        r.find(p.x, p.y);
        r.find(p.x + between(g, -20.0, 20.0), p.y + between(g, -20.0, 20.0));
    }
    r.lookup(STATED[5], need, points[n - 1].x, points[n - 1].y);
    r.lookup(STATED[5], need - 1, points[n - 1].x, points[n - 1].y);
    curbs_twice(r, n);
}

/// One, two and three points: in the middle, in the corners and outside the grid, at the ends of the angles.
fn few_points(r: &mut Replay, g: &mut SplitMix64) {
    let ends = [-1000.0, 1000.0];
    for p in [at(0.0, 0.0, 0.0), at(-0.0, -0.0, -0.0), at(0.7, 7.0, -330.0), at(-1.5707963267948966, 333.0, 334.0)] {
        course(r, g, &[p]);
    }
    for x in ends {
        for y in ends {
            course(r, g, &[at(16.0, x, y)]);
            course(r, g, &[at(-16.0, x, y), at(3.0, -x, -y)]);
            course(r, g, &[at(0.1, x, y), at(0.2, x, -y), at(0.3, 0.0, 0.0)]);
        }
    }
    course(r, g, &[at(5e-324, 1e-300, -5e-324), at(-5e-324, -1e-300, 5e-324)]);
    course(r, g, &[at(1.0, -1000.0, 20.0), at(1.5, 1000.0, 20.0)]);
    course(r, g, &[at(1.0, 20.0, -1000.0), at(2.5, 20.0, 1000.0), at(2.6, 21.0, 1000.0)]);
    for x in ends {
        for y in ends {
            r.find(x, y);
        }
    }
}

/// Points that alternate between opposite corners: each tile stands in all 4,489 cells.
fn corners(r: &mut Replay) {
    r.give(0, &[at(0.5, -1000.0, -1000.0), at(-0.5, 1000.0, 1000.0)]);
    r.repeat(2, 2_500);
    for n in [2, 3, 50, 100] {
        let need = n * 4_489;
        r.points(n as u32, [n; 3], stated(need - 1));
        r.points(n as u32, [n; 3], stated(need));
        for (x, y) in [(-1000.0, -1000.0), (1000.0, -1000.0), (3.0, 4.0), (1000.0, 1000.0)] {
            r.lookup(STATED[5], need, x, y);
        }
    }
    // the largest list of all, 11,222,500 long
    r.points(2_500, [2_500; 3], stated(0));
    r.points(2_500, [2_500; 3], LONG);
    curbs_twice(r, 2_500);
}

/// Courses of seeds. Of the curbs, some seeds tell a spread that goes on from spread marks, and some a spread
/// that a later judgement takes back.
fn seeds(r: &mut Replay, g: &mut SplitMix64) {
    let (cascades, overwrites) = ([417, 525, 743, 801, 893, 906], [3420, 8385, 8862, 11086]);
    for seed in [0, 1].into_iter().chain(cascades).chain(overwrites) {
        let points = Track::generate(seed).points;
        let right = marks(&points, false, false);
        assert_eq!(right.iter().filter(|&&b| b).count(), probe::curbs(&points).len());
        assert!(!cascades.contains(&seed) || right != marks(&points, true, false), "{seed} tells no cascade");
        assert!(!overwrites.contains(&seed) || right != marks(&points, false, true), "{seed} tells no overwrite");
        course(r, g, &points);
    }
}

/// Random points: few and far apart, or many and near, with sharp turns.
fn walk(g: &mut SplitMix64, n: usize) -> Vec<TrackPoint> {
    let far = if n <= 8 { 1000.0 } else { 3.0 };
    let (mut b, mut x, mut y) = (between(g, -6.0, 6.0), between(g, -300.0, 300.0), between(g, -300.0, 300.0));
    let mut point = |i: usize| {
        b += if i % 11 < 6 { between(g, 0.0, 0.2) } else { between(g, -0.3, 0.0) };
        b = b.clamp(-16.0, 16.0);
        x = (x + between(g, -far, far)).clamp(-1000.0, 1000.0);
        y = (y + between(g, -far, far)).clamp(-1000.0, 1000.0);
        at(b, x, y)
    };
    (0..n).map(&mut point).collect()
}

fn walks(r: &mut Replay, g: &mut SplitMix64) {
    for _ in 0..4 {
        for n in 1..=8 {
            let points = walk(g, n);
            course(r, g, &points);
        }
        let points = walk(g, 50);
        course(r, g, &points);
    }
    for n in [333, 2_500] {
        let points = walk(g, n);
        course(r, g, &points);
    }
}

/// Curbs alone: turns around the least that counts, runs of them to one side, none, and back, round the end.
fn turns(r: &mut Replay, g: &mut SplitMix64) {
    let mut tell = [0, 0];
    for k in 0..150 {
        let n = 4 + k % 13;
        let (mut b, mut side) = (0.0, 1.0);
        let mut point = |i: usize| {
            side = if g.next_u64() % 6 == 0 { -side } else { side };
            let t = [STEEP, step(STEEP, 1), step(STEEP, -1), 0.3, 0.07, 0.07, 0.08, 0.09, 0.1, 0.0];
            b += side * t[(g.next_u64() % if k % 3 == 0 { 10 } else { 9 }) as usize];
            at(b, i as f64, between(g, -9.0, 9.0))
        };
        let points: Vec<TrackPoint> = (0..n).map(&mut point).collect();
        let right = marks(&points, false, false);
        tell[0] += usize::from(right != marks(&points, true, false));
        tell[1] += usize::from(right != marks(&points, false, true));
        r.give(0, &points);
        r.curbs(n as u32, [n; 3], STATED_CURBS);
    }
    eprintln!("of 150 lists of turns {} tell a cascading spread, {} a judgement that overwrites", tell[0], tell[1]);
}

/// Both calls, with nothing short and the index list long enough.
fn both(r: &mut Replay, count: u32, given: [usize; 3]) {
    r.points(count, given, LONG);
    r.curbs(count, given, STATED_CURBS);
}

/// Cause 8, alone: the ends of the ranges are in, the floats behind them and what is not finite are out, in each
/// column, at the first, a middle and the last point; a point behind the count is not tested.
fn ranges(r: &mut Replay) {
    let good = at(0.25, 10.0, -20.0);
    let nan = f64::from_bits(0xfff4_0000_0000_0001);
    for column in 0..3 {
        let end = [16.0, 1000.0, 1000.0][column];
        let with = |v: f64| {
            let mut p = [good.beta, good.x, good.y];
            p[column] = v;
            at(p[0], p[1], p[2])
        };
        let inf = f64::INFINITY;
        r.give(0, &[good; 4]);
        for v in [end, -end, step(end, -1), step(end, 1), step(-end, -1), f64::NAN, nan, inf, -inf] {
            r.give(1, &[with(v)]);
            both(r, 3, [3; 3]);
        }
        for v in [step(end, 1), f64::NAN, -1e300] {
            for place in [0, 2, 3] {
                r.give(0, &[good; 4]);
                r.give(place, &[with(v)]);
                both(r, 3, [3, 4, 5]);
            }
        }
    }
}

/// Cause 8 at the last of 2,500 points, and not one behind it.
fn ranges_of_many(r: &mut Replay) {
    r.give(0, &[at(0.5, 1.0, 2.0)]);
    r.repeat(1, 2_600);
    r.give(2_500, &[at(17.0, f64::NAN, 2000.0)]);
    both(r, 2_500, [2_500, 2_600, 2_501]);
    for bad in [at(-17.0, 1.0, 2.0), at(0.5, 1001.0, 2.0), at(0.5, 1.0, f64::NAN)] {
        r.give(2_499, &[bad]);
        both(r, 2_500, [2_500; 3]);
        both(r, 2_499, [2_500; 3]);
    }
}

/// Every lent column in turn, shorter than stated.
fn short(r: &mut Replay, count: u32, given: [usize; 3], list: usize, by: &[usize]) {
    for k in 0..6 {
        for &less in by {
            let mut lent = stated(list);
            lent[k] -= less.min(lent[k]);
            r.points(count, given, lent);
        }
    }
    for k in 0..2 {
        for &less in by {
            let mut lent = STATED_CURBS;
            lent[k] -= less.min(lent[k]);
            r.curbs(count, given, lent);
        }
    }
}

/// Every given column in turn, shorter than the count.
fn short_given(r: &mut Replay, count: u32, list: usize) {
    for k in 0..3 {
        for length in [0, count as usize - 1] {
            let mut given = [LONG[1]; 3];
            given[k] = length;
            r.points(count, given, stated(list));
            r.curbs(count, given, STATED_CURBS);
        }
    }
}

/// Causes 9, 2 and 3 alone, then pairs: 9 with 2, 8 and 3; 2 with 8 and 3; 8 with 3.
fn refusals(r: &mut Replay) {
    let good = at(0.25, 10.0, -20.0);
    let bad = at(0.25, 1000.5, -20.0);
    let (all, none) = ([LONG[1]; 3], [0; 3]);
    r.give(0, &[good]);
    r.repeat(1, 2_600);
    for count in [0, 2_501, 2_600, 1 << 31, u32::MAX] {
        both(r, count, all);
        both(r, count, none);
        short(r, count, all, 100, &[1]);
    }
    short(r, 4, [4; 3], 100, &[1, 100_000]);
    short(r, 2_500, [2_500; 3], 100_000, &[1]);
    short_given(r, 4, 100);
    short_given(r, 1, 100);
    short_given(r, 2_500, 100_000);
    // both given and lent columns short; no list; an empty column of everything
    short(r, 4, [3; 3], 0, &[1]);
    r.points(4, [4; 3], stated(0));
    r.points(4, [4; 3], [0; 7]);
    r.curbs(4, [4; 3], [0; 2]);
    // with a point out of range
    r.give(0, &[bad]);
    for count in [0, 2_501] {
        both(r, count, all);
        short(r, count, all, 0, &[1]);
        r.points(count, all, stated(0));
    }
    short(r, 4, [4; 3], 100, &[1]);
    short(r, 4, [4; 3], 0, &[1]);
    short_given(r, 4, 100);
    short_given(r, 4, 0);
    r.points(4, [4; 3], stated(0));
    both(r, 4, [4; 3]);
}

/// Look-ups in whole, short and damaged indexes.
fn lookups(r: &mut Replay, g: &mut SplitMix64) {
    let points = walk(g, 50);
    r.give(0, &points);
    r.points(50, [50; 3], LONG);
    let need = probe::raw_ref(r.track.as_ref().unwrap()).1.len();
    let nan = f64::from_bits(0xfff4_0000_0000_0001);
    let ends = [f64::NAN, nan, f64::INFINITY, -f64::INFINITY, 1e300, -1e6, 0.0, -0.0, 333.3, -333.3];
    for x in ends {
        for y in ends {
            r.find(x, y);
        }
    }
    for _ in 0..100 {
        let (x, y) = (between(g, -340.0, 340.0), between(g, -340.0, 340.0));
        r.find(x, y);
    }
    let (x, y) = (points[20].x, points[20].y);
    let cell = probe::cell(y) * 67 + probe::cell(x);
    let (a, e) = (r.lent.offsets[cell], r.lent.offsets[cell + 1]);
    for offsets in [0, 1, cell, cell + 1, cell + 2, cell + 3, STATED[5] - 1, STATED[5]] {
        for ids in [0, a as usize, e as usize - 1, e as usize, e as usize + 1, need] {
            r.lookup(offsets, ids, x, y);
        }
    }
    let most = u32::MAX;
    for (from, to) in [(a, a), (e, e), (e, a), (e + 1, e), (0, 0), (0, e), (a, need as u32), (most, 0), (0, most)] {
        r.offset(cell, from);
        r.offset(cell + 1, to);
        for ids in [0, to as usize, need, LONG[6]] {
            r.lookup(STATED[5], ids.min(LONG[6]), x, y);
        }
        r.find(x + 10.0, y);
        r.find(x - 10.0, y);
    }
    damaged_corners(r);
}

/// The first and the last cell: of an index that no call wrote, of one that an OFFSET wrote whole.
fn damaged_corners(r: &mut Replay) {
    r.points(0, [0; 3], LONG);
    let corners = [(-1000.0, -1000.0), (f64::NAN, f64::NAN), (1000.0, 1000.0), (1000.0, -1000.0)];
    for round in 0..3 {
        for (x, y) in corners {
            r.find(x, y);
            for offsets in [1, 2, 3, 67, 68, 4_488, 4_489, 4_490] {
                r.lookup(offsets, 70, x, y);
            }
        }
        let ends = [(0, 3), (1, 7), (66, 9), (67, 60), (4_488, 60), (4_489, 70 + round % 2)];
        for (place, value) in ends {
            r.offset(place, value);
        }
    }
}

pub fn make() -> Stored {
    let mut r = Replay::new();
    let mut g = SplitMix64::new(9);
    few_points(&mut r, &mut g);
    corners(&mut r);
    seeds(&mut r, &mut g);
    walks(&mut r, &mut g);
    turns(&mut r, &mut g);
    ranges(&mut r);
    ranges_of_many(&mut r);
    refusals(&mut r);
    lookups(&mut r, &mut g);
    // An unknown code ends the run: the record behind it has no answer.
    r.ask(0, []);
    r.ask(LOOKUP, [0; 4]);
    let [points, curbs, lookups] = r.records;
    eprintln!("{points} of points, {curbs} of curbs, {lookups} of look-up");
    eprintln!("refused, by cause from 0: points {:?}, curbs {:?}", r.refused[0], r.refused[1]);
    Stored::new(r.list, ROOM, r.lines)
}
