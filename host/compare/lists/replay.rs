//! The list that crates/replay_vectors replays, and what it must answer.
//!
//! The list is 64-bit words, the low byte first: for each record a whole log, that is the arguments of one call of
//! replay, floats by their bits. Courses are the Rust's `Track::generate` (../seeds.rs), and what an accepted call answers is the
//! Rust's too: its `realize_from` for the start, and its `step` for a drive and the settle after it, over one run from
//! the start to the end. The Rust refuses nothing, lends nothing, takes no turns and has no tick limit: which call is
//! refused by what number, the sheet, how calls and answers stand in their columns and what is left untouched there, is
//! written out here from document 01 ("The plain scorer", "Refusals by cause", "Beside the run") and in ../lent.rs.
//!
//! Random values come from the reference's SplitMix64 at a fixed seed, so the files come out the same each time.
use super::blocks::{append, ROOM};
use super::Stored;
use crate::car::{beyond, bits, car, five, near, near_car, numbers, pick, road_motion, step, FAR, MOST};
use crate::lent::{between, hash, hash_ids, roomy, stated, Lent, STATED, UNTOUCHED, UNTOUCHED_ID};
use crate::seeds::{course, WIDE};
use oracle::oracle::{probe, Run, Settled, Track, TrackPoint};
use oracle::{Motion, Pose, Push};
use reinfors_core::SplitMix64;
use std::sync::Arc;

const REPLAY: u64 = 1;

/// The lengths of the program's columns: alpha, beta, x, y, tiles, offsets, index list; calls, given numbers, answered
/// words, answered numbers.
const LONG: [usize; 7] = [2_600, 2_600, 2_600, 2_600, 20_100, 4_600, 30_000];
const LONG_CALLS: [usize; 4] = [3_700, 18_100, 3_700, 10_900];

/// Entries of these four to a call, and the most calls of a record.
const WIDTHS: [usize; 4] = [4, 20, 4, 12];
const MOST_CALLS: usize = 900;

/// The lengths of the tiles and offsets that a settle is lent, where it is not refused for them.
const ENOUGH: [u32; 2] = [20_000, 4_490];

/// A call in its words and numbers.
#[derive(Clone)]
struct Call {
    words: [u32; 4],
    numbers: [f64; 20],
}

/// A drive; what it does not read is anything.
fn drive(action: u32, motions: &[Motion; 4]) -> Call {
    let mut given = motions.iter().flat_map(five);
    Call { words: [0, action, 7, 7], numbers: [0; 20].map(|_| given.next().unwrap()) }
}

/// A settle; what it does not read is anything.
fn settle(lent: [u32; 2], x: f64, y: f64, poses: &[Pose; 4]) -> Call {
    let mut given = [x, y].into_iter().chain(poses.iter().flat_map(numbers)).chain([f64::NAN, 1e300]);
    Call { words: [1, 9, lent[0], lent[1]], numbers: [0; 20].map(|_| given.next().unwrap()) }
}

/// What a log says: the arguments of replay, and the calls that stand in it, which may be more or fewer than are asked
/// for.
#[derive(Clone)]
struct Log {
    seed: u64,
    lent: [usize; 7],
    share: f64,
    limit: u32,
    poses: [Pose; 4],
    many: u32,
    lent_calls: [usize; 4],
    calls: Vec<Call>,
}

impl Log {
    /// All calls that stand in it, in columns of just the lengths needed.
    fn exact(self) -> Log {
        let many = self.calls.len();
        Log { many: many as u32, lent_calls: WIDTHS.map(|w| w * many), ..self }
    }
    fn words(&self) -> impl Iterator<Item = u64> + '_ {
        let lengths = |l: &'_ [usize]| l.iter().map(|&n| n as u64).collect::<Vec<u64>>();
        [REPLAY, self.seed]
            .into_iter()
            .chain(lengths(&self.lent))
            .chain([self.share.to_bits(), self.limit.into()])
            .chain(self.poses.iter().flat_map(numbers).map(f64::to_bits))
            .chain([self.many.into()])
            .chain(lengths(&self.lent_calls))
            .chain([self.calls.len() as u64])
            .chain(self.calls.iter().flat_map(|c| c.words).map(u64::from))
            .chain(self.calls.iter().flat_map(|c| c.numbers).map(f64::to_bits))
    }
    /// The call at place i of the columns: behind those that stand in the log the columns hold what no call writes.
    fn call(&self, i: usize) -> Call {
        let none = Call { words: [UNTOUCHED_ID; 4], numbers: [UNTOUCHED; 20] };
        self.calls.get(i).cloned().unwrap_or(none)
    }
    /// The columns of calls and answers have room for the calls asked for.
    fn has_room(&self) -> bool {
        self.lent_calls.iter().zip(WIDTHS).all(|(&l, w)| w * self.many as usize <= l)
    }
    /// The first of start's causes that holds, else 0, on a course of n tiles.
    fn start_cause(&self, n: usize) -> u32 {
        if !(0.0..=1.0).contains(&self.share) || !(1..=1_000_000).contains(&self.limit) {
            1
        } else if self.lent[4] < STATED[4] || self.lent[5] < STATED[5] || !(1..=MOST as usize).contains(&n) {
            2
        } else if !self.poses.iter().flat_map(numbers).all(near) {
            8
        } else {
            0
        }
    }
}

enum Answer {
    Forces([Push; 4]),
    Settled(Settled),
    Refused(u32),
}

impl Answer {
    fn words(&self) -> [u32; 4] {
        match self {
            Answer::Forces(_) => [0; 4],
            Answer::Settled(s) => {
                let flags = u32::from(s.off) + 2 * u32::from(s.lap) + 4 * u32::from(s.ended);
                [1, s.new_tiles, s.n, flags]
            }
            Answer::Refused(cause) => [2, *cause, 0, 0],
        }
    }
    fn numbers(&self) -> [f64; 12] {
        let Answer::Forces(push) = self else { return [0.0; 12] };
        let mut of = push.iter().flat_map(|f| [f.motor, f.fx, f.fy]);
        [0; 12].map(|_| of.next().unwrap())
    }
    fn line(&self) -> String {
        match self {
            Answer::Forces(_) => self.numbers().iter().fold("forces".into(), |l, &x| format!("{l} {:016x}", bits(x))),
            Answer::Settled(s) => {
                let [off, lap, ended] = [s.off, s.lap, s.ended].map(u32::from);
                format!("settled {} {} {off} {lap} {ended}", s.new_tiles, s.n)
            }
            Answer::Refused(cause) => format!("refused {cause}"),
        }
    }
}

/// A run that was started: the Rust's, and beside it what the Rust has not: the tick limit, the drive that awaits its
/// settle (the Rust makes one step of both), and the end.
struct Graded {
    rust: Run,
    limit: u32,
    driven: Option<(usize, [Motion; 4])>,
    ended: bool,
}

impl Graded {
    fn start(track: Arc<Track>, log: &Log) -> Graded {
        let rust = Run::start(track, log.share, Pose::default(), log.poses);
        Graded { rust, limit: log.limit, driven: None, ended: false }
    }
    fn drive(&mut self, action: u32, m: [Motion; 4]) -> Answer {
        let cause = if self.ended {
            4
        } else if self.driven.is_some() {
            5
        } else if self.rust.tick() >= self.limit {
            6
        } else if action > 4 {
            7
        } else if !m.iter().flat_map(five).all(near) {
            8
        } else {
            // The forces come before the physics, so the poses after it do not count.
            self.driven = Some((action as usize, m));
            let ahead = self.rust.clone().step(action as usize, &m, Pose::default(), [Pose::default(); 4]);
            return Answer::Forces(ahead.push);
        };
        Answer::Refused(cause)
    }
    fn settle(&mut self, lent: [usize; 2], x: f64, y: f64, poses: [Pose; 4]) -> Answer {
        let cause = match self.driven {
            _ if self.ended => 4,
            None => 5,
            _ if lent[0] < STATED[4] || lent[1] < STATED[5] => 2,
            _ if !near(x) || !near(y) || !poses.iter().flat_map(numbers).all(near) => 8,
            Some((action, m)) => {
                let settled = self.rust.step(action, &m, Pose { x, y, cos: 1.0, sin: 0.0 }, poses);
                (self.driven, self.ended) = (None, settled.ended);
                return Answer::Settled(settled);
            }
        };
        Answer::Refused(cause)
    }
    /// The answer to a call, where so many tiles and offsets are lent.
    fn answer(&mut self, call: &Call, tiles: usize, offsets: usize) -> Answer {
        let n = &call.numbers;
        if call.words[0] == 0 {
            let motion = |k| Motion { joint_angle: n[k], sin: n[k + 1], cos: n[k + 2], vx: n[k + 3], vy: n[k + 4] };
            return self.drive(call.words[1], [0, 5, 10, 15].map(motion));
        }
        let lent = [(call.words[2] as usize).min(tiles), (call.words[3] as usize).min(offsets)];
        let pose = |k| Pose { x: n[k], y: n[k + 1], cos: n[k + 2], sin: n[k + 3] };
        self.settle(lent, n[0], n[1], [2, 6, 10, 14].map(pose))
    }
    fn sheet(&self, track: &Track) -> String {
        let (n, credited) = (track.tiles.len() as u32, self.rust.credited());
        let [lap, ended, fallback] = [self.rust.lap(), self.ended, track.fallback].map(u32::from);
        format!("sheet {} {credited} {n} {lap} {ended} {fallback} {}", self.rust.tick(), 1000 * credited / n)
    }
}

/// The list and its answers as they grow; what is counted: records, those refused as a whole, by lay and by start, with
/// each cause; calls with forces, settled, left untouched, and refused by each cause; the longest log.
#[derive(Default)]
struct Replay {
    list: Vec<u8>,
    lines: String,
    records: usize,
    whole: usize,
    lay: [usize; 4],
    start: [usize; 9],
    answered: [usize; 3],
    refused: [usize; 9],
    longest: usize,
}

impl Replay {
    fn line(&mut self, line: &str) {
        self.lines += line;
        self.lines += "\n";
    }
    /// The course, and lay's answer.
    fn lay(&mut self, log: &Log, columns: &mut Lent) -> Option<Arc<Track>> {
        if !roomy(&log.lent, &STATED) {
            self.lay[2] += 1;
            self.line("refused 2");
            return None;
        }
        let track = course(log.seed);
        let answer = columns.write(&track, log.lent[6]);
        self.lay[if answer.is_ok() { 0 } else { 3 }] += 1;
        self.lines += answer.as_ref().unwrap_or_else(|refused| refused);
        answer.is_ok().then(|| Arc::new(track))
    }
    /// The start's answer, the answers of all calls asked for, and the sheet.
    fn grade(&mut self, log: &Log, track: Option<Arc<Track>>) -> (Vec<Answer>, String) {
        let many = log.many as usize;
        let cause = log.start_cause(track.as_ref().map_or(0, |t| t.tiles.len()));
        self.start[cause as usize] += 1;
        let (0, Some(track)) = (cause, track) else {
            self.line(&format!("refused {cause}"));
            return ((0..many).map(|_| Answer::Refused(4)).collect(), "refused 4".into());
        };
        let mut run = Graded::start(track.clone(), log);
        self.line(&format!("started {} {}", run.rust.credited(), u32::from(run.rust.lap())));
        let answers = (0..many).map(|i| run.answer(&log.call(i), log.lent[4], log.lent[5])).collect();
        (answers, run.sheet(&track))
    }
    /// Lines for the calls that stand in the log, whether they were asked for or not.
    fn lines_of(&mut self, log: &Log, answers: &[Answer]) {
        for i in 0..log.calls.len() {
            match answers.get(i) {
                Some(Answer::Forces(_)) => self.answered[0] += 1,
                Some(Answer::Settled(_)) => self.answered[1] += 1,
                Some(Answer::Refused(cause)) => self.refused[*cause as usize] += 1,
                None => self.answered[2] += 1,
            }
            self.line(&answers.get(i).map_or("untouched".into(), Answer::line));
        }
    }
    /// The hashes of the columns of answered words and numbers.
    fn hashes_of(&mut self, answers: &[Answer]) {
        let mut words = vec![UNTOUCHED_ID; LONG_CALLS[2]];
        let mut values = vec![UNTOUCHED; LONG_CALLS[3]];
        for (i, answer) in answers.iter().enumerate() {
            words[4 * i..4 * i + 4].copy_from_slice(&answer.words());
            values[12 * i..12 * i + 12].copy_from_slice(&answer.numbers());
        }
        self.line(&format!("{:016x}", hash_ids(&words)));
        self.line(&format!("{:016x}", hash(values.into_iter().map(bits))));
    }
    fn record(&mut self, log: &Log) {
        assert!(log.lent.iter().zip(LONG).all(|(&l, most)| l <= most) && log.calls.len() <= MOST_CALLS);
        assert!(log.lent_calls.iter().zip(LONG_CALLS).all(|(&l, most)| l <= most));
        append(&mut self.list, log.words());
        self.records += 1;
        self.longest = self.longest.max(log.calls.len());
        let mut columns = Lent::untouched(&LONG);
        let (mut answers, mut sheet) = (Vec::new(), "refused 4".into());
        if log.has_room() {
            let track = self.lay(log, &mut columns);
            (answers, sheet) = self.grade(log, track);
        } else {
            self.whole += 1;
            self.lines += "refused 2\nrefused 2\n";
        }
        self.lines_of(log, &answers);
        self.line(&sheet);
        self.lines += &columns.lines();
        self.hashes_of(&answers);
    }
}

/// A log as it grows, and the run that it has come to: a car that goes from place to place, its wheels' poses at the
/// place before and at this one, and the angle of its front wheels.
struct Driver {
    log: Log,
    run: Graded,
    before: [Pose; 4],
    now: [Pose; 4],
    angle: f64,
}

/// The wheels of a car at a place, the front ones turned by the angle.
fn wheels(place: &TrackPoint, angle: f64) -> [Pose; 4] {
    let (straight, turned) = (car(place, 0.0, 0.0, 0.0), car(place, angle, 0.0, 0.0));
    [0, 1, 2, 3].map(|i| {
        let Pose { cos, sin, .. } = if i < 2 { turned[i] } else { straight[i] };
        Pose { cos, sin, ..straight[i] }
    })
}

impl Driver {
    /// At a point of the seed's course.
    fn start(seed: u64, lent: [usize; 7], share: f64, limit: u32, at: usize) -> Driver {
        let track = course(seed);
        let poses = wheels(&track.points[at], 0.0);
        let log = Log { seed, lent, share, limit, poses, many: 0, lent_calls: [0; 4], calls: Vec::new() };
        let run = Graded::start(Arc::new(track), &log);
        Driver { log, run, before: poses, now: poses, angle: 0.0 }
    }
    fn ask(&mut self, call: Call) -> Answer {
        let answer = self.run.answer(&call, self.log.lent[4], self.log.lent[5]);
        self.log.calls.push(call);
        answer
    }
    /// A call that is refused by this number.
    fn refused(&mut self, cause: u32, call: Call) {
        let answer = self.ask(call);
        assert!(matches!(answer, Answer::Refused(k) if k == cause), "{} is not {cause}", answer.line());
    }
    /// How the wheels move: as they did from the place before to this one, in a fiftieth of a second.
    fn motions(&self) -> [Motion; 4] {
        [0, 1, 2, 3].map(|i| {
            let (from, to) = (&self.before[i], &self.now[i]);
            let [vx, vy] = [to.x - from.x, to.y - from.y].map(|d| (d * 50.0) as f32 as f64);
            Motion { joint_angle: if i < 2 { self.angle } else { 0.0 }, sin: to.sin, cos: to.cos, vx, vy }
        })
    }
    /// A drive as the car moves now, which brings it to the next place.
    fn drive_to(&mut self, action: u32, place: &TrackPoint, angle: f64) {
        let answer = self.ask(drive(action, &self.motions()));
        assert!(matches!(answer, Answer::Forces(_)), "{}", answer.line());
        (self.before, self.now, self.angle) = (self.now, wheels(place, angle), angle);
    }
    /// A settle where the car is, its hull at the place.
    fn settle_at(&mut self, lent: [u32; 2], place: &TrackPoint) -> Settled {
        match self.ask(settle(lent, place.x, place.y, &self.now)) {
            Answer::Settled(settled) => settled,
            other => panic!("{}", other.line()),
        }
    }
    fn tick(&mut self, action: u32, place: &TrackPoint, angle: f64) -> Settled {
        self.drive_to(action, place, angle);
        self.settle_at(ENOUGH, place)
    }
    /// A tick with refused calls in it: one where the drive is due, and one where the settle is.
    fn mixed_tick(&mut self, action: u32, place: &TrackPoint, angle: f64, k: usize) -> Settled {
        self.refused_before_drive(k);
        self.drive_to(action, place, angle);
        self.refused_before_settle(k, place.x, place.y);
        self.settle_at([u32::MAX; 2], place)
    }
    /// Where a drive is due, a call that is refused: by 5, 7 or 8, other causes behind it in the order besides.
    fn refused_before_drive(&mut self, k: usize) {
        let (mut m, here) = (self.motions(), self.now);
        match k % 8 {
            0 => self.refused(5, settle(ENOUGH, here[0].x, here[0].y, &here)),
            1 => self.refused(5, settle([19_999, 0], f64::NAN, 0.0, &here)),
            2 => self.refused(7, drive(5, &m)),
            3 => self.refused(7, drive(u32::MAX, &[Motion { vx: f64::NAN, ..m[0] }; 4])),
            _ => {
                let w = &mut m[k / 8 % 4];
                let bad = [f64::NAN, f64::INFINITY, -step(FAR, 1), step(FAR, 1)][k % 4];
                *[&mut w.joint_angle, &mut w.sin, &mut w.cos, &mut w.vx, &mut w.vy][k / 4 % 5] = bad;
                self.refused(8, drive(k as u32 % 5, &m));
            }
        }
    }
    /// Where a settle is due, likewise: by 5, 2 or 8.
    fn refused_before_settle(&mut self, k: usize, x: f64, y: f64) {
        let (m, mut poses) = (self.motions(), self.now);
        match k % 8 {
            0 => self.refused(5, drive(3, &m)),
            1 => self.refused(5, drive(5, &[Motion { sin: f64::NAN, ..m[0] }; 4])),
            2 => self.refused(2, settle([19_999, 4_490], x, y, &poses)),
            3 => self.refused(2, settle([u32::MAX, 4_489], f64::NAN, y, &poses)),
            4 => self.refused(2, settle([0, 0], x, y, &poses)),
            5 => self.refused(8, settle(ENOUGH, f64::NAN, y, &poses)),
            6 => self.refused(8, settle(ENOUGH, x, -step(FAR, 1), &poses)),
            _ => {
                let w = &mut poses[k / 8 % 4];
                *[&mut w.x, &mut w.y, &mut w.cos, &mut w.sin][k / 32 % 4] = [f64::NAN, step(FAR, 1)][k / 8 % 2];
                self.refused(8, settle([u32::MAX; 2], x, y, &poses));
            }
        }
    }
    /// A few calls beyond the end, good ones and bad.
    fn beyond_the_end(&mut self) {
        let (m, here) = (self.motions(), self.now);
        self.refused(4, drive(3, &m));
        self.refused(4, settle(ENOUGH, 0.0, 0.0, &here));
        self.refused(4, drive(5, &[Motion { vy: f64::NAN, ..m[0] }; 4]));
        self.refused(4, settle([0, 0], f64::NAN, 0.0, &here));
        self.refused(4, drive(0, &m));
    }
}

/// The place so far along the points, moved sideways; its direction is the nearer point's before it.
fn along(points: &[TrackPoint], far: f64, side: f64) -> TrackPoint {
    let (i, part) = (far.floor() as usize, far - far.floor());
    let (a, b) = (points[i % points.len()], points[(i + 1) % points.len()]);
    let (cos, sin) = (libm::cos(a.beta), libm::sin(a.beta));
    let [x, y] = [a.x + part * (b.x - a.x) + side * cos, a.y + part * (b.y - a.y) + side * sin];
    TrackPoint { beta: a.beta, x, y }
}

/// How the front wheels stand where the way turns from one place to the next.
fn turn(from: &TrackPoint, to: &TrackPoint) -> f64 {
    (libm::sin((to.beta - from.beta).clamp(-16.0, 16.0)) * 4.0).clamp(-0.4, 0.4) as f32 as f64
}

/// From the start once round its course, `pace` points to a tick, until the run ends and a few calls beyond. Every
/// `every`th tick has refused calls. Between the points `beside` the car is off the road.
fn round(g: &mut SplitMix64, d: &mut Driver, pace: f64, every: usize, beside: [f64; 2]) {
    let points = course(d.log.seed).points;
    let mut place = points[0];
    let (mut far, mut k) = (0.0, 0);
    while !d.run.ended {
        (far, k) = (far + pace, k + 1);
        assert!(far < points.len() as f64 + 8.0, "the run does not end");
        let side = if (beside[0]..beside[1]).contains(&far) { 12.0 } else { between(g, -1.0, 1.0) };
        let next = along(&points, far, side);
        let (action, angle) = (pick(g, &[0, 1, 2, 3, 3, 3, 3, 4]), turn(&place, &next));
        match k % every {
            0 => d.mixed_tick(action, &next, angle, k / every - 1),
            _ => d.tick(action, &next, angle),
        };
        place = next;
    }
    d.beyond_the_end();
}

fn need(seed: u64) -> usize {
    probe::raw_ref(&course(seed)).1.len()
}

/// Whole laps: seed 0, with some tiles left out, to the lap; and the shortest course of the first 20,000 seeds, to its
/// last tile, with a lap share that no lap can pass.
fn laps(r: &mut Replay, g: &mut SplitMix64) {
    let mut d = Driver::start(0, LONG, 0.95, 1_000_000, 0);
    round(g, &mut d, 0.92, 7, [100.0, 109.0]);
    assert!(d.run.rust.lap() && d.run.rust.credited() == 284);
    r.record(&d.log.exact());
    let mut d = Driver::start(17_366, stated(need(17_366)), 1.0, 1_000_000, 0);
    round(g, &mut d, 1.0, 5, [0.0, 0.0]);
    assert!(!d.run.rust.lap() && d.run.rust.credited() == 207);
    r.record(&Log { lent_calls: LONG_CALLS, ..d.log.exact() });
}

/// A car that pulls away, so slowly at first that its tyres hold, and brakes again.
fn pulling_away(r: &mut Replay) {
    let points = course(0).points;
    let mut d = Driver::start(0, stated(need(0)), 0.95, 1_000_000, 20);
    let (mut far, mut pace) = (20.0, 0.0);
    for k in 0..60 {
        let action = [3, 3, 1, 3, 3, 2, 0, 3, 4, 4][k / 6];
        pace = if action == 4 { pace * 0.7 } else { pace + 0.0007 * k as f64 };
        let next = along(&points, far + pace, 0.0);
        d.tick(action, &next, [0.0, -0.2, 0.2][(action % 3) as usize]);
        far += pace;
    }
    r.record(&d.log.exact());
}

/// A car that leaves the field, outwards from a point of the course.
fn leaving(r: &mut Replay, g: &mut SplitMix64, seed: u64, at: usize, pace: f64) {
    let p = course(seed).points[at];
    let mut d = Driver::start(seed, stated(need(seed)), 0.5, 1_000, at);
    let size = (p.x * p.x + p.y * p.y).sqrt();
    let mut k = 0;
    while !d.run.ended {
        k += 1;
        let out = 1.0 + f64::from(k) * pace / size;
        let place = TrackPoint { beta: p.beta, x: p.x * out, y: p.y * out };
        let s = d.tick(pick(g, &[0, 1, 2, 3, 4]), &place, 0.1);
        assert_eq!(s.off, s.ended);
    }
    d.beyond_the_end();
    r.record(&d.log.exact());
}

/// Runs that reach their tick limit: drives are refused by 6 from there on, before 7 and 8, and settles by 5.
fn limits(r: &mut Replay, g: &mut SplitMix64) {
    for (seed, limit) in [(5, 1), (6, 3), (581, 20)] {
        let points = course(seed).points;
        let mut d = Driver::start(seed, LONG, 0.95, limit, 40);
        for k in 1..=limit as usize {
            assert!(!d.tick(pick(g, &[0, 1, 2, 3, 4]), &points[40 + k], 0.0).ended);
        }
        let (m, here) = (d.motions(), d.now);
        d.refused(6, drive(3, &m));
        d.refused(5, settle(ENOUGH, here[0].x, here[0].y, &here));
        d.refused(6, drive(5, &m));
        d.refused(6, drive(0, &[Motion { cos: f64::NAN, ..m[0] }; 4]));
        r.record(&d.log.exact());
    }
}

/// Starts on tile 0: where the lap share is below what they credit the lap is flagged at once, and the run ends at its
/// first settle, wherever that is; at just that share it is not.
fn tile_zero(r: &mut Replay) {
    let begin = |seed, share| Driver::start(seed, LONG, share, 9, 0);
    let first = begin(11, 1.0).run;
    let just = f64::from(first.rust.credited()) / first.rust.live_track().tiles.len() as f64;
    for (seed, share, flagged) in [
        (7, 0.0, true),
        (7, -0.0, true),
        (12_345, 5e-324, true),
        (11, step(just, -1), true),
        (11, just, false),
        (11, step(just, 1), false),
    ] {
        let mut d = begin(seed, share);
        assert_eq!(d.run.rust.lap(), flagged);
        let far = course(seed).points[100];
        assert_eq!(d.mixed_tick(3, &far, 0.0, seed as usize).ended, flagged);
        if flagged {
            d.beyond_the_end();
        }
        r.record(&d.log.exact());
    }
}

/// A start elsewhere with lap share 0: the run ends where a wheel comes to tile 0, from wherever it comes.
fn to_tile_zero(r: &mut Replay) {
    let points = course(11).points;
    let mut d = Driver::start(11, LONG, 0.0, 9, 100);
    for (k, at) in [101, 50, 250, 0].into_iter().enumerate() {
        let s = d.mixed_tick(3, &points[at], 0.0, k);
        assert_eq!([s.lap, s.ended], [at == 0; 2]);
    }
    d.beyond_the_end();
    r.record(&d.log.exact());
}

/// A short log of three ticks, with room for just its calls and with columns of just the stated lengths.
fn short_log(seed: u64) -> Log {
    let points = course(seed).points;
    let mut d = Driver::start(seed, stated(need(seed)), 0.9, 100, 0);
    for k in 1..4 {
        d.tick(3, &points[k], 0.0);
    }
    d.log.exact()
}

/// Lay is refused by 2 and by 3, and the start with it, by 2 or, before that, by 1.
fn refused_lays(r: &mut Replay) {
    let log = short_log(11);
    let mut lents: Vec<[usize; 7]> = (0..6)
        .map(|k| {
            let mut lent = if k % 2 == 0 { log.lent } else { LONG };
            lent[k] = STATED[k] - 1;
            lent
        })
        .collect();
    lents.extend([[0; 7], stated(log.lent[6] - 1), stated(0)]);
    for lent in lents {
        r.record(&Log { lent, ..log.clone() });
        r.record(&Log { lent, share: 1.5, poses: [Pose { x: f64::NAN, ..log.poses[0] }; 4], ..log.clone() });
    }
    // A list of one more than is needed.
    r.record(&Log { lent: stated(log.lent[6] + 1), ..log.clone() });
    r.record(&Log { lent: LONG, lent_calls: LONG_CALLS, ..log });
}

/// The start alone is refused: by 1 for a share or a limit, by 8 for a number of a pose.
fn refused_starts(r: &mut Replay, g: &mut SplitMix64) {
    let log = short_log(4);
    let shares = [f64::NAN, step(1.0, 1), -5e-324, f64::INFINITY, f64::NEG_INFINITY];
    let settings = shares.map(|s| (s, 9)).into_iter().chain([0, 1_000_001, u32::MAX].map(|l| (0.5, l)));
    for (share, limit) in settings {
        r.record(&Log { share, limit, ..log.clone() });
    }
    for k in 0..16 {
        let mut poses = log.poses;
        let w = &mut poses[k / 4];
        *[&mut w.x, &mut w.y, &mut w.cos, &mut w.sin][k % 4] = beyond(g);
        r.record(&Log { poses, ..log.clone() });
        r.record(&Log { poses, limit: if k % 2 == 0 { 0 } else { 1 }, ..log.clone() });
    }
    // The ends of the ranges are accepted.
    for (share, limit) in [(0.0, 1), (1.0, 1_000_000), (step(1.0, -1), 2)] {
        r.record(&Log { share, limit, ..log.clone() });
    }
    for x in [FAR, -FAR, -0.0] {
        r.record(&Log { poses: [Pose { x, y: -x, cos: x, sin: x }; 4], ..log.clone() });
    }
}

/// Refused as a whole by 2: a column of calls or answers is short. The counts at the end would have room if the lengths
/// that they need were taken modulo 2^32.
fn refused_wholes(r: &mut Replay) {
    let log = short_log(9);
    for k in 0..4 {
        let mut lent_calls = log.lent_calls;
        lent_calls[k] -= 1;
        r.record(&Log { lent_calls, ..log.clone() });
        // Before anything else that is wrong.
        r.record(&Log { lent_calls, lent: [0; 7], limit: 0, ..log.clone() });
        lent_calls = LONG_CALLS;
        lent_calls[k] = 0;
        r.record(&Log { lent_calls, ..log.clone() });
        lent_calls[k] = log.lent_calls[k];
        r.record(&Log { lent_calls, ..log.clone() });
    }
    for many in [log.many + 1, u32::MAX, 0x4000_0000, 0x8000_0000] {
        r.record(&Log { many, ..log.clone() });
        r.record(&Log { many, lent_calls: LONG_CALLS.map(|l| l / 100), ..log.clone() });
    }
}

/// Other counts than that of the calls in the log: none, fewer, and more, up to all that the columns have room for.
fn counts(r: &mut Replay) {
    let log = short_log(3);
    r.record(&Log { calls: Vec::new(), ..log.clone() }.exact());
    for many in [0, 1, 5, 7, 905] {
        r.record(&Log { many, lent_calls: LONG_CALLS, ..log.clone() });
    }
    // What stands behind the last call of this one is a settle in its turn, of numbers that are too great.
    let open = Log { calls: log.calls[..5].to_vec(), ..log.clone() };
    r.record(&Log { many: 8, lent_calls: LONG_CALLS, ..open });
    let none = Log { many: 0, lent_calls: [0; 4], ..log };
    for (limit, list) in [(9, none.lent[6]), (0, none.lent[6]), (9, 0)] {
        r.record(&Log { limit, lent: stated(list), ..none.clone() });
    }
    r.record(&Log { lent: [0; 7], ..none });
}

/// Any call at all near a place: more often than not the one that is due.
fn any_call(g: &mut SplitMix64, run: &Graded, p: &TrackPoint) -> Call {
    let due = run.driven.is_some() ^ (g.next_u64() % 8 == 0);
    let mut call = match due {
        true => {
            let lent = pick(g, &[ENOUGH, ENOUGH, [u32::MAX; 2], [20_001, 4_491], [20_000, 4_489], [19_999, 4_490]]);
            settle(lent, p.x, p.y, &near_car(g, p, 4.0))
        }
        false => drive((g.next_u64() % 11 / 2) as u32, &[0; 4].map(|_| road_motion(g))),
    };
    if g.next_u64() % 10 == 0 {
        call.numbers[g.next_u64() as usize % 20] = pick(g, &[f64::NAN, 2e6, -0.0, FAR, -5e-324]);
    }
    if due {
        // Every first word but 0 is a settle's.
        (call.words[0], call.words[1]) = (pick(g, &[1, 2, 256, u32::MAX]), g.next_u64() as u32);
    }
    call
}

/// Logs of any calls at all, on courses of seeds that need one attempt or more, some of them started anywhere.
fn any_logs(r: &mut Replay, g: &mut SplitMix64) {
    for (k, seed) in [1, 24, 581, 2_963, 4_492, 11_628, 0x8000_0000, 0xCA75_EED0].into_iter().enumerate() {
        let points = course(seed).points;
        let place = |g: &mut SplitMix64| points[g.next_u64() as usize % points.len()];
        let (share, limit) = ([0.95, 0.1, 0.3, 1.0][k % 4], [30, 1_000_000][k % 2]);
        let mut d = Driver::start(seed, LONG, share, limit, g.next_u64() as usize % points.len());
        for _ in 0..80 {
            let p = place(g);
            let call = any_call(g, &d.run, &p);
            d.ask(call);
        }
        r.record(&Log { lent_calls: LONG_CALLS, ..d.log.exact() });
    }
}

/// Whole runs on courses of seeds of 2^32 or more: once round, with some tiles left out, to the lap; and off the field.
fn wide_seeds(r: &mut Replay, g: &mut SplitMix64) {
    let mut d = Driver::start(WIDE + 7, LONG, 0.9, 1_000_000, 0);
    round(g, &mut d, 0.97, 9, [150.0, 158.0]);
    assert!(d.run.rust.lap());
    r.record(&d.log.exact());
    leaving(r, g, u64::MAX, 90, 9.0);
}

pub fn make() -> Stored {
    let mut r = Replay::default();
    let mut g = SplitMix64::new(17);
    laps(&mut r, &mut g);
    pulling_away(&mut r);
    leaving(&mut r, &mut g, 2, 60, 7.0);
    leaving(&mut r, &mut g, u32::MAX.into(), 150, 11.0);
    limits(&mut r, &mut g);
    tile_zero(&mut r);
    to_tile_zero(&mut r);
    refused_lays(&mut r);
    refused_starts(&mut r, &mut g);
    refused_wholes(&mut r);
    counts(&mut r);
    any_logs(&mut r, &mut g);
    wide_seeds(&mut r, &mut g);
    // An unknown code ends a block: the record behind it has no answer.
    append(&mut r.list, [0].into_iter().chain(short_log(1).words()));
    eprintln!("{} records, {} refused as a whole; the longest log has {} calls", r.records, r.whole, r.longest);
    eprintln!("lay accepted, refused by 2, by 3: {:?}; starts by cause {:?}", [r.lay[0], r.lay[2], r.lay[3]], r.start);
    eprintln!("calls with forces, settled, untouched: {:?}; refused by cause {:?}", r.answered, r.refused);
    Stored::new(r.list, ROOM, r.lines)
}
