//! The state of a run and its calls. What an accepted call answers and leaves is the Rust's, over lent columns as they stand,
//! damaged or not; which call is refused by what number, turns and the tick limit are written out here from document 01
//! ("Refusals by cause"). Saves and restores stand on saved.rs, and a restored run's wheel sets on the Rust. Beside it the causes of
//! given points.
use crate::car::{bits, five, near, numbers, MOST};
use crate::lent::{hash, put};
use crate::saved;
use oracle::oracle::{probe, Run, Settled, Tile, Track, TrackPoint};
use oracle::{Motion, Pose, Push};
use std::sync::Arc;

/// Document 01's lengths of the lent tiles and offsets.
pub const STATED: [usize; 2] = [20_000, 4_490];

#[derive(Clone)]
pub struct State {
    pub n: u32,
    pub count: u32,
    pub tick: u32,
    pub limit: u32,
    pub share: f64,
    pub lap: bool,
    pub ended: bool,
    pub fallback: bool,
    pub driven: bool,
    /// Gas, brake, steer, omega and phase of each wheel.
    pub ctl: [[f64; 5]; 4],
    pub fuel: f64,
    pub credited: [u64; 40],
    pub wheels: [u64; 160],
    /// The wheels' poses at the last contact, and the course's seed: what only a save reads.
    pub poses: [Pose; 4],
    pub seed: u64,
}

impl State {
    pub fn zero() -> State {
        State {
            n: 0,
            count: 0,
            tick: 0,
            limit: 0,
            share: 0.0,
            lap: false,
            ended: false,
            fallback: false,
            driven: false,
            ctl: [[0.0; 5]; 4],
            fuel: 0.0,
            credited: [0; 40],
            wheels: [0; 160],
            poses: [Pose::default(); 4],
            seed: 0,
        }
    }
    pub fn flags(&self) -> [bool; 4] {
        [self.lap, self.ended, self.fallback, self.driven]
    }
    /// Of all but the last poses and the seed, which `hash_last` and the seed itself show.
    pub fn hash(&self) -> u64 {
        let counts = [self.n, self.count, self.tick, self.limit].map(u64::from);
        let controls = self.ctl.iter().flatten().map(|&x| bits(x));
        let front = counts.into_iter().chain([bits(self.share)]).chain(self.flags().map(u64::from));
        hash(front.chain(controls).chain([bits(self.fuel)]).chain(self.credited).chain(self.wheels))
    }
    pub fn hash_last(&self) -> u64 {
        hash(self.poses.iter().flat_map(numbers).map(bits))
    }
    /// The two are the same, all NaNs alike.
    pub fn same(&self, other: &State) -> bool {
        (self.hash(), self.hash_last(), self.seed) == (other.hash(), other.hash_last(), other.seed)
    }
    /// Cause 4 without its ended part.
    pub fn unfit(&self) -> bool {
        self.n < 1 || self.n > MOST || self.count > self.n
    }
    /// The tiles of a wheel's set.
    pub fn tiles_of(&self, wheel: usize) -> Vec<u32> {
        (0..2560).filter(|t| self.wheels[wheel * 40 + *t as usize / 64] >> (t % 64) & 1 == 1).collect()
    }
    /// The sets that the Rust has now.
    pub fn take_sets(&mut self, run: &Run) {
        put(&mut self.credited, run.visited().iter().copied(), 40);
        self.wheels = [0; 160];
        for w in 0..4 {
            for &id in run.wheel_tiles(w) {
                self.wheels[w * 40 + id as usize / 64] |= 1 << (id % 64);
            }
        }
        self.count = run.credited();
        self.lap = run.lap();
    }
    pub fn take_controls(&mut self, run: &Run) {
        self.ctl = [0, 1, 2, 3].map(|i| run.ctl(i));
        self.fuel = run.fuel();
    }
}

/// A given point that is not refused.
fn good(p: &TrackPoint) -> bool {
    (-16.0..=16.0).contains(&p.beta) && (-1000.0..=1000.0).contains(&p.x) && (-1000.0..=1000.0).contains(&p.y)
}

/// The first of the causes 9, 2 and 8 of a call that asks for `count` of the given points, where the lent columns have room or
/// not; else 0.
pub fn given_cause(points: &[TrackPoint], count: u32, room: bool) -> usize {
    if count == 0 || count > MOST {
        9
    } else if !room || points.len() < count as usize {
        2
    } else if !points[..count as usize].iter().all(good) {
        8
    } else {
        0
    }
}

/// The cells of the corners of a quad's box, least and greatest folded as `contact_pass` does.
pub fn box_cells(q: [[f64; 2]; 4]) -> [usize; 4] {
    let [[x0, x1], [y0, y1]] = [0, 1].map(|k| {
        let least = q.iter().fold(f64::MAX, |m, c| m.min(c[k]));
        let greatest = q.iter().fold(f64::MIN, |m, c| m.max(c[k]));
        [probe::cell(least), probe::cell(greatest)]
    });
    [y0 * 67 + x0, y0 * 67 + x1, y1 * 67 + x0, y1 * 67 + x1]
}

/// How a start is asked for.
#[derive(Clone, Debug)]
pub struct Begin {
    pub lent: [usize; 3],
    pub n: u32,
    pub fallback: bool,
    pub seed: u64,
    pub share: f64,
    pub limit: u32,
}

/// The lent columns and the state, and the Rust's runs: `made` has the track of the columns with n tiles, `ring` one that
/// nothing damages.
pub struct Model {
    pub tiles: Vec<f64>,
    pub offsets: Vec<u32>,
    pub ids: Vec<u32>,
    pub state: State,
    pub made: Option<Arc<Track>>,
    ring: Arc<Track>,
    pub rust: Run,
}

impl Model {
    /// Columns of zeros of these lengths: tiles, offsets, index list.
    pub fn new(long: [usize; 3]) -> Model {
        let ring = Arc::new(probe::given(probe::ring(), false));
        Model {
            tiles: vec![0.0; long[0]],
            offsets: vec![0; long[1]],
            ids: vec![0; long[2]],
            state: State::zero(),
            made: None,
            rust: Run::start(ring.clone(), 0.95, Pose::default(), [Pose::default(); 4]),
            ring,
        }
    }
    /// The columns hold this track.
    pub fn lay(&mut self, track: &Track) {
        let (offsets, ids) = probe::raw_ref(track);
        put(&mut self.tiles, track.tiles.iter().flat_map(|t| t.quad.into_iter().flatten()), STATED[0]);
        put(&mut self.offsets, offsets.iter().copied(), STATED[1]);
        put(&mut self.ids, ids.iter().copied(), ids.len());
        self.made = None;
    }
    /// The Rust's track of the columns as they stand, with n tiles.
    pub fn track(&mut self, n: u32) -> Arc<Track> {
        match &self.made {
            Some(t) if t.tiles.len() == n as usize => t.clone(),
            _ => {
                let tile = |t: &[f64]| Tile { quad: [[t[0], t[1]], [t[2], t[3]], [t[4], t[5]], [t[6], t[7]]] };
                let tiles = self.tiles.chunks(8).take(n as usize).map(tile).collect();
                let points = vec![TrackPoint { beta: 0.0, x: 0.0, y: 0.0 }];
                let made = Arc::new(probe::made(points, tiles, self.offsets.clone(), self.ids.clone()));
                self.made = Some(made.clone());
                made
            }
        }
    }

    /// The four cells of the box of each wheel.
    pub fn cells(&mut self, poses: &[Pose; 4]) -> [[usize; 4]; 4] {
        self.rust.put_wheels(poses);
        [0, 1, 2, 3].map(|i| box_cells(self.rust.wheel_quad(i)))
    }
    /// Cause 10 does not hold: in each cell the offsets neither fall nor pass the list, and every id is below n.
    pub fn sound(&mut self, lent: [usize; 3], n: u32, poses: &[Pose; 4]) -> bool {
        let cells = self.cells(poses);
        cells.iter().flatten().all(|&c| {
            let (from, to) = (self.offsets[c] as usize, self.offsets[c + 1] as usize);
            from <= to && to <= lent[2] && self.ids[from..to].iter().all(|&id| id < n)
        })
    }
    pub fn start_cause(&mut self, b: &Begin, poses: &[Pose; 4]) -> usize {
        if !(0.0..=1.0).contains(&b.share) || !(1..=1_000_000).contains(&b.limit) {
            1
        } else if b.lent[0] < STATED[0] || b.lent[1] < STATED[1] || !(1..=MOST).contains(&b.n) {
            2
        } else if !poses.iter().flat_map(numbers).all(near) {
            8
        } else if !self.sound(b.lent, b.n, poses) {
            10
        } else {
            0
        }
    }
    /// A start; the number of the cause, or 0.
    pub fn start(&mut self, b: &Begin, poses: &[Pose; 4]) -> usize {
        let cause = self.start_cause(b, poses);
        self.state = State::zero();
        if cause == 0 {
            let run = Run::start(self.track(b.n), b.share, Pose::default(), *poses);
            let Begin { n, fallback, seed, share, limit, .. } = *b;
            self.state = State { n, fallback, seed, share, limit, poses: *poses, ..State::zero() };
            self.state.take_sets(&run);
        }
        cause
    }

    pub fn drive_cause(&self, action: u32, m: &[Motion; 4]) -> usize {
        let s = &self.state;
        if s.unfit() || s.ended {
            4
        } else if s.driven {
            5
        } else if s.tick >= s.limit {
            6
        } else if action > 4 {
            7
        } else if !m.iter().flat_map(five).all(near) {
            8
        } else {
            0
        }
    }
    /// The Rust's run as the state has it, over a track.
    pub fn load(&mut self, track: Arc<Track>) {
        let s = &self.state;
        self.rust.put_sets(track, s.share, s.tick, s.lap, s.count, &s.credited, [0, 1, 2, 3].map(|w| s.tiles_of(w)));
        for i in 0..4 {
            self.rust.put_ctl(i, s.ctl[i]);
        }
        self.rust.put_fuel(s.fuel);
    }
    /// A drive; the number of the cause, or 0, and the forces.
    pub fn drive(&mut self, action: u32, m: &[Motion; 4]) -> (usize, [Push; 4]) {
        let cause = self.drive_cause(action, m);
        let mut push = [Push::default(); 4];
        if cause == 0 {
            self.load(self.ring.clone());
            push = self.rust.step(action as usize, m, Pose::default(), [Pose::default(); 4]).push;
            self.state.take_controls(&self.rust);
            self.state.driven = true;
        }
        (cause, push)
    }

    pub fn settle_cause(&mut self, lent: [usize; 3], x: f64, y: f64, poses: &[Pose; 4]) -> usize {
        let s = &self.state;
        let n = s.n;
        if s.unfit() || s.ended {
            4
        } else if !s.driven {
            5
        } else if s.tick >= s.limit {
            6
        } else if lent[0] < STATED[0] || lent[1] < STATED[1] {
            2
        } else if !near(x) || !near(y) || !poses.iter().flat_map(numbers).all(near) {
            8
        } else if !self.sound(lent, n, poses) {
            10
        } else {
            0
        }
    }
    /// A settle; the Rust's answer, or by Err the number of the cause.
    pub fn settle(&mut self, lent: [usize; 3], x: f64, y: f64, poses: &[Pose; 4]) -> Result<Settled, usize> {
        let cause = self.settle_cause(lent, x, y, poses);
        if cause > 0 {
            return Err(cause);
        }
        let track = self.track(self.state.n);
        self.load(track);
        let e = self.rust.step(0, &[Motion::default(); 4], Pose { x, y, cos: 1.0, sin: 0.0 }, *poses);
        self.state.take_sets(&self.rust);
        self.state.tick = self.rust.tick();
        (self.state.driven, self.state.ended) = (false, e.ended);
        self.state.poses = *poses;
        Ok(e)
    }

    /// A save into an output of this length; what it writes, or by Err the number of the cause.
    pub fn save(&self, room: usize) -> Result<Vec<u8>, usize> {
        match saved::save_cause(&self.state, room) {
            0 => Ok(saved::form(&self.state)),
            cause => Err(cause),
        }
    }
    /// A restore; the run, or by Err the number of the cause. It looks at no state, and leaves the model's as it is.
    pub fn restore(&mut self, bytes: &[u8], lent: [usize; 3], n: u32) -> Result<State, usize> {
        let mut s = saved::read(bytes).ok_or(11usize)?;
        if n != s.n {
            return Err(12);
        }
        if lent[0] < STATED[0] || lent[1] < STATED[1] {
            return Err(2);
        }
        if !self.sound(lent, n, &s.poses) {
            return Err(10);
        }
        let track = self.track(n);
        self.rust.put_sets(track, s.share, s.tick, s.lap, s.count, &s.credited, [const { Vec::new() }; 4]);
        self.rust.put_wheels(&s.poses);
        self.rust.derive_contacts();
        s.take_sets(&self.rust);
        Ok(s)
    }
}
