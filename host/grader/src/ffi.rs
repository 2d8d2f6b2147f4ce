//! The C boundary, as host/grader.h has it: structs that pass by value, the functions, and a safe call for each over
//! slices. The only file with `unsafe`.
//!
//! Why each `unsafe` below is sound: the grader asks of a lent column that its pointer is aligned, not null and good for
//! the length beside it, or for the length that the header names, and that a column lent for writing overlaps no other
//! argument. Slices and references to arrays have the first, `&mut` has the second. It keeps no pointer, and has no other
//! precondition. Every struct and bool that it returns is made by it whole.

/// Where a wheel is, and the cosine and sine of its heading: it rolls along (-sin, cos).
#[repr(C)]
#[derive(Clone, Copy, Debug, Default, PartialEq)]
pub struct Pose {
    pub x: f64,
    pub y: f64,
    pub cos: f64,
    pub sin: f64,
}

/// What drive is told of a wheel: its angle to the hull, the sine and cosine of its heading, its velocity.
#[repr(C)]
#[derive(Clone, Copy, Debug, Default, PartialEq)]
pub struct Motion {
    pub joint_angle: f64,
    pub sin: f64,
    pub cos: f64,
    pub vx: f64,
    pub vy: f64,
}

/// What drive answers for a wheel: the joint's motor speed, and the force to add at the wheel for a step of 1/50 s.
#[repr(C)]
#[derive(Clone, Copy, Debug, Default, PartialEq)]
pub struct Force {
    pub motor: f64,
    pub fx: f64,
    pub fy: f64,
}

/// A wheel's controls, kept in the run's car.
#[repr(C)]
#[derive(Clone, Copy, Debug, Default, PartialEq)]
pub struct Wheel {
    pub gas: f64,
    pub brake: f64,
    pub steer: f64,
    pub omega: f64,
    pub phase: f64,
}

/// What a reward is made of; by default those of the reference.
#[repr(C)]
#[derive(Clone, Copy, Debug, PartialEq)]
pub struct Weights {
    pub tile: f64,
    pub step: f64,
    pub off_playfield: f64,
}

impl Default for Weights {
    fn default() -> Weights {
        Weights { tile: 1000.0, step: -0.1, off_playfield: -100.0 }
    }
}

/// What a start fixes for the run.
#[repr(C)]
#[derive(Clone, Copy, Debug, PartialEq)]
pub struct Setup {
    pub n: u32,
    pub tick_limit: u32,
    pub lap_share: f64,
    pub fallback: bool,
}

/// How far the run has come. Settles write it; `driven` says that a drive awaits its settle.
#[repr(C)]
#[derive(Clone, Copy, Debug, PartialEq)]
pub struct Progress {
    pub visited_count: u32,
    pub tick: u32,
    pub lap: bool,
    pub ended: bool,
    pub driven: bool,
}

/// What drives write: the wheels' controls, and the fuel spent. All of it is f64s, 21 of them.
#[repr(C)]
#[derive(Clone, Copy, Debug, PartialEq)]
pub struct Car {
    pub ctl: [Wheel; 4],
    pub fuel_spent: f64,
}

/// The state of a run, in records by who writes them. Tile t is bit t % 64 of word t / 64 of `credited`; a wheel's tiles at
/// the last contact are forty words of `wheels`, wheel by wheel. `poses` is where the wheels were then, and `seed` the
/// course's: a save alone reads these two. Keep it as it is.
#[repr(C)]
#[derive(Clone, Copy, Debug, PartialEq)]
pub struct State {
    pub setup: Setup,
    pub progress: Progress,
    pub car: Car,
    pub credited: [u64; 40],
    pub wheels: [u64; 160],
    pub poses: [Pose; 4],
    pub seed: u64,
}

#[repr(C)]
#[derive(Clone, Copy, Debug, Default)]
pub struct Laid {
    pub cause: u32,
    pub n: u32,
    pub entries: u32,
    pub fallback: bool,
    pub beta: f64,
    pub x: f64,
    pub y: f64,
}

#[repr(C)]
#[derive(Debug)]
pub struct CurbsFound {
    pub cause: u32,
    pub count: u32,
}

#[repr(C)]
pub struct Started {
    pub cause: u32,
    pub count: u32,
    pub lap: bool,
    pub run: State,
}

#[repr(C)]
struct Driven {
    cause: u32,
    progress: Progress,
}

#[repr(C)]
pub struct Settled {
    pub cause: u32,
    pub new_tiles: u32,
    pub n: u32,
    pub off: bool,
    pub lap: bool,
    pub ended: bool,
    progress: Progress,
}

#[repr(C)]
#[derive(Debug, PartialEq)]
pub struct Figures {
    pub cause: u32,
    pub tick: u32,
    pub credited: u32,
    pub n: u32,
    pub share: u32,
    pub lap: bool,
    pub ended: bool,
    pub fallback: bool,
}

#[repr(C)]
pub struct Replayed {
    pub laid: Laid,
    pub start_cause: u32,
    pub start_count: u32,
    pub start_lap: bool,
    pub sheet: Figures,
}

#[repr(C)]
pub struct Saved {
    pub cause: u32,
    pub length: u32,
}

#[repr(C)]
pub struct Restored {
    pub cause: u32,
    pub run: State,
}

#[repr(C)]
pub struct SavedFor {
    pub cause: u32,
    pub n: u32,
    pub seed: u64,
}

#[repr(C)]
pub struct Angle {
    pub cause: u32,
    pub value: f64,
}

#[repr(C)]
pub struct Drawn {
    pub value: u64,
    pub state: u64,
}

// C passes no array by value, so it stands in a struct.
#[repr(C)]
pub struct Poses {
    pub wheels: [Pose; 4],
}

type F = *const f64;
type Fm = *mut f64;
type I = *const u32;
type Im = *mut u32;
type B = *const u8;
type Bm = *mut u8;
type N = usize;

#[rustfmt::skip]
extern "C" {
    fn grader_lay(seed: u64, a: Fm, al: N, b: Fm, bl: N, x: Fm, xl: N, y: Fm, yl: N, t: Fm, tl: N, o: Im, ol: N, l: Im, ll: N) -> Laid;
    fn grader_points(gb: F, gbl: N, gx: F, gxl: N, gy: F, gyl: N, count: u32, a: Fm, al: N, b: Fm, bl: N, x: Fm, xl: N, y: Fm, yl: N, t: Fm, tl: N, o: Im, ol: N, l: Im, ll: N) -> Laid;
    fn grader_curbs(gb: F, gbl: N, gx: F, gxl: N, gy: F, gyl: N, count: u32, q: Fm, ql: N, w: Bm, wl: N) -> CurbsFound;
    fn grader_start(t: F, tl: N, o: I, ol: N, l: I, ll: N, n: u32, fallback: bool, seed: u64, share: f64, limit: u32, poses: Poses) -> Started;
    fn grader_drive_parts(setup: Setup, progress: Progress, car: &mut Car, wheels: &[u64; 160], action: u32, motions: &[Motion; 4], forces: &mut [Force; 4]) -> Driven;
    fn grader_settle_parts(setup: Setup, progress: Progress, credited: &mut [u64; 40], wheels: &mut [u64; 160], last: &mut [Pose; 4], t: F, tl: N, o: I, ol: N, l: I, ll: N, x: f64, y: f64, poses: Poses) -> Settled;
    fn grader_sheet_parts(setup: Setup, progress: Progress) -> Figures;
    fn grader_save(run: State, out: Bm, outl: N) -> Saved;
    fn grader_saved_course(b: B, bl: N) -> SavedFor;
    fn grader_restore(b: B, bl: N, t: F, tl: N, o: I, ol: N, l: I, ll: N, n: u32) -> Restored;
    fn grader_reward(weights: Weights, new_tiles: u32, n: u32, off: bool) -> f64;
    fn grader_replay(seed: u64, a: Fm, al: N, b: Fm, bl: N, x: Fm, xl: N, y: Fm, yl: N, t: Fm, tl: N, o: Im, ol: N, l: Im, ll: N, share: f64, limit: u32, poses: Poses, many: u32, c: I, cl: N, g: F, gl: N, w: Im, wl: N, n: Fm, nl: N) -> Replayed;
    fn grader_sine(a: f64) -> Angle;
    fn grader_cosine(a: f64) -> Angle;
    fn grader_atan2(y: f64, x: f64) -> Angle;
    fn grader_sqrt(x: f64) -> f64;
    fn grader_cell(v: f64) -> u32;
    fn grader_draw(state: u64) -> Drawn;
}

/// The columns that a course is written to.
pub struct Lent<'a> {
    pub alpha: &'a mut [f64],
    pub beta: &'a mut [f64],
    pub x: &'a mut [f64],
    pub y: &'a mut [f64],
    pub tiles: &'a mut [f64],
    pub offsets: &'a mut [u32],
    pub list: &'a mut [u32],
}

/// The part of a course that a start, settle or restore reads.
#[derive(Clone, Copy)]
pub struct Columns<'a> {
    pub tiles: &'a [f64],
    pub offsets: &'a [u32],
    pub list: &'a [u32],
}

/// A start's arguments beside the course.
#[derive(Clone, Copy)]
pub struct Opening {
    pub lap_share: f64,
    pub tick_limit: u32,
    pub poses: [Pose; 4],
}

#[rustfmt::skip]
pub fn lay(seed: u64, c: Lent) -> Laid {
    unsafe {
        grader_lay(seed, c.alpha.as_mut_ptr(), c.alpha.len(), c.beta.as_mut_ptr(), c.beta.len(), c.x.as_mut_ptr(), c.x.len(),
            c.y.as_mut_ptr(), c.y.len(), c.tiles.as_mut_ptr(), c.tiles.len(), c.offsets.as_mut_ptr(), c.offsets.len(),
            c.list.as_mut_ptr(), c.list.len())
    }
}

#[rustfmt::skip]
pub fn points(beta: &[f64], x: &[f64], y: &[f64], count: u32, c: Lent) -> Laid {
    unsafe {
        grader_points(beta.as_ptr(), beta.len(), x.as_ptr(), x.len(), y.as_ptr(), y.len(), count,
            c.alpha.as_mut_ptr(), c.alpha.len(), c.beta.as_mut_ptr(), c.beta.len(), c.x.as_mut_ptr(), c.x.len(),
            c.y.as_mut_ptr(), c.y.len(), c.tiles.as_mut_ptr(), c.tiles.len(), c.offsets.as_mut_ptr(), c.offsets.len(),
            c.list.as_mut_ptr(), c.list.len())
    }
}

#[rustfmt::skip]
pub fn curbs(beta: &[f64], x: &[f64], y: &[f64], count: u32, quads: &mut [f64], white: &mut [u8]) -> CurbsFound {
    unsafe {
        grader_curbs(beta.as_ptr(), beta.len(), x.as_ptr(), x.len(), y.as_ptr(), y.len(), count,
            quads.as_mut_ptr(), quads.len(), white.as_mut_ptr(), white.len())
    }
}

#[rustfmt::skip]
pub fn start(c: Columns, n: u32, fallback: bool, seed: u64, opening: Opening) -> Started {
    unsafe {
        grader_start(c.tiles.as_ptr(), c.tiles.len(), c.offsets.as_ptr(), c.offsets.len(), c.list.as_ptr(), c.list.len(), n, fallback, seed,
            opening.lap_share, opening.tick_limit, Poses { wheels: opening.poses })
    }
}

/// The run goes on where it stands. Answers the cause; the forces are written where it is 0. The grader takes car, motions and
/// forces as 21, 20 and 12 numbers in a row, which is what they are.
pub fn drive(run: &mut State, action: u32, motions: &[Motion; 4], forces: &mut [Force; 4]) -> u32 {
    let d = unsafe { grader_drive_parts(run.setup, run.progress, &mut run.car, &run.wheels, action, motions, forces) };
    run.progress = d.progress;
    d.cause
}

/// The same for a settle, which changes the sets and the last poses; these are sixteen numbers to the grader.
#[rustfmt::skip]
pub fn settle(run: &mut State, c: Columns, x: f64, y: f64, poses: [Pose; 4]) -> Settled {
    let s = unsafe {
        grader_settle_parts(run.setup, run.progress, &mut run.credited, &mut run.wheels, &mut run.poses,
            c.tiles.as_ptr(), c.tiles.len(), c.offsets.as_ptr(), c.offsets.len(), c.list.as_ptr(), c.list.len(),
            x, y, Poses { wheels: poses })
    };
    run.progress = s.progress;
    s
}

pub fn sheet(run: &State) -> Figures {
    unsafe { grader_sheet_parts(run.setup, run.progress) }
}

pub fn save(run: &State, out: &mut [u8]) -> Saved {
    unsafe { grader_save(*run, out.as_mut_ptr(), out.len()) }
}

pub fn saved_course(bytes: &[u8]) -> SavedFor {
    unsafe { grader_saved_course(bytes.as_ptr(), bytes.len()) }
}

#[rustfmt::skip]
pub fn restore(bytes: &[u8], c: Columns, n: u32) -> Restored {
    unsafe {
        grader_restore(bytes.as_ptr(), bytes.len(),
            c.tiles.as_ptr(), c.tiles.len(), c.offsets.as_ptr(), c.offsets.len(), c.list.as_ptr(), c.list.len(), n)
    }
}

pub fn reward(weights: Weights, new_tiles: u32, n: u32, off: bool) -> f64 {
    unsafe { grader_reward(weights, new_tiles, n, off) }
}

/// A whole run's calls and, after it, their answers: four words and twenty numbers to a call, four words and twelve
/// numbers to an answer.
pub struct Batch<'a> {
    pub many: u32,
    pub calls: &'a [u32],
    pub given: &'a [f64],
    pub words: &'a mut [u32],
    pub numbers: &'a mut [f64],
}

#[rustfmt::skip]
pub fn replay(seed: u64, c: Lent, opening: Opening, b: Batch) -> Replayed {
    unsafe {
        grader_replay(seed, c.alpha.as_mut_ptr(), c.alpha.len(), c.beta.as_mut_ptr(), c.beta.len(), c.x.as_mut_ptr(), c.x.len(),
            c.y.as_mut_ptr(), c.y.len(), c.tiles.as_mut_ptr(), c.tiles.len(), c.offsets.as_mut_ptr(), c.offsets.len(),
            c.list.as_mut_ptr(), c.list.len(), opening.lap_share, opening.tick_limit, Poses { wheels: opening.poses },
            b.many, b.calls.as_ptr(), b.calls.len(), b.given.as_ptr(), b.given.len(), b.words.as_mut_ptr(), b.words.len(),
            b.numbers.as_mut_ptr(), b.numbers.len())
    }
}

pub fn sine(a: f64) -> Angle {
    unsafe { grader_sine(a) }
}

pub fn cosine(a: f64) -> Angle {
    unsafe { grader_cosine(a) }
}

pub fn atan2(y: f64, x: f64) -> Angle {
    unsafe { grader_atan2(y, x) }
}

pub fn sqrt(x: f64) -> f64 {
    unsafe { grader_sqrt(x) }
}

pub fn cell(v: f64) -> u32 {
    unsafe { grader_cell(v) }
}

pub fn draw(state: u64) -> Drawn {
    unsafe { grader_draw(state) }
}

#[cfg(test)]
mod tests {
    use super::*;
    use std::mem::{offset_of, size_of};

    #[test]
    fn sizes_are_those_of_the_header() {
        assert_eq!([size_of::<Pose>(), size_of::<Motion>(), size_of::<Force>(), size_of::<Wheel>()], [32, 40, 24, 40]);
        assert_eq!([size_of::<Weights>(), size_of::<Poses>()], [24, 128]);
        assert_eq!([size_of::<Setup>(), size_of::<Progress>(), size_of::<Car>(), size_of::<State>()], [24, 12, 168, 1944]);
        assert_eq!([size_of::<Laid>(), size_of::<CurbsFound>(), size_of::<Figures>(), size_of::<Replayed>()], [40, 8, 24, 80]);
        assert_eq!([size_of::<Started>(), size_of::<Driven>(), size_of::<Settled>()], [1960, 16, 28]);
        assert_eq!([size_of::<Saved>(), size_of::<Restored>(), size_of::<SavedFor>()], [8, 1952, 16]);
        assert_eq!([size_of::<Angle>(), size_of::<Drawn>()], [16, 16]);
    }

    macro_rules! places {
        ($t:ty: $($field:ident $at:expr),*) => { $(assert_eq!(offset_of!($t, $field), $at, stringify!($t.$field));)* };
    }

    #[test]
    fn fields_stand_where_the_header_has_them() {
        places!(Pose: x 0, y 8, cos 16, sin 24);
        places!(Motion: joint_angle 0, sin 8, cos 16, vx 24, vy 32);
        places!(Force: motor 0, fx 8, fy 16);
        places!(Wheel: gas 0, brake 8, steer 16, omega 24, phase 32);
        places!(Weights: tile 0, step 8, off_playfield 16);
        places!(Setup: n 0, tick_limit 4, lap_share 8, fallback 16);
        places!(Progress: visited_count 0, tick 4, lap 8, ended 9, driven 10);
        places!(Car: ctl 0, fuel_spent 160);
        places!(State: setup 0, progress 24, car 40, credited 208, wheels 528, poses 1808, seed 1936);
        places!(Laid: cause 0, n 4, entries 8, fallback 12, beta 16, x 24, y 32);
        places!(CurbsFound: cause 0, count 4);
        places!(Started: cause 0, count 4, lap 8, run 16);
        places!(Driven: cause 0, progress 4);
        places!(Settled: cause 0, new_tiles 4, n 8, off 12, lap 13, ended 14, progress 16);
        places!(Figures: cause 0, tick 4, credited 8, n 12, share 16, lap 20, ended 21, fallback 22);
        places!(Replayed: laid 0, start_cause 40, start_count 44, start_lap 48, sheet 52);
        places!(Saved: cause 0, length 4);
        places!(Restored: cause 0, run 8);
        places!(SavedFor: cause 0, n 4, seed 8);
        places!(Angle: cause 0, value 8);
        places!(Drawn: value 0, state 8);
    }
}
