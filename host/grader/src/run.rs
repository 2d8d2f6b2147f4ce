//! A run: start, then drive and settle in turn, with the host's physics between them.
use crate::ffi::{self, Force, Motion, Opening, Pose, State, Weights};
use crate::{Course, Refusal};

/// A run on a course. It keeps the grader's state; every call goes to the grader, and a refused one changes nothing.
#[derive(Clone, Debug, PartialEq)]
pub struct Run {
    state: State,
}

/// What start answers: the tiles that the wheels stand on, credited and never rewarded, and whether they make a lap.
#[derive(Clone, Copy, Debug, PartialEq, Eq)]
pub struct Started {
    pub count: u32,
    pub lap: bool,
}

/// What settle answers: tiles credited by this contact, the course's tile count, whether the hull is off the playfield,
/// a lap is complete, and the run has ended.
#[derive(Clone, Copy, Debug, PartialEq, Eq)]
pub struct Settled {
    pub new_tiles: u32,
    pub n: u32,
    pub off: bool,
    pub lap: bool,
    pub ended: bool,
}

impl Settled {
    /// The tick's reward: tile * new_tiles / n + step, or the off value alone.
    pub fn reward(&self, weights: Weights) -> f64 {
        ffi::reward(weights, self.new_tiles, self.n, self.off)
    }
}

/// The figures of a run. `share` is 1000 * credited / n, rounded down.
#[derive(Clone, Copy, Debug, PartialEq, Eq)]
pub struct Sheet {
    pub tick: u32,
    pub credited: u32,
    pub n: u32,
    pub share: u32,
    pub lap: bool,
    pub ended: bool,
    pub fallback: bool,
}

impl Sheet {
    pub(crate) fn of(f: ffi::Figures) -> Result<Sheet, Refusal> {
        Refusal::check(f.cause, 0)?;
        Ok(Sheet { tick: f.tick, credited: f.credited, n: f.n, share: f.share, lap: f.lap, ended: f.ended, fallback: f.fallback })
    }
}

impl Run {
    /// Puts the wheels (front left, front right, rear left, rear right) on the course. A lap is complete once more than
    /// `lap_share` of the tiles are credited and a wheel comes upon tile 0; after `tick_limit` ticks no drive is taken.
    /// Refused by [`Refusal::Settings`] and [`Refusal::Number`].
    pub fn start(course: &Course, lap_share: f64, tick_limit: u32, poses: [Pose; 4]) -> Result<(Run, Started), Refusal> {
        let opening = Opening { lap_share, tick_limit, poses };
        let s = ffi::start(course.columns(), course.n(), course.fallback(), course.seed(), opening);
        Refusal::check(s.cause, 0)?;
        Ok((Run { state: s.run }, Started { count: s.count, lap: s.lap }))
    }

    /// A run that goes on from a state that was kept. A state that is no run's makes a run that refuses its calls by
    /// [`Refusal::NoRun`]; for one that was altered otherwise the grader promises that it answers, and no more.
    pub fn from_state(state: State) -> Run {
        Run { state }
    }

    /// Forces for the host's physics: 0 does nothing, 1 steers right, 2 left, 3 is gas, 4 the brake. Refused by
    /// [`Refusal::NoRun`], [`Refusal::Turn`], [`Refusal::TickLimit`], [`Refusal::Action`] and [`Refusal::Number`].
    pub fn drive(&mut self, action: u32, motions: [Motion; 4]) -> Result<[Force; 4], Refusal> {
        let mut forces = [Force::default(); 4];
        Refusal::check(ffi::drive(&mut self.state, action, &motions, &mut forces), 0)?;
        Ok(forces)
    }

    /// The contact after physics: where the hull (x, y) and the wheels are now. `course` must be the one that the run was
    /// started on. Refused by [`Refusal::NoRun`], [`Refusal::Turn`] and [`Refusal::Number`].
    pub fn settle(&mut self, course: &Course, x: f64, y: f64, poses: [Pose; 4]) -> Result<Settled, Refusal> {
        let s = ffi::settle(&mut self.state, course.columns(), x, y, poses);
        Refusal::check(s.cause, 0)?;
        Ok(Settled { new_tiles: s.new_tiles, n: s.n, off: s.off, lap: s.lap, ended: s.ended })
    }

    /// The figures so far, at any time. Only a run made by [`Run::from_state`] may be refused, by [`Refusal::NoRun`].
    pub fn sheet(&self) -> Result<Sheet, Refusal> {
        Sheet::of(ffi::sheet(&self.state))
    }

    /// The tile was touched by a wheel at some contact of this run. False for a tile that the course has not.
    pub fn credited(&self, tile: u32) -> bool {
        tile < self.state.setup.n && self.state.credited.get(tile as usize / 64).is_some_and(|w| w >> (tile % 64) & 1 == 1)
    }

    /// The grader's state as it is: a plain value, good for [`Run::from_state`]. To keep a run in bytes see [`Run::save`].
    pub fn state(&self) -> &State {
        &self.state
    }
}
