//! A run that goes on in port and model, call by call: every answer, and the whole state after it.
use crate::car::{bits, numbers};
use crate::model::{Begin, Model, State};
use crate::port::{self, Car, Columns, Opening, Progress, Setup, Wheel};
use crate::saved;
use crate::tally::{Tally, Unit};
use oracle::{Motion, Pose};

/// A state as the port has it.
pub fn ported(s: &State) -> port::State {
    let ctl = s.ctl.map(|[gas, brake, steer, omega, phase]| Wheel { gas, brake, steer, omega, phase });
    port::State {
        setup: Setup { n: s.n, tick_limit: s.limit, lap_share: s.share, fallback: s.fallback },
        progress: Progress { visited_count: s.count, tick: s.tick, lap: s.lap, ended: s.ended, driven: s.driven },
        car: Car { ctl, fuel_spent: s.fuel },
        credited: s.credited,
        wheels: s.wheels,
        poses: port_poses(&s.poses),
        seed: s.seed,
    }
}

/// The port's state is this one, all NaNs alike.
fn same_state(r: &port::State, s: &State) -> bool {
    let port::State { setup, progress: p, car, .. } = r;
    let floats = |c: &Wheel| [c.gas, c.brake, c.steer, c.omega, c.phase].map(bits);
    let place = |p: &port::Pose| [p.x, p.y, p.cos, p.sin].map(bits);
    (setup.n, p.visited_count, p.tick, setup.tick_limit) == (s.n, s.count, s.tick, s.limit)
        && [p.lap, p.ended, setup.fallback, p.driven] == [s.lap, s.ended, s.fallback, s.driven]
        && [bits(setup.lap_share), bits(car.fuel_spent)] == [bits(s.share), bits(s.fuel)]
        && car.ctl.iter().zip(&s.ctl).all(|(a, b)| floats(a) == b.map(bits))
        && r.credited == s.credited
        && r.wheels == s.wheels
        && r.poses.iter().zip(&s.poses).all(|(a, b)| place(a) == numbers(b).map(bits))
        && r.seed == s.seed
}

fn port_poses(poses: &[Pose; 4]) -> [port::Pose; 4] {
    poses.map(|p| port::Pose { x: p.x, y: p.y, cos: p.cos, sin: p.sin })
}

/// The model's columns in the lengths that they are lent in.
fn lent_part(m: &Model, lent: [usize; 3]) -> Columns<'_> {
    Columns { tiles: &m.tiles[..lent[0]], offsets: &m.offsets[..lent[1]], list: &m.ids[..lent[2]] }
}

/// The forces before a drive, which a refused one leaves.
const UNTOUCHED: [port::Force; 4] = [port::Force { motor: 7.0, fx: 8.0, fy: 9.0 }; 4];

/// What stands in an output before a save.
const UNWRITTEN: u8 = 0xa5;

/// A run that goes on in both: the port's state, and the model with the columns and its own.
pub struct Both<'a> {
    t: &'a mut Tally,
    unit: Unit,
    pub model: Model,
    run: port::State,
    calls: usize,
}

impl<'a> Both<'a> {
    /// A state of zeros over the model's columns.
    pub fn new(t: &'a mut Tally, unit: Unit, mut model: Model) -> Both<'a> {
        model.state = State::zero();
        Both { t, unit, run: ported(&model.state), model, calls: 0 }
    }
    /// Both go on from this state.
    pub fn put(&mut self, s: State) {
        self.run = ported(&s);
        self.model.state = s;
    }
    pub fn whole(&self) -> [usize; 3] {
        [self.model.tiles.len(), self.model.offsets.len(), self.model.ids.len()]
    }
    /// After a difference the port goes on from the model's state, so that each difference is counted once, at its own call.
    fn check(&mut self, what: &'static str, same: bool, text: impl FnOnce() -> String) {
        let calls = self.calls;
        self.t.check(what, same, self.unit, calls, || format!("call {calls}: {}", text()));
        self.calls += 1;
        if !same {
            self.run = ported(&self.model.state);
        }
    }
    pub fn start(&mut self, b: &Begin, poses: &[Pose; 4]) -> bool {
        let opening = Opening { lap_share: b.share, tick_limit: b.limit, poses: port_poses(poses) };
        let answer = port::start(lent_part(&self.model, b.lent), b.n, b.fallback, b.seed, opening);
        let cause = self.model.start(b, poses) as u32;
        let s = &self.model.state;
        let same = (answer.cause, answer.count, answer.lap) == (cause, s.count, s.lap) && same_state(&answer.run, s);
        self.run = answer.run;
        let what = if cause == 0 { "start" } else { "start, refused" };
        self.check(what, same, || {
            format!("cause {} count {} lap {}, not {cause}; {b:?} {poses:?}", answer.cause, answer.count, answer.lap)
        });
        cause == 0
    }
    pub fn drive(&mut self, action: u32, m: &[Motion; 4]) {
        let motions = m.map(|m| port::Motion { joint_angle: m.joint_angle, sin: m.sin, cos: m.cos, vx: m.vx, vy: m.vy });
        let mut forces = UNTOUCHED;
        let answer = port::drive(&mut self.run, action, &motions, &mut forces);
        let (cause, push) = self.model.drive(action, m);
        let same_force =
            |(f, p): (&port::Force, &oracle::Push)| [f.motor, f.fx, f.fy].map(bits) == [p.motor, p.fx, p.fy].map(bits);
        let written = if cause == 0 { forces.iter().zip(&push).all(same_force) } else { forces == UNTOUCHED };
        let same = answer == cause as u32 && written && same_state(&self.run, &self.model.state);
        let what = if cause == 0 { "drive" } else { "drive, refused" };
        self.check(what, same, || format!("cause {answer}, not {cause}; action {action} {m:?}"));
    }
    pub fn settle(&mut self, lent: [usize; 3], x: f64, y: f64, poses: &[Pose; 4]) {
        let Both { model, run, .. } = self;
        let answer = port::settle(run, lent_part(model, lent), x, y, port_poses(poses));
        let (cause, said) = match self.model.settle(lent, x, y, poses) {
            Ok(e) => (0, (e.new_tiles, e.n, e.off, e.lap, e.ended)),
            Err(cause) => (cause as u32, (0, 0, false, false, false)),
        };
        let given = (answer.new_tiles, answer.n, answer.off, answer.lap, answer.ended);
        let same = (answer.cause, given) == (cause, said) && same_state(&self.run, &self.model.state);
        let what = if cause == 0 { "settle" } else { "settle, refused" };
        self.check(what, same, || {
            format!("cause {} {given:?}, not {cause} {said:?}; hull {x:?} {y:?} lent {lent:?} {poses:?}", answer.cause)
        });
    }
    /// A save into an output of this length, the bytes held to the second writer's; what it wrote, where it was accepted.
    pub fn save(&mut self, room: usize) -> Option<Vec<u8>> {
        let mut out = vec![UNWRITTEN; room];
        let answer = port::save(&self.run, &mut out);
        let said = self.model.save(room);
        let (cause, form) = match &said {
            Ok(form) => (0, &form[..]),
            Err(cause) => (*cause as u32, &[][..]),
        };
        let rest = out.iter().skip(form.len()).all(|&b| b == UNWRITTEN);
        let same = (answer.cause, answer.length as usize) == (cause, form.len()) && out.starts_with(form) && rest;
        let what = if cause == 0 { "save" } else { "save, refused" };
        self.check(what, same, || {
            format!("cause {} length {}, not {cause} {}; {out:02x?}, not {form:02x?}", answer.cause, answer.length, form.len())
        });
        said.ok()
    }
    /// A restore of these bytes, and what course they are of; both go on from the restored run, where it was accepted. Whether it was.
    pub fn restore(&mut self, bytes: &[u8], lent: [usize; 3], n: u32) -> bool {
        let answer = port::restore(bytes, lent_part(&self.model, lent), n);
        let course = port::saved_course(bytes);
        let said = self.model.restore(bytes, lent, n);
        let (cause, state) = match &said {
            Ok(state) => (0, state.clone()),
            Err(cause) => (*cause as u32, State::zero()),
        };
        let of = saved::read(bytes).map_or((11, 0, 0), |s| (0, s.seed, s.n));
        let same = answer.cause == cause && same_state(&answer.run, &state) && (course.cause, course.seed, course.n) == of;
        if cause == 0 {
            self.run = answer.run;
            self.model.state = state;
        }
        let what = if cause == 0 { "restore" } else { "restore, refused" };
        self.check(what, same, || format!("cause {}, not {cause}; n {n} lent {lent:?} {bytes:02x?}", answer.cause));
        cause == 0
    }
    /// The run goes through a save and a restore, and on from there. Where `own`, the state is one that the calls made on these columns,
    /// and it must come back as it was.
    pub fn keep(&mut self, lent: [usize; 3], own: bool) {
        let before = self.model.state.clone();
        let Some(bytes) = self.save(saved::ROOM) else { return };
        let restored = self.restore(&bytes, lent, before.n);
        if own {
            let same = restored && same_state(&self.run, &before);
            self.check("restored run, as before its save", same, || format!("{bytes:02x?}"));
        }
    }
    /// The sheet of the state, which refuses no ended run.
    pub fn sheet(&mut self) {
        let s = &self.model.state;
        let none = port::Figures { cause: 4, tick: 0, credited: 0, n: 0, share: 0, lap: false, ended: false, fallback: false };
        let figures = |s: &State| port::Figures {
            cause: 0,
            tick: s.tick,
            credited: s.count,
            n: s.n,
            share: (1000 * u64::from(s.count) / u64::from(s.n)) as u32,
            lap: s.lap,
            ended: s.ended,
            fallback: s.fallback,
        };
        let said = if s.unfit() { none } else { figures(s) };
        let answer = port::sheet(&self.run);
        self.check("sheet", answer == said, || format!("{answer:?}, not {said:?}"));
    }
}
