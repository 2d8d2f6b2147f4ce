//! A whole run from a list of calls. Its contract is the grader's certificate: what it answers is what document 01's
//! plain scorer answers.
use crate::course::Owned;
use crate::ffi::{self, Batch, Force, Motion, Opening, Pose};
use crate::{Refusal, Settled, Sheet, Started};

/// A drive or settle of a log.
#[derive(Clone, Copy, Debug, PartialEq)]
pub enum Call {
    Drive { action: u32, motions: [Motion; 4] },
    Settle { x: f64, y: f64, poses: [Pose; 4] },
}

/// What the call at the same place is answered.
#[derive(Clone, Copy, Debug, PartialEq)]
pub enum Answer {
    Forces([Force; 4]),
    Settled(Settled),
    Refused(Refusal),
}

/// What a replay answers: the start, each call in order, and the sheet after the last. After a refused start every call
/// is refused by [`Refusal::NoRun`], and so is the sheet.
#[derive(Clone, Debug, PartialEq)]
pub struct Replayed {
    pub started: Result<Started, Refusal>,
    pub answers: Vec<Answer>,
    pub sheet: Result<Sheet, Refusal>,
}

/// Words and numbers to a call and to an answer, as the boundary has them.
const CALL: (usize, usize) = (4, 20);
const ANSWER: (usize, usize) = (4, 12);

/// The lengths of tiles and offsets that a settle is lent: all there are.
const LENT: [u32; 2] = [20_000, 4_490];

/// Lays the seed's course, starts a run on it and answers the calls. Refused by [`Refusal::Short`] as a whole, with nothing
/// answered, where there are more calls than a u32 counts.
pub fn replay(seed: u64, lap_share: f64, tick_limit: u32, poses: [Pose; 4], calls: &[Call]) -> Result<Replayed, Refusal> {
    let many = u32::try_from(calls.len()).map_err(|_| Refusal::Short)?;
    let opening = Opening { lap_share, tick_limit, poses };
    let words: Vec<u32> = calls.iter().flat_map(|c| c.flat().0).collect();
    let given: Vec<f64> = calls.iter().flat_map(|c| c.flat().1).collect();
    let mut answers = (vec![0; ANSWER.0 * calls.len()], vec![0.0; ANSWER.1 * calls.len()]);
    let mut columns = Owned::new();
    loop {
        let batch = Batch { many, calls: &words, given: &given, words: &mut answers.0, numbers: &mut answers.1 };
        let r = ffi::replay(seed, columns.lent(), opening, batch);
        match Refusal::check(r.laid.cause, r.laid.entries) {
            Err(Refusal::ShortList { needed }) => columns.grow(needed),
            Err(other) => return Err(other),
            Ok(()) => return Ok(read(r, &answers.0, &answers.1)),
        }
    }
}

fn read(r: ffi::Replayed, words: &[u32], numbers: &[f64]) -> Replayed {
    let started = Refusal::check(r.start_cause, 0).map(|()| Started { count: r.start_count, lap: r.start_lap });
    let answers = words.chunks_exact(ANSWER.0).zip(numbers.chunks_exact(ANSWER.1)).map(|(w, v)| Answer::of(w, v)).collect();
    Replayed { started, answers, sheet: Sheet::of(r.sheet) }
}

impl Call {
    /// Four words: kind, action, lent lengths; twenty numbers: motions, or the hull and the poses.
    fn flat(&self) -> ([u32; CALL.0], [f64; CALL.1]) {
        let mut numbers = [0.0; CALL.1];
        let mut put = |all: &mut dyn Iterator<Item = f64>| numbers.iter_mut().zip(all).for_each(|(to, from)| *to = from);
        let words = match self {
            Call::Drive { action, motions } => {
                put(&mut motions.iter().flat_map(|m| [m.joint_angle, m.sin, m.cos, m.vx, m.vy]));
                [0, *action, 0, 0]
            }
            Call::Settle { x, y, poses } => {
                put(&mut [*x, *y].into_iter().chain(poses.iter().flat_map(|p| [p.x, p.y, p.cos, p.sin])));
                [1, 0, LENT[0], LENT[1]]
            }
        };
        (words, numbers)
    }
}

impl Answer {
    /// The answer that four words and twelve numbers hold.
    fn of(w: &[u32], v: &[f64]) -> Answer {
        match w[0] {
            0 => Answer::Forces([0, 3, 6, 9].map(|i| Force { motor: v[i], fx: v[i + 1], fy: v[i + 2] })),
            1 => Answer::Settled(Settled {
                new_tiles: w[1],
                n: w[2],
                off: w[3] & 1 != 0,
                lap: w[3] & 2 != 0,
                ended: w[3] & 4 != 0,
            }),
            _ => Answer::Refused(Refusal::check(w[1], 0).expect_err("a refusal has a cause")),
        }
    }
}
