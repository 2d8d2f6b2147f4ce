//! Keeping a run in bytes, over a restart of the host: document 02, orders 1 and 3.
use crate::ffi;
use crate::{Course, Refusal, Run};

/// Bytes that the grader asks of a save's output: the longest saved form.
const ROOM: usize = 645;

/// The course that saved bytes are of: the seed that it was laid from, 0 for a course of given points, and its tile count.
#[derive(Clone, Copy, Debug, PartialEq, Eq)]
pub struct SavedFor {
    pub seed: u64,
    pub n: u32,
}

/// Tells the course of saved bytes, so that it can be laid again. Refused by [`Refusal::Saved`] exactly where
/// [`Run::restore`] is.
pub fn saved_course(bytes: &[u8]) -> Result<SavedFor, Refusal> {
    let f = ffi::saved_course(bytes);
    Refusal::check(f.cause, 0).map(|()| SavedFor { seed: f.seed, n: f.n })
}

impl Run {
    /// The run in bytes, at most 645, good for [`Run::restore`]. Refused by [`Refusal::Turn`] while a settle is due; an ended
    /// run is saved. Only a run made by [`Run::from_state`] may be refused by [`Refusal::NoRun`].
    pub fn save(&self) -> Result<Vec<u8>, Refusal> {
        let mut bytes = vec![0; ROOM];
        let saved = ffi::save(self.state(), &mut bytes);
        Refusal::check(saved.cause, 0)?;
        bytes.truncate(saved.length as usize);
        Ok(bytes)
    }

    /// The run that the bytes of a save hold, as it was then. `course` must be the one that it was started on, laid again or
    /// kept. Refused by [`Refusal::Saved`] for other bytes, then by [`Refusal::OtherCourse`] for a course with another tile
    /// count; a course that differs in its tiles alone is taken, and is the host's fault.
    ///
    /// ```
    /// use grader::{saved_course, Course, Motion, Pose, Run};
    ///
    /// let course = Course::lay(7);
    /// let at = course.first();
    /// let wheels = [Pose { x: at.x, y: at.y, cos: at.beta.cos(), sin: at.beta.sin() }; 4];
    /// let (mut run, _) = Run::start(&course, 0.95, 1000, wheels)?;
    /// run.drive(3, [Motion { cos: 1.0, ..Motion::default() }; 4])?;
    /// run.settle(&course, at.x, at.y, wheels)?;
    /// let bytes = run.save()?;
    ///
    /// // after the restart
    /// let course = Course::lay(saved_course(&bytes)?.seed);
    /// let again = Run::restore(&course, &bytes)?;
    /// assert_eq!(again, run);
    /// # Ok::<(), grader::Refusal>(())
    /// ```
    pub fn restore(course: &Course, bytes: &[u8]) -> Result<Run, Refusal> {
        let r = ffi::restore(bytes, course.columns(), course.n());
        Refusal::check(r.cause, 0)?;
        Ok(Run::from_state(r.run))
    }
}

#[cfg(test)]
mod tests {
    use super::*;
    use crate::Pose;

    #[test]
    fn a_save_wants_its_room_whatever_it_writes() {
        let run = Run::start(&Course::lay(7), 0.95, 1000, [Pose { cos: 1.0, ..Pose::default() }; 4]).unwrap().0;
        let bytes = run.save().unwrap();
        for room in [0, bytes.len(), ROOM - 1] {
            let mut out = [0xa5; ROOM];
            let saved = ffi::save(run.state(), &mut out[..room]);
            assert_eq!((saved.cause, saved.length, out), (2, 0, [0xa5; ROOM]));
        }
        let mut out = [0xa5; ROOM];
        assert_eq!(ffi::save(run.state(), &mut out).length as usize, bytes.len());
        assert!(out.starts_with(&bytes) && out[bytes.len()..].iter().all(|&b| b == 0xa5));
    }
}
