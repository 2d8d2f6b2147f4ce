//! The host's side of the grader: safe types over its C boundary. The rules are the grader's, proved; this crate owns
//! the memory that it lends, turns causes into [`Refusal`] and decides nothing.
//!
//! A tick, with a car that stands where it is put (a real host moves it by the forces):
//!
//! ```
//! use grader::{Course, Motion, Pose, Run};
//!
//! let course = Course::lay(0);
//! let at = course.first();
//! let wheels = [Pose { x: at.x, y: at.y, cos: at.beta.cos(), sin: at.beta.sin() }; 4];
//! let (mut run, started) = Run::start(&course, 0.95, 1000, wheels)?;
//! assert!(started.count > 0);
//!
//! let forces = run.drive(3, [Motion { cos: 1.0, ..Motion::default() }; 4])?;
//! assert!(forces[2].fy > 0.0);
//! let settled = run.settle(&course, at.x, at.y, wheels)?;
//! assert_eq!((settled.new_tiles, settled.ended), (0, false));
//! assert_eq!(run.sheet()?.tick, 1);
//! # Ok::<(), grader::Refusal>(())
//! ```
//!
//! [`Run::save`] keeps a run in bytes over a restart of the host, and [`Run::restore`] goes on from them.
//!
//! docs/HOST.md of the repository says what a host does tick by tick and what it must not do.
#![deny(unsafe_code)]

mod course;
#[allow(unsafe_code)]
mod ffi;
pub mod numbers;
mod refusal;
mod replay;
mod run;
mod saved;

pub use course::{Course, Curb, Point, Quad};
pub use ffi::{Car, Force, Motion, Pose, Progress, Setup, State, Weights, Wheel};
pub use refusal::Refusal;
pub use replay::{replay, Answer, Call, Replayed};
pub use run::{Run, Settled, Sheet, Started};
pub use saved::{saved_course, SavedFor};
