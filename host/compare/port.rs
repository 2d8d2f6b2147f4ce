//! The port, called as a host calls it, by the functions and structs of the host's crate (../grader/src/ffi.rs), over this
//! program's columns; and the three functions of the boundary that no host needs.
#[path = "../grader/src/ffi.rs"]
mod ffi;

use crate::lent::Lent;
pub use ffi::{atan2, cell, cosine, drive, restore, reward, save, saved_course, settle, sheet, sine, sqrt, start};
pub use ffi::{
    Angle, Car, Columns, CurbsFound, Figures, Force, Laid, Motion, Opening, Pose, Progress, Setup, State, Weights, Wheel,
};

type Fm = *mut f64;
type Im = *mut u32;
type N = usize;

#[repr(C)]
struct Quad {
    corners: [[f64; 2]; 4],
}

#[repr(C)]
struct Checkpoint {
    angle: f64,
    x: f64,
    y: f64,
}

#[repr(C)]
struct CheckpointList {
    checkpoints: [Checkpoint; 12],
}

#[rustfmt::skip]
extern "C" {
    fn grader_lay_attempts(attempts: u32, seed: u64, a: Fm, al: N, b: Fm, bl: N, x: Fm, xl: N, y: Fm, yl: N, t: Fm, tl: N, o: Im, ol: N, l: Im, ll: N) -> Laid;
    fn grader_lay_checkpoints(cs: CheckpointList, a: Fm, al: N, b: Fm, bl: N, x: Fm, xl: N, y: Fm, yl: N, t: Fm, tl: N, o: Im, ol: N, l: Im, ll: N) -> Laid;
    fn grader_overlap(a: Quad, b: Quad) -> bool;
}

/// The lent columns' first places, as many as `long` says: alpha, beta, x, y, tiles, offsets, index list.
fn front<'a>(lent: &'a mut Lent, long: &[usize; 7]) -> ffi::Lent<'a> {
    let Lent { floats, offsets, ids } = lent;
    let [alpha, beta, x, y, tiles] = &mut floats[..] else { panic!("five columns of floats") };
    ffi::Lent {
        alpha: &mut alpha[..long[0]],
        beta: &mut beta[..long[1]],
        x: &mut x[..long[2]],
        y: &mut y[..long[3]],
        tiles: &mut tiles[..long[4]],
        offsets: &mut offsets[..long[5]],
        list: &mut ids[..long[6]],
    }
}

/// A call that is lent columns beside its other arguments. Each pointer is to a live slice of the length beside it, and no two
/// of them overlap.
macro_rules! on_columns {
    ($name:ident, $lent:expr, $($first:expr),*) => {{
        let c = $lent;
        unsafe {
            $name($($first,)* c.alpha.as_mut_ptr(), c.alpha.len(), c.beta.as_mut_ptr(), c.beta.len(), c.x.as_mut_ptr(), c.x.len(),
                c.y.as_mut_ptr(), c.y.len(), c.tiles.as_mut_ptr(), c.tiles.len(), c.offsets.as_mut_ptr(), c.offsets.len(),
                c.list.as_mut_ptr(), c.list.len())
        }
    }};
}

pub fn lay(seed: u64, lent: &mut Lent, long: &[usize; 7]) -> Laid {
    ffi::lay(seed, front(lent, long))
}

pub fn lay_attempts(attempts: u32, seed: u64, lent: &mut Lent, long: &[usize; 7]) -> Laid {
    on_columns!(grader_lay_attempts, front(lent, long), attempts, seed)
}

pub fn lay_checkpoints(cs: &[(f64, f64, f64); 12], lent: &mut Lent, long: &[usize; 7]) -> Laid {
    let list = CheckpointList { checkpoints: cs.map(|(angle, x, y)| Checkpoint { angle, x, y }) };
    on_columns!(grader_lay_checkpoints, front(lent, long), list)
}

pub fn points([beta, x, y]: [&[f64]; 3], count: u32, lent: &mut Lent, long: &[usize; 7]) -> Laid {
    ffi::points(beta, x, y, count, front(lent, long))
}

pub fn curbs([beta, x, y]: [&[f64]; 3], count: u32, quads: &mut [f64], white: &mut [u8]) -> CurbsFound {
    ffi::curbs(beta, x, y, count, quads, white)
}

pub fn overlap(a: [[f64; 2]; 4], b: [[f64; 2]; 4]) -> bool {
    unsafe { grader_overlap(Quad { corners: a }, Quad { corners: b }) }
}
