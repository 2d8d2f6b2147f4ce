//! The numbers that courses are made of: the same bits on every machine, unlike the standard library's sine.
use crate::{ffi, Refusal};

/// The sine of a; refused by [`Refusal::Number`] beyond ±16.
pub fn sine(a: f64) -> Result<f64, Refusal> {
    value(ffi::sine(a))
}

/// The cosine of a; refused by [`Refusal::Number`] beyond ±16.
pub fn cosine(a: f64) -> Result<f64, Refusal> {
    value(ffi::cosine(a))
}

/// The angle of (x, y); refused by [`Refusal::Number`] where one is not finite or beyond ±1,000,000.
pub fn atan2(y: f64, x: f64) -> Result<f64, Refusal> {
    value(ffi::atan2(y, x))
}

/// The nearest f64 to the square root; NaN below zero.
pub fn sqrt(x: f64) -> f64 {
    ffi::sqrt(x)
}

/// The column or row of the index that a coordinate falls in, 0 to 66.
pub fn cell(v: f64) -> u32 {
    ffi::cell(v)
}

/// SplitMix64: the draw, and the state to go on with.
pub fn draw(state: u64) -> (u64, u64) {
    let d = ffi::draw(state);
    (d.value, d.state)
}

fn value(a: ffi::Angle) -> Result<f64, Refusal> {
    Refusal::check(a.cause, 0).map(|()| a.value)
}
