//! Sine, cosine, `atan2`, square roots and cells: at random bits, at edges and at the places where cells change.
use crate::car::{bits, step};
use crate::lent::between;
use crate::port;
use crate::tally::{Tally, Unit};
use oracle::oracle::probe;
use reinfors_core::SplitMix64;

const P: f64 = 2000.0 / 6.0;

/// A float: any bits, one of the size that the grader meets, or an edge and its neighbours.
fn some(g: &mut SplitMix64) -> f64 {
    let edges = [0.0, -0.0, 16.0, -16.0, 1e6, -1e6, P, -P, 5e-324, f64::MIN_POSITIVE, f64::MAX, f64::INFINITY, 1.0, 4.0, 0.25];
    match g.next_u64() % 5 {
        0 => f64::from_bits(g.next_u64()),
        1 => between(g, -16.0, 16.0),
        2 => between(g, -1000.0, 1000.0),
        // an edge of a cell
        3 => step((g.next_u64() % 70) as f64 * 10.0 - P, (g.next_u64() % 9) as i64 - 4),
        _ => {
            let edge = edges[g.next_u64() as usize % edges.len()];
            if edge.is_finite() { step(edge, (g.next_u64() % 5) as i64 - 2) } else { edge }
        }
    }
}

/// Where arguments are refused (cause 8), and else the Rust's value.
fn angle(port: port::Angle, inside: bool, rust: impl FnOnce() -> f64) -> bool {
    if inside {
        port.cause == 0 && bits(port.value) == bits(rust())
    } else {
        port.cause == 8
    }
}

/// A thousand numbers.
pub fn numbers(t: &mut Tally, g: &mut SplitMix64, unit: Unit) {
    for _ in 0..1000 {
        let (a, b) = (some(g), some(g));
        let within = |x: f64, bound: f64| (-bound..=bound).contains(&x);
        t.check("sine", angle(port::sine(a), within(a, 16.0), || libm::sin(a)), unit, 1, || format!("{a:?} {:016x}", a.to_bits()));
        t.check("cosine", angle(port::cosine(a), within(a, 16.0), || libm::cos(a)), unit, 1, || format!("{a:?} {:016x}", a.to_bits()));
        let inside = within(a, 1e6) && within(b, 1e6);
        t.check("atan2", angle(port::atan2(a, b), inside, || libm::atan2(a, b)), unit, 2, || format!("{a:?} {b:?}"));
        t.check("square root", bits(port::sqrt(a)) == bits(a.sqrt()), unit, 1, || format!("{a:?} {:016x}", a.to_bits()));
        t.check("cell", port::cell(a) as usize == probe::cell(a), unit, 1, || format!("{a:?} {:016x}", a.to_bits()));
    }
}
