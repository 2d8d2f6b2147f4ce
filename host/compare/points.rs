//! Courses of given points, and curbs: the answer and every lent column, whole. Causes are the model's (model.rs).
use crate::car::{pick, step};
use crate::courses::{laid, same_floats, same_lent, LONG};
use crate::lent::{between, put, roomy, Lent, STATED};
use crate::model::given_cause;
use crate::port;
use crate::tally::{Tally, Unit};
use oracle::oracle::{probe, TrackPoint};
use reinfors_core::SplitMix64;

/// A beta of a row of points that turn the same way by 0.1 and more, but in the middle by just the bound of a curb, a fifth of the
/// walk's turn rate: no curb, for the bound must be passed.
fn turned_by_the_bound(i: usize) -> f64 {
    [-0.3, -0.2, -0.1, 0.0, 0.31 * 0.2, 0.2, 0.3, 0.4][i % 8]
}

/// A beta of a row of n points that turn the same way by 0.1 from the one `before` places before point 0 to the one `after` it, and
/// nowhere else: curbs across the seam.
fn turned_at_the_seam(i: usize, n: usize, before: usize, after: usize) -> f64 {
    if i <= after {
        0.1 * i as f64
    } else if i + before >= n {
        -0.1 * (n - i) as f64
    } else {
        0.0
    }
}

/// Given points: a walk, one place, turned as a curb is judged, or corner to corner with cells beyond the field. Number 7 is the most
/// points between two corners: the longest index list of all, 11,222,500 entries.
pub fn made_up(g: &mut SplitMix64, number: u64) -> Vec<TrackPoint> {
    let n = match number % 8 {
        _ if number == 7 => 2_500,
        0 => 1,
        1 => 2,
        2 => 3,
        3 => 2_500,
        _ => 1 + g.next_u64() as usize % 400,
    };
    let (mut beta, mut x, mut y) = (between(g, -6.0, 6.0), between(g, -300.0, 300.0), between(g, -300.0, 300.0));
    let far = [0.0, 2.0, 5.0, 60.0][number as usize / 8 % 4];
    let (before, after) = (g.next_u64() as usize % 8, g.next_u64() as usize % 8);
    let corners = number == 7 || (number % 16 == 12 && n < 60);
    let point = |i| {
        beta = (beta + between(g, -0.3, 0.3)).clamp(-16.0, 16.0);
        x = (x + between(g, -far, far)).clamp(-1000.0, 1000.0);
        y = (y + between(g, -far, far)).clamp(-1000.0, 1000.0);
        let edge = if i % 2 == 0 { -1000.0 } else { 1000.0 };
        match number % 16 {
            _ if corners => TrackPoint { beta, x: edge, y: edge },
            13 => TrackPoint { beta: turned_by_the_bound(i), x, y },
            6 | 14 => TrackPoint { beta: turned_at_the_seam(i, n, before, after), x, y },
            _ => TrackPoint { beta, x, y },
        }
    };
    (0..n).map(point).collect()
}

fn columns(points: &[TrackPoint]) -> [Vec<f64>; 3] {
    [points.iter().map(|p| p.beta).collect(), points.iter().map(|p| p.x).collect(), points.iter().map(|p| p.y).collect()]
}

/// A number of a point, of any of its columns, and the greatest that is accepted there.
fn any_number<'a>(g: &mut SplitMix64, points: &'a mut [TrackPoint]) -> (&'a mut f64, f64) {
    let p = &mut points[g.next_u64() as usize % points.len()];
    match g.next_u64() % 3 {
        0 => (&mut p.beta, 16.0),
        1 => (&mut p.x, 1000.0),
        _ => (&mut p.y, 1000.0),
    }
}

/// In half of the units one number is at an end of its range, in a fourth one is beyond.
fn to_the_ends(g: &mut SplitMix64, points: &mut [TrackPoint]) {
    if g.next_u64() % 2 == 0 {
        let (number, most) = any_number(g, points);
        *number = pick(g, &[most, -most]);
    }
    if g.next_u64() % 4 == 0 {
        let (number, most) = any_number(g, points);
        *number = pick(g, &[f64::NAN, step(most, 1), -step(most, 1), f64::INFINITY]);
    }
}

/// A course of given points, a few of them refused, and its curbs.
pub fn points(t: &mut Tally, g: &mut SplitMix64, unit: Unit) {
    let mut points = made_up(g, unit.number);
    let largest = unit.number == 7;
    if !largest {
        to_the_ends(g, &mut points);
    }
    let count = match g.next_u64() % 16 {
        0 if !largest => 0,
        1 if !largest => 2_501,
        2 if !largest => points.len() as u32 + 1,
        _ => points.len() as u32,
    };
    let [b, x, y] = columns(&points);
    if given_cause(&points, count, true) == 0 {
        let track = probe::given(points.clone(), false);
        laid(t, g, unit, &[("points", &track)], format!("{} points", points.len()), |lent, long| {
            port::points([&b, &x, &y], count, lent, long)
        });
    } else {
        let mut long = LONG;
        if g.next_u64() % 4 == 0 {
            long[g.next_u64() as usize % 6] = 100;
        }
        let mut lent = Lent::untouched(&LONG);
        let cause = given_cause(&points, count, roomy(&long, &STATED)) as u32;
        let answer = port::points([&b, &x, &y], count, &mut lent, &long);
        let same = answer.cause == cause && same_lent(&lent, &Lent::untouched(&LONG));
        t.check("points, refused", same, unit, points.len(), || format!("count {count}, lent {long:?}: {answer:?}, not {cause}"));
    }
    curbs(t, g, unit, &points, g.clone().next_u64() % 16);
}

/// The curbs of points: quads and white marks, zeros up to their lengths, and nothing beyond. The quads are lent one number short where
/// `short` is 1, the marks where it is 2.
pub fn curbs(t: &mut Tally, g: &mut SplitMix64, unit: Unit, points: &[TrackPoint], short: u64) {
    let (quads_long, white_long) = (if short == 1 { 19_999 } else { 20_020 }, if short == 2 { 2_499 } else { 2_510 });
    let [b, x, y] = columns(points);
    let count = if g.next_u64() % 32 == 0 { points.len() as u32 + 1 } else { points.len() as u32 };
    let (mut quads, mut white) = (vec![1e7; quads_long], vec![7u8; white_long]);
    let (mut left_quads, mut left_white) = (quads.clone(), white.clone());
    let cause = given_cause(points, count, quads_long >= 20_000 && white_long >= 2_500) as u32;
    let mut found = 0;
    if cause == 0 {
        let curbs = probe::curbs(points);
        found = curbs.len() as u32;
        put(&mut left_quads, curbs.iter().flat_map(|c| c.quad.into_iter().flatten()), 20_000);
        put(&mut left_white, curbs.iter().map(|c| c.white.into()), 2_500);
    }
    let answer = port::curbs([&b, &x, &y], count, &mut quads, &mut white);
    let same = (answer.cause, answer.count) == (cause, found) && same_floats(&quads, &left_quads) && white == left_white;
    t.check("curbs", same, unit, points.len(), || {
        format!("{} points, count {count}: {answer:?}, not {cause} {found}", points.len())
    });
}
