//! How the cost grows with the work: lay over attempts, settle over tiles in one cell, points over the index's entries.
use crate::clock::{alone, each, head, shown, turns, Rounds};
use crate::inputs::{columns, port_poses, Ground, HULL};
use crate::lent::{stated, Lent};
use crate::port;
use oracle::oracle::{probe, TrackPoint};
use std::hint::black_box;

pub fn tables(rounds: Rounds) {
    attempts(rounds);
    stacked(rounds);
    entries(rounds);
}

/// Seeds that need so many attempts, four of each.
fn attempts(rounds: Rounds) {
    head("Lay over attempts", &["attempts", "seeds", "lay", "an attempt"]);
    let long = stated(60_000);
    let mut lent = Lent::untouched(&long);
    for k in 1..=5 {
        let seeds: Vec<u32> = (0..200_000).filter(|&s| probe::attempts(s).0 == k).take(4).collect();
        let t = alone(rounds, || each(seeds.len(), || seeds.iter().for_each(|&s| drop(black_box(port::lay(s.into(), &mut lent, &long))))));
        println!("| {k} | {} | {} | {} |", seeds.iter().map(u32::to_string).collect::<Vec<_>>().join(", "), shown(t), shown(t / f64::from(k)));
    }
}

/// All tiles in one cell, the car in the middle of them.
fn stacked(rounds: Rounds) {
    head("Settle over tiles in one cell", &["tiles", "settle", "a tile of a wheel"]);
    for n in [13, 100, 500, 2_500] {
        let points = (0..n).map(|i| TrackPoint { beta: 0.0, x: 2.0 + f64::from(i) * 1e-4, y: 2.0 }).collect();
        let ground = Ground::given(probe::given(points, false), 60_000);
        let car = port_poses(&ground.cars[0]);
        let mut run = ground.start(1.0);
        let t = alone(rounds, || {
            each(200, || {
                for _ in 0..200 {
                    run.progress.driven = true;
                    black_box(port::settle(&mut run, ground.course(), HULL.x, HULL.y, car).cause);
                }
            })
        });
        println!("| {n} | {} | {} |", shown(t), shown(t / f64::from(4 * n)));
    }
}

/// Points between two corners of the field: every cell lists every tile. The Rust also looks for curbs; none of these points turns, so
/// that there are none to be worked out.
fn entries(Rounds(rounds): Rounds) {
    head("Points over entries of the index", &["points", "entries", "`from_points`", "points", "port / Rust", "an entry of the port"]);
    for n in [1, 25, 100, 400, 2_500] {
        let corner = |i: i32| if i % 2 == 0 { 1_000.0 } else { -1_000.0 };
        let points: Vec<_> = (0..n).map(|i| TrackPoint { beta: 0.0, x: corner(i), y: corner(i) }).collect();
        let [b, x, y] = columns(&points);
        let long = stated(12_000_000);
        let mut lent = Lent::untouched(&long);
        let mut entries = 0;
        let given = || probe::given(black_box(&points).clone(), false);
        let [rust, port, ratio] = turns(
            Rounds(rounds.min(11)),
            || each(1, || drop(black_box(given()))),
            || each(1, || entries = port::points([&b, &x, &y], n as u32, &mut lent, &long).entries),
        );
        let track = given();
        assert!(lent.ids[..entries as usize] == *probe::raw_ref(&track).1, "{n} points: the Rust's list and the port's differ");
        println!("| {n} | {entries} | {} | {} | {ratio:.2} | {} |", shown(rust), shown(port), shown(port / f64::from(entries)));
    }
}
