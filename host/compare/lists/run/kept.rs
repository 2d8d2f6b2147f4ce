//! Lists of calls with saves and restores among them.
use super::saves::OUTPUT;
use super::*;
use crate::saved::ROOM;

/// What one tick of a list is given.
struct Tick {
    action: u32,
    motions: [Motion; 4],
    hull: [f64; 2],
    poses: [Pose; 4],
}

fn some_tick(g: &mut SplitMix64, p: &TrackPoint) -> Tick {
    let motions = [0; 4].map(|_| road_motion(g));
    Tick { action: (g.next_u64() % 5) as u32, motions, hull: [p.x, p.y], poses: near_car(g, p, 1.0) }
}

/// The lines that a call adds to the answers.
fn said(r: &mut Replay, call: impl FnOnce(&mut Replay)) -> String {
    let before = r.lines.len();
    call(r);
    r.lines[before..].to_string()
}

fn ticked(r: &mut Replay, t: &Tick) {
    r.drive(t.action, &t.motions);
    r.last();
    r.settle(LONG, t.hull[0], t.hull[1], &t.poses);
    r.last();
}

/// On each of these seeds' courses saves among drives and settles, and restores of an earlier one and of a later one.
pub fn there_and_back(r: &mut Replay, g: &mut SplitMix64, seeds: &[u64]) {
    for &s in seeds {
        let points = seed(s);
        let n = r.course(&points);
        let b = Begin { seed: s, fallback: s == 7, ..begin(n, 0.5, 1_000) };
        r.last();
        r.start(&b, &near_car(g, &points[0], 1.0));
        r.last();
        ticked(r, &some_tick(g, &points[1]));
        let first = r.save(ROOM).unwrap();
        let t = some_tick(g, &points[2]);
        r.drive(t.action, &t.motions);
        assert_eq!(r.save(ROOM), Err(5));
        assert_eq!(r.save(ROOM - 1), Err(5));
        r.settle(LONG, t.hull[0], t.hull[1], &t.poses);
        let second = r.save(ROOM).unwrap();
        let after = r.state.clone();
        assert_eq!(r.restore(&first, LONG, n), 0);
        let once = said(r, |r| ticked(r, &t));
        assert!(r.state.same(&after));
        assert_eq!(r.restore(&first, LONG, n), 0);
        assert_eq!(said(r, |r| ticked(r, &t)), once);
        ticked(r, &some_tick(g, &points[9]));
        assert_eq!(r.restore(&second, LONG, n), 0);
        assert!(r.state.same(&after));
        assert_eq!(r.save(OUTPUT).unwrap(), second);
        assert_eq!(r.restore(&first, LONG, n), 0);
        assert_eq!(r.save(ROOM).unwrap(), first);
        while_due(r, g, &points, [&first, &second]);
    }
}

/// Restores while a settle is due: after a refused one it is still due, after an accepted one it is gone. A refused settle, drive or
/// restore leaves the last poses, and a refused start those of the state of zeros.
fn while_due(r: &mut Replay, g: &mut SplitMix64, points: &[TrackPoint], [first, second]: [&[u8]; 2]) {
    let n = points.len() as u32;
    let t = some_tick(g, &points[3]);
    r.drive(t.action, &t.motions);
    assert_eq!(r.restore(&first[1..], LONG, n), 11);
    assert_eq!(r.restore(second, LONG, n + 1), 12);
    assert_eq!(r.restore(second, [0; 3], n), 2);
    r.last();
    assert_eq!(r.settle([0; 3], 0.0, 0.0, &t.poses).0, 2);
    r.last();
    assert_eq!(r.settle(LONG, t.hull[0], t.hull[1], &t.poses).0, 0);
    r.last();
    r.drive(t.action, &t.motions);
    assert_eq!(r.restore(second, LONG, n), 0);
    assert_eq!(r.settle(LONG, t.hull[0], t.hull[1], &t.poses).0, 5);
    assert_eq!(r.drive(9, &t.motions).0, 7);
    r.last();
    r.save(ROOM).unwrap();
    r.start(&begin(n, 0.5, 0), &t.poses);
    r.last();
    assert_eq!(r.save(ROOM), Err(4));
    assert_eq!(r.restore(first, LONG, n), 0);
}

/// An ended run, and one at its tick limit: what is refused is refused of the restored run too, and the sheet is the same.
fn at_the_end(r: &mut Replay, g: &mut SplitMix64) {
    let points = seed(7);
    let n = r.course(&points);
    for off in [true, false] {
        r.start(&Begin { seed: 7, ..begin(n, 0.5, 2) }, &near_car(g, &points[0], 0.0));
        ticked(r, &some_tick(g, &points[1]));
        let mut t = some_tick(g, &points[2]);
        if off {
            t.hull = [0.0, step(P, 1)];
        }
        ticked(r, &t);
        assert_eq!((r.state.ended, r.state.tick), (off, 2));
        let cause = if off { 4 } else { 6 };
        assert_eq!(r.drive(t.action, &t.motions).0, cause);
        let sheet = said(r, Replay::sheet);
        let bytes = r.save(ROOM).unwrap();
        r.start(&begin(n, 0.5, 9), &t.poses);
        assert_eq!(r.restore(&bytes, LONG, n), 0);
        assert_eq!(r.drive(t.action, &t.motions).0, cause);
        r.settle(LONG, 0.0, 0.0, &t.poses);
        assert_eq!(said(r, Replay::sheet), sheet);
        assert_eq!(r.save(ROOM).unwrap(), bytes);
    }
}

/// The first part of a run that goes through a save and a restore after every few ticks, beside the Rust that goes on by itself.
fn kept_runs(r: &mut Replay, g: &mut SplitMix64) {
    for (s, share, noise) in [(5, 0.5, 0.5), (801, 0.95, 3.0)] {
        let points = seed(s);
        let n = r.course(&points);
        let lent = [STATED[0], STATED[1], r.offsets[4_489] as usize];
        let first = near_car(g, &points[0], noise);
        assert_eq!(r.start(&Begin { lent, seed: s, ..begin(n, share, 1_000_000) }, &first), 0);
        let mut whole = Run::start(r.track(n), share, Pose::default(), first);
        for k in 1..61 {
            let t = Tick { poses: near_car(g, &points[k], noise), ..some_tick(g, &points[k]) };
            let [x, y] = t.hull.map(|v| v.clamp(-P, P));
            r.drive(t.action, &t.motions);
            r.settle(lent, x, y, &t.poses);
            let e = whole.step(t.action as usize, &t.motions, Pose { x, y, cos: 1.0, sin: 0.0 }, t.poses);
            if k % 4 == 0 || e.ended {
                let bytes = r.save(ROOM).unwrap();
                assert_eq!(r.restore(&bytes, lent, n), 0);
            }
            same(r, &whole);
            if e.ended {
                break;
            }
        }
        r.tally.ticks.push(r.state.tick);
        r.sheet();
    }
}

pub fn records(r: &mut Replay, g: &mut SplitMix64) {
    there_and_back(r, g, &[7, 12_345, u32::MAX.into()]);
    at_the_end(r, g);
    kept_runs(r, g);
}
