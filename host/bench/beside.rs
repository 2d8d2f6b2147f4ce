//! The rows that have a counterpart in the Rust. Each side's answers are summed, and the sums compared.
use crate::clock::{each, head, versus, Rounds};
use crate::inputs::{columns, motions, numbers as roots, port_motions, port_poses, quads, Ground, HULL};
use crate::lent::{stated, Lent};
use crate::port;
use oracle::oracle::{overlap, probe, Track};
use std::cell::Cell;
use std::hint::black_box;

const BESIDE: [&str; 4] = ["what", "Rust", "port", "port / Rust"];

fn same<T: PartialEq + std::fmt::Debug>(what: &str, rust: T, port: T) {
    assert_eq!(rust, port, "{what}: the Rust's answer and the port's differ");
}

#[inline(never)]
fn root(x: f64) -> f64 {
    x.sqrt()
}

pub fn numbers(rounds: Rounds) {
    head("Numbers", &BESIDE);
    let xs = roots();
    // each root to a place of its own: a sum would go from call to call through memory, and be what is timed
    let each_alone = |f: fn(f64) -> f64| {
        let mut out = [0.0; 1_024];
        out.iter_mut().zip(&xs).for_each(|(r, &x)| *r = f(x));
        out
    };
    let chain = |f: fn(f64) -> f64| xs.iter().fold(0.0, |s, &x| f(s + x));
    let bits = |f| (each_alone(f).map(f64::to_bits), chain(f).to_bits());
    same("sqrt", bits(root), bits(port::sqrt));
    let ten = |f: &dyn Fn()| each(10 * xs.len(), || (0..10).for_each(|_| f()));
    let alone = |f| ten(&|| drop(black_box(&each_alone(f))));
    versus("square root, independent", rounds, || alone(root), || alone(port::sqrt));
    let chained = |f| ten(&|| drop(black_box(chain(f))));
    versus("square root, each of the one before", rounds, || chained(root), || chained(port::sqrt));
    overlaps(rounds);
}

/// A wheel's quad at each point and the six tiles around it. Both sides find the two quads of a pair in memory, side by side, and know
/// nothing of them; the Rust reads them there, the port takes them by value, as its C function does.
fn overlaps(rounds: Rounds) {
    let track = Track::generate(0);
    let n = track.tiles.len();
    let mut pairs: Vec<[[[f64; 2]; 4]; 2]> = Vec::new();
    for (i, q) in quads(&track).into_iter().enumerate() {
        pairs.extend((0..6).map(|d| [q, track.tiles[(i + n - 3 + d) % n].quad]));
    }
    let touching = |f: fn(&[[[f64; 2]; 4]; 2]) -> bool| pairs.iter().filter(|&pair| f(black_box(pair))).count();
    let rust = || touching(|[a, b]| overlap(a, b));
    let here = || touching(|[a, b]| port::overlap(*a, *b));
    same("overlap", rust(), here());
    let timed = |side: &dyn Fn() -> usize| each(pairs.len(), || drop(black_box(side())));
    versus("`quad_overlap`, overlap: near pairs", rounds, || timed(&rust), || timed(&here));
}

/// Lay, and the curbs of what is laid; the seed is one that the Rust has too.
fn laid(seed: u32, lent: &mut Lent, long: &[usize; 7], quads: &mut [f64], white: &mut [u8]) -> u32 {
    let laid = port::lay(seed.into(), lent, long);
    let given = [&lent.floats[1][..], &lent.floats[2], &lent.floats[3]];
    laid.entries + port::curbs(given, laid.n, quads, white).count
}

pub fn courses(rounds: Rounds) {
    head("Courses, with their curbs on both sides", &BESIDE);
    let long = stated(60_000);
    let (mut quads, mut white) = (vec![0.0; 20_000], vec![0u8; 2_500]);
    let attempts = |k: u32| (0..u32::MAX).find(|&s| probe::attempts(s).0 == k).unwrap();
    let mut rows: Vec<(String, Vec<u32>)> = vec![("`Track::generate`, lay: the seeds 0 to 63".into(), (0..64).collect())];
    rows.extend((1..=3).map(|k| (format!("the same, seed {} (attempts: {k})", attempts(k)), vec![attempts(k)])));
    for (name, seeds) in rows {
        let mut lent = Lent::untouched(&long);
        let rust = |s: &u32| {
            let t = Track::generate(black_box(*s));
            (probe::raw_ref(&t).1.len() + t.borders.len()) as u32
        };
        let sum: u32 = seeds.iter().map(rust).sum();
        same(&name, sum, seeds.iter().map(|&s| laid(s, &mut lent, &long, &mut quads, &mut white)).sum());
        versus(
            &name,
            rounds,
            || each(seeds.len(), || drop(black_box(seeds.iter().map(rust).sum::<u32>()))),
            || {
                each(seeds.len(), || {
                    drop(black_box(
                        seeds.iter().map(|&s| laid(black_box(s), &mut lent, &long, &mut quads, &mut white)).sum::<u32>(),
                    ))
                })
            },
        );
    }
    let tracks: Vec<Track> = (0..32).map(Track::generate).collect();
    let given: Vec<_> = tracks.iter().map(|t| columns(&t.points)).collect();
    let mut lent = Lent::untouched(&long);
    versus(
        "`from_points`, points: of the seeds 0 to 31",
        rounds,
        || each(32, || tracks.iter().for_each(|t| drop(black_box(probe::given(t.points.clone(), false))))),
        || {
            each(32, || {
                for [b, x, y] in &given {
                    let laid = port::points([b, x, y], b.len() as u32, &mut lent, &long);
                    black_box(port::curbs([b, x, y], laid.n, &mut quads, &mut white));
                }
            })
        },
    );
}

type Run = port::State;
type Motions = [port::Motion; 4];
type Poses = [port::Pose; 4];

fn driven(run: &mut Run, action: u32, m: &Motions) {
    let mut forces = [port::Force::default(); 4];
    black_box(port::drive(run, action, m, &mut forces));
    black_box(&forces);
}

fn settled(run: &mut Run, c: port::Columns, p: Poses) -> (u32, bool) {
    let s = port::settle(run, c, HULL.x, HULL.y, p);
    (s.new_tiles, s.ended)
}

pub fn drives(rounds: Rounds) {
    head("Drives, through the C boundary", &BESIDE);
    let ground = Ground::laid(0);
    drive("tyre pass, drive: no wheel slips", rounds, &ground, 2.0, [0.0, 1.0], 0);
    drive("tyre pass, drive: all wheels slip", rounds, &ground, 20.0, [0.2, 20.0], 3);
}

pub fn runs(rounds: Rounds) {
    head("Runs, through the C boundary", &BESIDE);
    let grounds: Vec<Ground> = (0..10).map(Ground::laid).collect();
    settle("`contact_pass`, settle", rounds, &grounds);
    tick("`Game::step`, drive and settle", rounds, &grounds);
}

/// The Rust's tyre pass with the action rule before it, and the port's drive; the state goes on in both, and `driven` is put back.
fn drive(name: &str, rounds: Rounds, ground: &Ground, most: f64, [gas, omega]: [f64; 2], action: u32) {
    let ms = motions(512, most);
    let here: Vec<_> = ms.iter().map(port_motions).collect();
    let spun = [Cell::new(0.0), Cell::new(0.0)];
    let wish = if action == 3 { 0.2 } else { 0.0f64 };
    let rust = || {
        let mut r = ground.begin(0.95);
        (0..4).for_each(|i| r.put_ctl(i, [gas, 0.0, 0.0, omega, 0.0]));
        let t = each(ms.len(), || {
            for m in &ms {
                r.put_motion(m);
                r.wish(0.0, wish, 0.0);
                r.tyres_alone();
            }
        });
        spun[0].set(r.ctl(0)[3]);
        t
    };
    let port = || {
        let mut run = ground.start(0.95);
        run.car.ctl.iter_mut().for_each(|c| (c.gas, c.omega) = (gas, omega));
        let t = each(here.len(), || {
            for m in &here {
                driven(&mut run, action, m);
                run.progress.driven = false;
            }
        });
        spun[1].set(run.car.ctl[0].omega);
        t
    };
    versus(name, rounds, rust, port);
    same(name, spun[0].get(), spun[1].get());
}

/// The contact pass alone, and the whole settle, a car on each point of ten courses in turn.
fn settle(name: &str, rounds: Rounds, grounds: &[Ground]) {
    let total: usize = grounds.iter().map(|g| g.cars.len() - 1).sum();
    let counts = [Cell::new(0), Cell::new(0)];
    let rust = || {
        let mut rs: Vec<_> = grounds.iter().map(|g| g.begin(1.0)).collect();
        let mut new = 0;
        let t = each(total, || {
            for (r, g) in rs.iter_mut().zip(grounds) {
                for p in &g.cars[1..] {
                    r.put_wheels(p);
                    new += r.contact_alone().0;
                }
            }
        });
        counts[0].set(new);
        t
    };
    let here: Vec<Vec<_>> = grounds.iter().map(|g| g.cars.iter().map(port_poses).collect()).collect();
    let port = || {
        let mut runs: Vec<_> = grounds.iter().map(|g| g.start(1.0)).collect();
        runs.iter_mut().for_each(|r| r.progress.driven = true);
        let mut new = 0;
        let t = each(total, || {
            for ((run, g), cars) in runs.iter_mut().zip(grounds).zip(&here) {
                for p in &cars[1..] {
                    new += settled(run, g.course(), *p).0;
                    run.progress.driven = true;
                }
            }
        });
        counts[1].set(new);
        t
    };
    versus(name, rounds, rust, port);
    same(name, counts[0].get(), counts[1].get());
}

/// A drive and a settle, against the whole `step` with the shimmed physics.
fn tick(name: &str, rounds: Rounds, grounds: &[Ground]) {
    let ms = motions(512, 10.0);
    let here: Vec<_> = ms.iter().map(port_motions).collect();
    let cars: Vec<Vec<_>> = grounds.iter().map(|g| g.cars.iter().map(port_poses).collect()).collect();
    let total: usize = grounds.iter().map(|g| g.cars.len() - 1).sum();
    let counts = [Cell::new((0, 0)), Cell::new((0, 0))];
    let rust = || {
        let mut rs: Vec<_> = grounds.iter().map(|g| g.begin(1.0)).collect();
        let (mut new, mut ticks) = (0, 0);
        let t = each(total, || {
            for (r, g) in rs.iter_mut().zip(grounds) {
                for (j, p) in g.cars.iter().enumerate().skip(1) {
                    let e = r.step(j % 5, &ms[j % ms.len()], HULL, *p);
                    new += e.new_tiles;
                    ticks += 1;
                    if e.ended {
                        break;
                    }
                }
            }
        });
        counts[0].set((new, ticks));
        t
    };
    let port = || {
        let mut runs: Vec<_> = grounds.iter().map(|g| g.start(1.0)).collect();
        let (mut new, mut ticks) = (0, 0);
        let t = each(total, || {
            for ((run, g), cars) in runs.iter_mut().zip(grounds).zip(&cars) {
                for (j, p) in cars.iter().enumerate().skip(1) {
                    driven(run, (j % 5) as u32, &here[j % here.len()]);
                    let (credited, ended) = settled(run, g.course(), *p);
                    new += credited;
                    ticks += 1;
                    if ended {
                        break;
                    }
                }
            }
        });
        counts[1].set((new, ticks));
        t
    };
    versus(name, rounds, rust, port);
    same(name, counts[0].get(), counts[1].get());
}
