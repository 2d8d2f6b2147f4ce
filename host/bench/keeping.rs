//! Keeping a run over a restart: save and restore, and the question which course bytes are of. The Rust has none of them.
use crate::clock::{alone, each, head, shown, Rounds};
use crate::inputs::{motions, port_motions, port_poses, Ground, HULL};
use crate::port;
use std::hint::black_box;

/// The room that a save asks for.
const ROOM: usize = 645;

/// Calls in a round.
const CALLS: usize = 400;

/// A run on the ground after so many ticks.
fn after(ground: &Ground, ticks: usize) -> port::State {
    let ms = motions(ticks + 1, 10.0);
    let mut run = ground.start(1.0);
    for j in 1..=ticks {
        let mut forces = [port::Force::default(); 4];
        let drove = port::drive(&mut run, (j % 5) as u32, &port_motions(&ms[j]), &mut forces);
        let settled = port::settle(&mut run, ground.course(), HULL.x, HULL.y, port_poses(&ground.cars[j]));
        assert_eq!((drove, settled.cause, settled.ended), (0, 0, false));
    }
    run
}

fn row(name: &str, bytes: usize, rounds: Rounds, call: impl Fn()) {
    let t = alone(rounds, || each(CALLS, || (0..CALLS).for_each(|_| call())));
    println!("| {name} | {bytes} | {} |", shown(t));
}

pub fn table(rounds: Rounds) {
    head("Keeping a run, through the C boundary", &["what", "bytes", "port"]);
    let ground = Ground::laid(0);
    for ticks in [0, 1, 100] {
        let run = after(&ground, ticks);
        let mut out = [0; ROOM];
        let length = port::save(&run, &mut out).length as usize;
        let bytes = &out[..length];
        let restored = port::restore(bytes, ground.course(), ground.laid.n);
        assert!(restored.cause == 0 && restored.run == run, "a restored run is the run that was saved");
        row(&format!("save, after {ticks} ticks"), length, rounds, || {
            let mut out = [0; ROOM];
            black_box(port::save(black_box(&run), &mut out).length);
            black_box(&out);
        });
        row(&format!("restore, after {ticks} ticks"), length, rounds, || {
            drop(black_box(port::restore(black_box(bytes), ground.course(), ground.laid.n)));
        });
        row(&format!("which course, after {ticks} ticks"), length, rounds, || {
            black_box(port::saved_course(black_box(bytes)).n);
        });
    }
}
