//! Lays seed 0, puts the car on its first point, and drives one tick: the smallest host there is.
use grader::{Course, Motion, Pose, Refusal, Run};

fn main() -> Result<(), Refusal> {
    let course = Course::lay(0);
    let at = course.first();
    let wheels = [Pose { x: at.x, y: at.y, cos: 1.0, sin: 0.0 }; 4];
    let (mut run, started) = Run::start(&course, 0.95, 1000, wheels)?;
    let forces = run.drive(3, [Motion { cos: 1.0, ..Motion::default() }; 4])?;
    // a host moves the car by the forces here; this one lets it stand
    let settled = run.settle(&course, at.x, at.y, wheels)?;
    let sheet = run.sheet()?;
    println!(
        "{} tiles, {} at the start, force {:.3}, {} new, tick {}, share {}",
        course.n(),
        started.count,
        forces[2].fy,
        settled.new_tiles,
        sheet.tick,
        sheet.share
    );
    Ok(())
}
