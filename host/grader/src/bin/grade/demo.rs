//! grade demo: a built-in car and controller drive a lap.
use crate::args::{print, save, seed, Args, Done, Failure};
use crate::car::Car;
use crate::log::{Log, Start};
use crate::pilot::Pilot;
use crate::{json, replay, text};
use grader::{Call, Course, Refusal, Run, Sheet};
use std::path::{Path, PathBuf};

const HELP: &str = "\
grade demo [SEED] [--out DIR] [--json]: a built-in car drives a lap

A small car and a simple controller drive the course of a seed (0 if none is given) until the run ends. Writes

  DIR/log.txt     every call, for grade replay
  DIR/sheet.txt   the run sheet
  DIR/lap.svg     the course, the credited tiles and the hull's path

DIR is target/demo if none is given; it is made where it is missing. Progress goes to the standard error. A run ends at a
lap, or before it once every tile is credited; status 1 where this one does neither.

  --json          one JSON object in place of the text
";

const LAP_SHARE: f64 = 0.95;
const TICK_LIMIT: u32 = 20_000;
/// Ticks between two lines of progress.
const STRIDE: u32 = 250;

pub fn run(given: Vec<String>) -> Done {
    let args = Args::read(given, &["--out", "--json"], 1)?;
    if args.help {
        return print(HELP);
    }
    let seed = args.words.first().map_or(Ok(0), |w| seed(w))?;
    let dir = args.out.unwrap_or_else(|| PathBuf::from("target/demo"));
    let (log, sheet) = driven(seed).map_err(|r| Failure::Work(format!("the demo's call is {}", text::refusal(&r))))?;
    write(&dir, &log, sheet)?;
    if args.json {
        print(&format!(
            "{{\"seed\":{seed},\"out\":{},\"sheet\":{}}}\n",
            json::quoted(&dir.display().to_string()),
            json::sheet(&Ok(sheet))
        ))?;
    } else {
        print(&format!(
            "{}\n{}\nlog.txt, sheet.txt and lap.svg are in {}\n",
            text::sheet(&Ok(sheet)),
            end(&sheet),
            dir.display()
        ))?;
    }
    if sheet.lap || sheet.credited == sheet.n {
        Ok(())
    } else {
        Err(Failure::Work(format!("the run of seed {seed} ends without a lap and with tiles left")))
    }
}

/// Why the run is over. Who misses no tile ends just before tile 0 comes again, so that no lap is flagged.
fn end(s: &Sheet) -> &'static str {
    match () {
        () if s.lap => "The run ended at a lap: tile 0 came again with enough tiles credited.",
        () if s.credited == s.n => "The run ended as every tile was credited, which comes just before a lap.",
        () if s.ended => "The run ended off the playfield.",
        () => "The tick limit was reached.",
    }
}

/// Drives until the run ends or the tick limit is reached: this loop is a host's.
pub fn driven(seed: u64) -> Result<(Log, Sheet), Refusal> {
    let course = Course::lay(seed);
    let mut car = Car::at(course.first());
    let mut pilot = Pilot::on(course.points());
    let start = Start { line: 0, lap_share: LAP_SHARE, tick_limit: TICK_LIMIT, poses: car.poses() };
    let (mut run, _) = Run::start(&course, start.lap_share, start.tick_limit, start.poses)?;
    let mut calls = Vec::new();
    for tick in 1..=TICK_LIMIT {
        let (action, motions) = (pilot.action(&car), car.motions());
        let forces = run.drive(action, motions)?;
        car.step(&forces);
        let ([x, y], poses) = (car.hull(), car.poses());
        let settled = run.settle(&course, x, y, poses)?;
        calls.extend([(0, Call::Drive { action, motions }), (0, Call::Settle { x, y, poses })]);
        if tick % STRIDE == 0 {
            eprintln!("tick {tick}: {} of {} tiles", run.sheet()?.credited, course.n());
        }
        if settled.ended {
            break;
        }
    }
    Ok((Log { seed, start, calls }, run.sheet()?))
}

/// Writes the three files. The log is read back from its text and must replay to the same sheet.
fn write(dir: &Path, log: &Log, sheet: Sheet) -> Done {
    let said = log.text();
    let again = Log::read(&said).map_err(|(line, what)| Failure::Work(format!("the demo's log, line {line}: {what}")))?;
    let replayed = replay::answers(&again)?;
    if replayed.sheet != Ok(sheet) {
        return Err(Failure::Work("the demo's log replays to another sheet".into()));
    }
    std::fs::create_dir_all(dir).map_err(|e| Failure::Work(format!("cannot make {}: {e}", dir.display())))?;
    save(&dir.join("log.txt"), &said)?;
    save(&dir.join("sheet.txt"), text::sheet(&Ok(sheet)))?;
    save(&dir.join("lap.svg"), replay::picture(&again, &replayed)?)
}
