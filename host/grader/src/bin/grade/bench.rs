//! grade bench: how long the grader's calls take on this machine.
use crate::args::{print, seed, Args, Done, Failure};
use crate::{demo, text};
use grader::{replay, Call, Course, Run};
use std::hint::black_box;
use std::time::Instant;

const HELP: &str = "\
grade bench [SEED] [--json]: how long the grader's calls take

Times laying the course of a seed (0 if none is given), and start, drive, settle, save and restore over the demo's run on it, each
through the C boundary: the median of 21 rounds, in nanoseconds a call. For port and Rust side by side see host/bench.

  --json       one JSON object in place of the text
";

const ROUNDS: usize = 21;

pub fn run(given: Vec<String>) -> Done {
    let args = Args::read(given, &["--json"], 1)?;
    if args.help {
        return print(HELP);
    }
    let seed = args.words.first().map_or(Ok(0), |w| seed(w))?;
    let rows = times(seed).map_err(|r| Failure::Work(format!("a call of the bench is {}", text::refusal(&r))))?;
    let line = |(what, ns): &(&str, u128)| if args.json { format!("\"{what}\":{ns}") } else { format!("{what:<8} {ns:>9} ns") };
    let lines: Vec<String> = rows.iter().map(line).collect();
    print(&if args.json { format!("{{{}}}\n", lines.join(",")) } else { lines.join("\n") + "\n" })
}

/// The median time of a round, for each of its calls.
fn median(calls: usize, mut round: impl FnMut()) -> u128 {
    let mut all: Vec<u128> = (0..ROUNDS)
        .map(|_| {
            let begun = Instant::now();
            round();
            begun.elapsed().as_nanos() / calls.max(1) as u128
        })
        .collect();
    all.sort_unstable();
    all[ROUNDS / 2]
}

fn times(seed: u64) -> Result<Vec<(&'static str, u128)>, grader::Refusal> {
    let course = Course::lay(seed);
    let (log, _) = demo::driven(seed)?;
    let start = || Run::start(&course, log.start.lap_share, log.start.tick_limit, log.start.poses);
    let calls: Vec<Call> = log.calls.iter().map(|(_, c)| *c).collect();
    let (drives, settles) = states(&course, &calls, start()?.0)?;
    let lay = median(1, || drop(black_box(Course::lay(black_box(seed)))));
    let begin = median(100, || (0..100).for_each(|_| drop(black_box(start()))));
    let drive = median(drives.len(), || drives.iter().for_each(|(run, call)| once(&course, run, call)));
    let settle = median(settles.len(), || settles.iter().for_each(|(run, call)| once(&course, run, call)));
    let kept = drives.iter().map(|(run, _)| run.save()).collect::<Result<Vec<_>, _>>()?;
    let save = median(drives.len(), || drives.iter().for_each(|(run, _)| drop(black_box(run.save()))));
    let restore = median(kept.len(), || kept.iter().for_each(|bytes| drop(black_box(Run::restore(&course, bytes)))));
    let whole = median(calls.len(), || {
        let _ = black_box(replay(seed, log.start.lap_share, log.start.tick_limit, log.start.poses, &calls));
    });
    Ok(vec![
        ("lay", lay),
        ("start", begin),
        ("drive", drive),
        ("settle", settle),
        ("save", save),
        ("restore", restore),
        ("replay", whole),
    ])
}

/// The runs just before each drive and each settle of the list, with the call.
type Waiting = Vec<(Run, Call)>;

fn states(course: &Course, calls: &[Call], mut run: Run) -> Result<(Waiting, Waiting), grader::Refusal> {
    let (mut drives, mut settles) = (Vec::new(), Vec::new());
    for call in calls {
        let list = if matches!(call, Call::Drive { .. }) { &mut drives } else { &mut settles };
        list.push((run.clone(), *call));
        answer(course, &mut run, call)?;
    }
    Ok((drives, settles))
}

fn answer(course: &Course, run: &mut Run, call: &Call) -> Result<(), grader::Refusal> {
    match *call {
        Call::Drive { action, motions } => run.drive(action, motions).map(|forces| {
            black_box(forces);
        }),
        Call::Settle { x, y, poses } => run.settle(course, x, y, poses).map(|settled| {
            black_box(settled);
        }),
    }
}

/// One call on a copy of the run, which stays as it is for the next round.
fn once(course: &Course, run: &Run, call: &Call) {
    let _ = black_box(answer(course, &mut run.clone(), call));
}
