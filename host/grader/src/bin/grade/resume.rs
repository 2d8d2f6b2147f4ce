//! grade resume: a saved run goes on.
use crate::args::{print, read, unreadable, Args, Done, Failure};
use crate::log::{calls, CALLS};
use crate::{json, replay, text};
use grader::{saved_course, Answer, Course, Refusal, Run};

const HELP: &str = "\
grade resume FILE [LOG] [--json]: a saved run goes on

Reads the run that grade save, or a host by the crate's Run::save, wrote to FILE, lays the course of its seed and restores the run
on it. Then prints what the grader answers to each line of the log, if one is given, and the run sheet. FILE stays as it is.

The log has lines of drives and settles alone: seed, lap share, tick limit and poses are the saved run's, and a line seed or start
is an error. A run on a course of given points is not for this command: its save tells seed 0, and no points.

  --json       one JSON object in place of the text

Status 0 where the run was resumed, refused calls or not; 1 where FILE is missing, damaged or of another course, or the log cannot
be read.

";

pub fn run(given: Vec<String>) -> Done {
    let args = Args::read(given, &["--json"], 2)?;
    if args.help {
        return print(&format!("{HELP}{CALLS}"));
    }
    let file = args.words.first().ok_or_else(|| Failure::Usage("resume needs a saved run; see grade resume --help".into()))?;
    let calls = args.words.get(1).map_or(Ok(Vec::new()), |name| read(name, calls))?;
    let bytes = std::fs::read(file).map_err(|e| unreadable(file, &e))?;
    let (course, mut run) = restored(file, &bytes)?;
    let before = run.sheet();
    let answers: Vec<Answer> = calls.iter().map(|(_, call)| replay::answer(&mut run, &course, call)).collect();
    let (seed, after) = (course.seed(), run.sheet());
    print(&if args.json {
        let [before, after] = [&before, &after].map(json::sheet);
        let answers = json::answers(&calls, &answers);
        format!("{{\"seed\":{seed},\"restored\":{before},\"answers\":{answers},\"sheet\":{after}}}\n")
    } else {
        let first =
            before.map_or_else(|r| text::refusal(&r), |s| format!("tick {}, {} of {} tiles credited", s.tick, s.credited, s.n));
        format!("restored  seed {seed}, {first}\n{}\n{}", text::answers(&calls, &answers), text::sheet(&after))
    })
}

/// The run that the bytes hold, on the course of its seed.
fn restored(file: &str, bytes: &[u8]) -> Result<(Course, Run), Failure> {
    let refused = |r: Refusal, what: String| Failure::Work(format!("{file}: {what}, {}", text::refusal(&r)));
    let of = saved_course(bytes).map_err(|r| refused(r, "no saved run, or a damaged one".into()))?;
    let course = Course::lay(of.seed);
    let run = Run::restore(&course, bytes).map_err(|r| {
        refused(
            r,
            format!("its seed {} lays {} tiles and the run has {}: it is not of a seed's course", of.seed, course.n(), of.n),
        )
    })?;
    Ok((course, run))
}
