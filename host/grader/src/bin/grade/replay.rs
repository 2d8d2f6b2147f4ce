//! grade replay: the answers to a log of calls.
use crate::args::{print, read, save, Args, Done, Failure};
use crate::log::{Log, FORM};
use crate::svg::Picture;
use crate::{json, text};
use grader::{Answer, Call, Course, Replayed, Run};

const HELP: &str = "\
grade replay LOG [--svg FILE] [--json]: the answers to a log of calls

Prints what the grader answers to each line of the log, refusals in words, and the run sheet at the end. A drive's answer is
the motor speed and, in brackets, the force of the four wheels, rounded; --json has every digit.

  --svg FILE   draws the course with the credited tiles coloured, and the hull's path
  --json       one JSON object in place of the text

Status 0 where the log was replayed, refused calls or not; 1 where it cannot be read or a file cannot be written.

";

pub fn run(given: Vec<String>) -> Done {
    let args = Args::read(given, &["--svg", "--json"], 1)?;
    if args.help {
        return print(&format!("{HELP}{FORM}"));
    }
    let name = args.words.first().ok_or_else(|| Failure::Usage("replay needs a log; see grade replay --help".into()))?;
    let log = read(name, Log::read)?;
    let replayed = answers(&log)?;
    if let Some(path) = &args.svg {
        save(path, picture(&log, &replayed)?)?;
    }
    print(&if args.json { format!("{{{}}}\n", members(&log, &replayed)) } else { as_text(&log, &replayed) })
}

pub fn answers(log: &Log) -> Result<Replayed, Failure> {
    let calls: Vec<Call> = log.calls.iter().map(|c| c.1).collect();
    let s = &log.start;
    grader::replay(log.seed, s.lap_share, s.tick_limit, s.poses, &calls)
        .map_err(|r| Failure::Work(format!("the log is {}", text::refusal(&r))))
}

/// The answer to each line, and the sheet.
pub fn as_text(log: &Log, r: &Replayed) -> String {
    let started = match &r.started {
        Ok(s) => format!("{} tiles credited{}", s.count, if s.lap { ", lap" } else { "" }),
        Err(e) => text::refusal(e),
    };
    let answers = text::answers(&log.calls, &r.answers);
    format!("line {}  start  {started}\n{answers}\n{}", log.start.line, text::sheet(&r.sheet))
}

/// The same as the members of a JSON object.
pub fn members(log: &Log, r: &Replayed) -> String {
    let started = match &r.started {
        Ok(s) => format!("{{\"count\":{},\"lap\":{}}}", s.count, s.lap),
        Err(e) => json::refusal(e),
    };
    let answers = json::answers(&log.calls, &r.answers);
    format!("\"seed\":{},\"started\":{started},\"answers\":{answers},\"sheet\":{}", log.seed, json::sheet(&r.sheet))
}

/// The run after the log's last call, none where its start is refused. The replay hands back no run, so the log goes through
/// the calls one by one too, and both must come to the same sheet. Each accepted settle's hull is told.
pub fn one_by_one(log: &Log, course: &Course, r: &Replayed, mut hull: impl FnMut([f64; 2])) -> Result<Option<Run>, Failure> {
    let s = &log.start;
    let Ok((mut run, _)) = Run::start(course, s.lap_share, s.tick_limit, s.poses) else { return Ok(None) };
    for (_, call) in &log.calls {
        if let (Call::Settle { x, y, .. }, Answer::Settled(_)) = (call, answer(&mut run, course, call)) {
            hull([*x, *y]);
        }
    }
    if run.sheet() != r.sheet {
        return Err(Failure::Work("the replay and the calls one by one come to different sheets".into()));
    }
    Ok(Some(run))
}

/// What the run answers to a call of a log.
pub fn answer(run: &mut Run, course: &Course, call: &Call) -> Answer {
    match *call {
        Call::Drive { action, motions } => run.drive(action, motions).map_or_else(Answer::Refused, Answer::Forces),
        Call::Settle { x, y, poses } => run.settle(course, x, y, poses).map_or_else(Answer::Refused, Answer::Settled),
    }
}

/// The course with credited tiles and the hull's path.
pub fn picture(log: &Log, replayed: &Replayed) -> Result<String, Failure> {
    let course = Course::lay(log.seed);
    let mut picture = Picture::of(&course)?;
    let mut title = format!("seed {}: no run", log.seed);
    if let Some(run) = one_by_one(log, &course, replayed, |at| picture.path.push(at))? {
        picture.credited = (0..course.n()).map(|t| run.credited(t)).collect();
        title = run.sheet().map_or(title, |s| {
            let end = [(s.lap, ", lap"), (s.ended, ", ended")].map(|(flag, word)| if flag { word } else { "" });
            format!("seed {}: {} of {} tiles in {} ticks{}", log.seed, s.credited, s.n, s.tick, end.concat())
        });
    }
    Ok(picture.drawn(&title))
}
