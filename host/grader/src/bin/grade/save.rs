//! grade save: the run after a log's last call, in a file.
use crate::args::{print, read, save, Args, Done, Failure};
use crate::log::{Log, FORM};
use crate::{json, replay, text};
use grader::{Course, Refusal, Replayed};
use std::path::Path;

const HELP: &str = "\
grade save LOG FILE [--json]: the run after a log, kept in a file

Replays the log as grade replay does, prints the same answers and the sheet, and writes the run after the log's last call to
FILE: at most 645 bytes, for grade resume. A FILE that is there is replaced. An ended run is saved too; one whose last drive is not
settled cannot be, so the log must not end between a drive and its settle.

  --json       one JSON object in place of the text

Status 0 where FILE was written; 1 where the log cannot be read, its start is refused, the run cannot be saved or FILE cannot be
written.

";

pub fn run(given: Vec<String>) -> Done {
    let args = Args::read(given, &["--json"], 2)?;
    if args.help {
        return print(&format!("{HELP}{FORM}"));
    }
    let [name, file] = &args.words[..] else {
        return Err(Failure::Usage("save needs a log and a file to write; see grade save --help".into()));
    };
    if let (Ok(from), Ok(to)) = (Path::new(name).canonicalize(), Path::new(file).canonicalize()) {
        if from == to {
            return Err(Failure::Usage(format!("{file} is the log: name another file to write")));
        }
    }
    let log = read(name, Log::read)?;
    let replayed = replay::answers(&log)?;
    let bytes = saved(name, &log, &replayed)?;
    save(Path::new(file), &bytes)?;
    let length = bytes.len();
    print(&if args.json {
        let kept = format!("{{\"file\":{},\"length\":{length}}}", json::quoted(file));
        format!("{{{},\"saved\":{kept}}}\n", replay::members(&log, &replayed))
    } else {
        format!("{}\nThe run is saved in {file}, {length} bytes.\n", replay::as_text(&log, &replayed))
    })
}

/// The bytes of the run after the log's last call, or why there are none.
fn saved(name: &str, log: &Log, replayed: &Replayed) -> Result<Vec<u8>, Failure> {
    let failed = |what: String| Err(Failure::Work(what));
    if let Err(r) = &replayed.started {
        return failed(format!("{name}:{}: there is no run to save, its start is {}", log.start.line, text::refusal(r)));
    }
    let course = Course::lay(log.seed);
    match replay::one_by_one(log, &course, replayed, |_| ())?.map(|run| run.save()) {
        Some(Ok(bytes)) => Ok(bytes),
        Some(Err(Refusal::Turn)) => {
            failed(format!("{name}: the run cannot be saved here, refused by 5: its last drive awaits a settle"))
        }
        Some(Err(r)) => failed(format!("{name}: the run cannot be saved here, {}", text::refusal(&r))),
        None => failed(format!("{name}: the replay and the calls one by one differ in the start")),
    }
}
