//! grade: courses and runs from the command line. Every figure that it prints is the grader's.
mod args;
mod bench;
mod car;
mod compare;
mod demo;
mod json;
mod lay;
mod log;
mod pilot;
mod replay;
mod resume;
mod save;
mod svg;
mod text;

use args::Failure;
use std::process::ExitCode;

const HELP: &str = "\
grade: courses and graded runs

  grade lay SEED [--svg FILE] [--json]      the course of a seed
  grade replay LOG [--svg FILE] [--json]    the answers to a log of calls, and the run sheet
  grade save LOG FILE [--json]              the same, and the run after the last call is kept in a file
  grade resume FILE [LOG] [--json]          a kept run goes on with a log of calls
  grade demo [SEED] [--out DIR] [--json]    a built-in car drives a lap and writes log, sheet and picture
  grade bench [SEED] [--json]               how long the grader's calls take on this machine
  grade compare [..]                        port and Rust side by side (host/compare/run)

`grade COMMAND --help` says more. Status: 0 done, 1 failed, 2 wrong arguments, 77 skipped (compare without the Rust).
";

fn main() -> ExitCode {
    let mut words = std::env::args().skip(1);
    let command = words.next();
    let rest: Vec<String> = words.collect();
    let done = match command.as_deref() {
        Some("lay") => lay::run(rest),
        Some("replay") => replay::run(rest),
        Some("save") => save::run(rest),
        Some("resume") => resume::run(rest),
        Some("demo") => demo::run(rest),
        Some("bench") => bench::run(rest),
        Some("compare") => compare::run(rest),
        Some("--help" | "-h" | "help") => args::print(HELP),
        Some(other) => Err(Failure::Usage(format!("no command {other}; `grade --help` lists them"))),
        None => Err(Failure::Usage(format!("a command is missing\n\n{HELP}"))),
    };
    match done {
        Ok(()) => ExitCode::SUCCESS,
        Err(failure) => {
            eprintln!("grade: {}", failure.message().trim_end());
            ExitCode::from(failure.status())
        }
    }
}
