//! Compares the port with the Rust, bit for bit (all NaNs alike): courses, index, curbs, numbers, starts, drives, settles, sheets,
//! rewards. What the Rust has no counterpart for, the refusals, is held to document 01 as written out in model.rs and courses.rs, and the
//! saved form to document 02 as in saved.rs. The reference has seeds of 32 bits: how wide seeds are compared stands in seeds.rs.
//! Run by host/compare/run, which builds the oracle and the port's static library first.
//!
//! It also writes the lists that the repository's own programs replay (lists.rs). For these host/compare/write builds it without the
//! port, by `--cfg lists_alone`: what calls the port is then never called, and nothing of its library is linked.
#![cfg_attr(lists_alone, allow(dead_code))]
mod both;
mod car;
mod checkpoints;
mod courses;
mod edges;
mod lent;
mod lists;
mod model;
mod numbers;
mod points;
mod port;
mod runs;
mod saved;
mod sections;
mod seeds;
mod sets;
mod spoilt;
mod tally;

use lists::List;
use std::path::PathBuf;

const HELP: &str = "usage: host/compare/run [--seed S] [--courses N] [--ticks N] [--only SECTION:NUMBER]
       host/compare/run --write NAME,.. [--to DIR]
  --seed S        random inputs from this seed (default 1)
  --courses N     courses of seeds, every second one of 2^32 or more; a fourth as many of given points, of few attempts and of given
                  checkpoints, and the checkpoints that a search has found (default 4000)
  --ticks N       ticks of runs (default 400000): a tick is one drive and one settle; more than nine in ten of each are accepted, and
                  further calls that are refused, starts and sheets stand among them
  --only S:N      unit N of section S alone: numbers, seeds, points, attempts, checkpoints, runs, beside
  --write NAME,.. compares nothing, but writes the lists of these names that the repository's programs replay, and the answers that
                  they must give: rng, number, course, lay, run, replay, or all (host/compare/write does this without the port)
  --to DIR        writes them to DIR/NAME_vectors/stdin and stdout (default crates, in the repository)
Exit status 0 where port and Rust agree everywhere or the lists are written, 1 where port and Rust differ, 2 for a wrong argument or a
list that cannot be written, 77 where it is skipped for want of the reference or of rustc.";

struct Settings {
    seed: u64,
    courses: u64,
    ticks: u64,
    only: Option<(String, u64)>,
    write: Option<Vec<List>>,
    to: PathBuf,
}

fn wrong(text: &str) -> ! {
    eprintln!("compare: {text}\n{HELP}");
    std::process::exit(2)
}

fn settings() -> Settings {
    let mut s = Settings { seed: 1, courses: 4_000, ticks: 400_000, only: None, write: None, to: "crates".into() };
    let mut given = Vec::new();
    let mut args = std::env::args().skip(1);
    while let Some(flag) = args.next() {
        if flag == "--help" || flag == "-h" {
            println!("{HELP}");
            std::process::exit(0);
        }
        let value = args.next().unwrap_or_else(|| wrong(&format!("{flag} needs a value")));
        let number = |v: &str| v.parse::<u64>().unwrap_or_else(|_| wrong(&format!("{flag} wants a whole number, not {v:?}")));
        match flag.as_str() {
            "--seed" => s.seed = number(&value),
            "--courses" => s.courses = number(&value),
            "--ticks" => s.ticks = number(&value),
            "--only" => match value.split_once(':') {
                Some((section, at)) => s.only = Some((section.to_string(), number(at))),
                None => wrong("--only wants SECTION:NUMBER"),
            },
            "--write" => s.write = Some(lists::named(&value).unwrap_or_else(|text| wrong(&text))),
            "--to" => s.to = value.into(),
            _ => wrong(&format!("no flag {flag:?}")),
        }
        given.push(flag);
    }
    check(&s, &given);
    s
}

/// The flags of a comparison and those of lists do not mix; and there must be a folder to write to.
fn check(s: &Settings, flags: &[String]) {
    let writing = s.write.is_some();
    match flags.iter().find(|&flag| (flag == "--write" || flag == "--to") != writing) {
        Some(flag) if writing => wrong(&format!("{flag} does not go with --write")),
        Some(_) => wrong("--to goes with --write"),
        None if writing && !s.to.is_dir() => wrong(&format!("no folder {:?} to write to", s.to)),
        None => {}
    }
}

fn main() {
    let s = settings();
    if let Some(lists) = &s.write {
        if let Err(text) = lists::write(lists, &s.to) {
            eprintln!("compare: {text}");
            std::process::exit(2);
        }
        return;
    }
    #[cfg(lists_alone)]
    wrong("this build is without the port: it only writes lists (--write), and host/compare/run compares");
    #[cfg(not(lists_alone))]
    std::process::exit(if sections::compare(&s) { 0 } else { 1 });
}
