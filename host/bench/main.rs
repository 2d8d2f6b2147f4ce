//! The port beside the Rust: medians of many rounds, by turns in one run, and the median of the rounds' ratios. The port is called through
//! its C functions, as a host calls it, drive and settle on a run that stays where it stands; so is the Rust, but for its own `step`,
//! which clones. Buffers and states are warm: each round meets what the round before left in the cache.
//! Run by host/bench/run, which builds the oracle and the port's static library first.
mod beside;
mod clock;
mod growth;
mod inputs;
mod keeping;
#[path = "../compare/lent.rs"]
mod lent;
#[path = "../compare/port.rs"]
mod port;

use clock::Rounds;

const HELP: &str = "usage: host/bench/run [--rounds N] [--only TABLE]
  --rounds N      rounds of each row (default 41)
  --only TABLE    one table alone: numbers, course, drive, run, keeping, growth
Exit status 0, 2 for a wrong argument, 77 where it is skipped for want of the reference or of rustc. A row whose two sides answer
differently ends the program.";

fn wrong(text: &str) -> ! {
    eprintln!("bench: {text}\n{HELP}");
    std::process::exit(2)
}

fn main() {
    let (mut rounds, mut only) = (41, None);
    let mut args = std::env::args().skip(1);
    while let Some(flag) = args.next() {
        let value = args.next().unwrap_or_else(|| wrong(&format!("{flag} needs a value")));
        match flag.as_str() {
            "--rounds" => rounds = value.parse().ok().filter(|&n| n > 0).unwrap_or_else(|| wrong("--rounds wants a whole number above 0")),
            "--only" => only = Some(value),
            _ => wrong(&format!("no flag {flag:?}")),
        }
    }
    let tables: [(&str, fn(Rounds)); 6] = [
        ("numbers", beside::numbers),
        ("course", beside::courses),
        ("drive", beside::drives),
        ("run", beside::runs),
        ("keeping", keeping::table),
        ("growth", growth::tables),
    ];
    if let Some(name) = &only {
        if tables.iter().all(|t| t.0 != name) {
            wrong(&format!("no table {name:?}"));
        }
    }
    for (name, table) in tables {
        if only.as_deref().is_none_or(|o| o == name) {
            table(Rounds(rounds));
        }
    }
}
