//! grade lay: the course of a seed.
use crate::args::{print, save, seed, Args, Done, Failure};
use crate::json::number;
use crate::svg::Picture;
use crate::text::yes;
use grader::Course;

const HELP: &str = "\
grade lay SEED [--svg FILE] [--json]: the course of a seed

Prints the tile count, the entries of the index, whether it is the fallback ring, and the first point (beta, x, y), on
which a host puts its car. SEED is 0 to 18446744073709551615.

  --svg FILE   draws the course: tiles, curbs, every 20th tile's number, the start
  --json       one JSON object in place of the text
";

pub fn run(given: Vec<String>) -> Done {
    let args = Args::read(given, &["--svg", "--json"], 1)?;
    if args.help {
        return print(HELP);
    }
    let word = args.words.first().ok_or_else(|| Failure::Usage("lay needs a seed; see grade lay --help".into()))?;
    let seed = seed(word)?;
    let course = Course::lay(seed);
    if let Some(path) = &args.svg {
        let title = format!("seed {seed}: {} tiles", course.n());
        save(path, Picture::of(&course)?.drawn(&title))?;
    }
    print(&if args.json { json(seed, &course) } else { text(seed, &course) })
}

fn text(seed: u64, c: &Course) -> String {
    let p = c.first();
    format!(
        "seed      {seed}\ntiles     {}\nentries   {}\nfallback  {}\nfirst     beta {} x {} y {}\n",
        c.n(),
        c.entries(),
        yes(c.fallback()),
        p.beta,
        p.x,
        p.y
    )
}

fn json(seed: u64, c: &Course) -> String {
    let p = c.first();
    let first = format!("{{\"beta\":{},\"x\":{},\"y\":{}}}", number(p.beta), number(p.x), number(p.y));
    format!("{{\"seed\":{seed},\"n\":{},\"entries\":{},\"fallback\":{},\"first\":{first}}}\n", c.n(), c.entries(), c.fallback())
}
