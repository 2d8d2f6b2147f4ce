//! Arguments of a command, and how a command fails.
use std::io::Write;
use std::path::{Path, PathBuf};

/// Why a command failed: by its arguments, by what it found, or because what it needs is not at hand.
#[derive(Debug)]
pub enum Failure {
    Usage(String),
    Work(String),
    Skipped(String),
}

impl Failure {
    pub fn message(&self) -> &str {
        let (Failure::Usage(m) | Failure::Work(m) | Failure::Skipped(m)) = self;
        m
    }
    pub fn status(&self) -> u8 {
        match self {
            Failure::Usage(_) => 2,
            Failure::Work(_) => 1,
            Failure::Skipped(_) => 77,
        }
    }
}

pub type Done = Result<(), Failure>;

/// What stands after a command's name.
#[derive(Debug, Default)]
pub struct Args {
    pub words: Vec<String>,
    pub svg: Option<PathBuf>,
    pub out: Option<PathBuf>,
    pub json: bool,
    pub help: bool,
}

impl Args {
    /// Takes the options that `known` names, and at most `most` other words.
    pub fn read(given: Vec<String>, known: &[&str], most: usize) -> Result<Args, Failure> {
        let mut args = Args::default();
        let mut given = given.into_iter();
        while let Some(word) = given.next() {
            match word.as_str() {
                "--help" | "-h" => args.help = true,
                option if is_option(option) && !known.contains(&option) => {
                    return Err(Failure::Usage(format!("no option {option} here; see --help")))
                }
                "--json" => args.json = true,
                "--svg" => args.svg = Some(value(&word, given.next())?),
                "--out" => args.out = Some(value(&word, given.next())?),
                _ => args.words.push(word),
            }
        }
        if args.words.len() > most {
            return Err(Failure::Usage(format!("one word too many: {}", args.words[most])));
        }
        Ok(args)
    }
}

/// A number with a minus sign is none: a seed of -1 is to be answered by what a seed is.
fn is_option(word: &str) -> bool {
    word.strip_prefix('-').is_some_and(|rest| !rest.starts_with(|c: char| c.is_ascii_digit()))
}

fn value(option: &str, next: Option<String>) -> Result<PathBuf, Failure> {
    next.map(PathBuf::from).ok_or_else(|| Failure::Usage(format!("{option} needs a name after it")))
}

/// A seed: a whole number of 64 bits.
pub fn seed(word: &str) -> Result<u64, Failure> {
    word.parse().map_err(|_| Failure::Usage(format!("a seed is a whole number from 0 to {}, not {word}", u64::MAX)))
}

/// What a file's text says by `reader`, whose errors have the line and what was expected there.
pub fn read<T>(name: &str, reader: impl Fn(&str) -> Result<T, (usize, String)>) -> Result<T, Failure> {
    let said = std::fs::read_to_string(name).map_err(|e| unreadable(name, &e))?;
    reader(&said).map_err(|(line, what)| Failure::Work(format!("{name}:{line}: {what}")))
}

pub fn unreadable(name: &str, e: &std::io::Error) -> Failure {
    Failure::Work(format!("cannot read {name}: {e}"))
}

pub fn save(path: &Path, what: impl AsRef<[u8]>) -> Done {
    std::fs::write(path, what).map_err(|e| Failure::Work(format!("cannot write {}: {e}", path.display())))
}

/// Prints to the standard output. A reader that has gone (`| head`) is no failure.
pub fn print(text: &str) -> Done {
    let mut out = std::io::stdout().lock();
    match out.write_all(text.as_bytes()).and_then(|()| out.flush()) {
        Err(e) if e.kind() != std::io::ErrorKind::BrokenPipe => Err(Failure::Work(format!("cannot print: {e}"))),
        _ => Ok(()),
    }
}
