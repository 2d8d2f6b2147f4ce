//! The stored lists that the repository's own programs replay: crates/NAME_vectors/stdin is what a program is given, and
//! crates/NAME_vectors/stdout what it must answer. The answers are the Rust's and, where it has none, document 01's. Nothing
//! here calls the port: a list is wanted before the port is proved, and so before there is a library to link.
//! Run by host/compare/write.
mod blocks;
mod course;
mod lay;
mod number;
mod replay;
mod rng;
mod run;

use std::path::{Path, PathBuf};

/// What is stored for a program: its list, where it reads one, and the lines that it must print.
struct Stored {
    list: Option<Vec<u8>>,
    answers: String,
}

/// What a program may print, in bytes: past it `rt try` gives no answer.
const PRINTED: usize = 1 << 20;

impl Stored {
    /// Of a program that has so much room for its list, in bytes.
    fn new(list: Vec<u8>, room: usize, answers: String) -> Stored {
        assert!(list.len() <= room, "{} bytes do not fit the program's {room}", list.len());
        assert!(answers.len() <= PRINTED, "{} bytes of answers: a program prints {PRINTED}", answers.len());
        Stored { list: Some(list), answers }
    }
}

/// A list: its name, and what makes it. Random values come from fixed seeds, so it comes out the same each time.
#[derive(Clone, Copy)]
pub struct List(&'static str, fn() -> Stored);

const ALL: [List; 6] = [
    List("rng", rng::make),
    List("number", number::make),
    List("course", course::make),
    List("lay", lay::make),
    List("run", run::make),
    List("replay", replay::make),
];

/// The lists of these names, with commas between, or all.
pub fn named(names: &str) -> Result<Vec<List>, String> {
    if names == "all" {
        return Ok(ALL.to_vec());
    }
    let all = ALL.map(|l| l.0).join(", ");
    let find = |name| ALL.into_iter().find(|l| l.0 == name).ok_or_else(|| format!("no list {name:?}: there are {all}"));
    names.split(',').map(find).collect()
}

/// Makes each list and puts it into its program's folder in `to`; says what it has written.
pub fn write(lists: &[List], to: &Path) -> Result<(), String> {
    for List(name, make) in lists {
        let Stored { list, answers } = make();
        let folder = to.join(format!("{name}_vectors"));
        std::fs::create_dir_all(&folder).map_err(|e| format!("cannot make {}: {e}", folder.display()))?;
        if let Some(list) = &list {
            put(folder.join("stdin"), list, format!("{} bytes", list.len()))?;
        }
        put(folder.join("stdout"), answers.as_bytes(), format!("{} lines", answers.lines().count()))?;
    }
    Ok(())
}

fn put(path: PathBuf, bytes: &[u8], many: String) -> Result<(), String> {
    std::fs::write(&path, bytes).map_err(|e| format!("cannot write {}: {e}", path.display()))?;
    eprintln!("{}: {many}", path.display());
    Ok(())
}
