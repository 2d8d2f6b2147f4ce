//! grade compare: port and Rust side by side, by host/compare/run of the repository that this command was built in.
use crate::args::{Done, Failure};
use std::path::Path;
use std::process::Command;

pub fn run(given: Vec<String>) -> Done {
    let script = Path::new(env!("CARGO_MANIFEST_DIR")).join("../compare/run");
    let status = Command::new(&script).args(given).status();
    match status {
        Ok(s) if s.success() => Ok(()),
        Ok(s) if s.code() == Some(2) => Err(Failure::Usage("see grade compare --help".into())),
        Ok(s) if s.code() == Some(77) => Err(Failure::Skipped("nothing was compared; see above".into())),
        Ok(_) => Err(Failure::Work("port and Rust differ, or could not be built; see above".into())),
        Err(e) => Err(Failure::Work(format!("cannot run {}: {e}", script.display()))),
    }
}
