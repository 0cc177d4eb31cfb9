//! `vectors`: writes vectors/files.bin and vectors/answers.txt from vectors/list.txt.
//! `vectors --check`: verifies them. `vectors --choose`: chooses the list anew, then writes.

use std::io::Write;
use std::process::ExitCode;

use oracle::vectors::{check, choose, repository, store, store_list};

const USAGE: &str = "usage: vectors [--check|--choose]";

fn main() -> ExitCode {
    let given: Vec<_> = std::env::args_os().skip(1).map(|a| a.to_string_lossy().into_owned()).collect();
    let home = repository();
    let done = match given.iter().map(String::as_str).collect::<Vec<_>>().as_slice() {
        [] => store(&home),
        ["--check"] => check(&home),
        ["--choose"] => choose(&home).and_then(|entries| store_list(&home, &entries)).and_then(|()| store(&home)),
        _ => return say(USAGE, ExitCode::from(2)),
    };
    match done {
        Ok(()) => ExitCode::SUCCESS,
        Err(message) => say(&message, ExitCode::FAILURE),
    }
}

/// With stderr closed too there is nobody to tell.
fn say(message: &str, code: ExitCode) -> ExitCode {
    let _ = writeln!(std::io::stderr(), "vectors: {message}");
    code
}
