//! `list PATH`: prints the listing of a function file; a refusal, and what to look at, with exit code 1.

use std::process::ExitCode;

fn main() -> ExitCode {
    let Some(path) = std::env::args_os().nth(1) else {
        eprintln!("usage: list PATH");
        return ExitCode::from(2);
    };
    let file = match std::fs::read(&path) {
        Ok(file) => file,
        Err(e) => {
            eprintln!("list: {}: {e}", path.to_string_lossy());
            return ExitCode::from(2);
        }
    };
    match host::list(&file) {
        Ok(listing) => {
            print!("{listing}");
            ExitCode::SUCCESS
        }
        Err(refusal) => {
            println!("{refusal}");
            eprintln!("list: {}", refusal.about());
            ExitCode::FAILURE
        }
    }
}
