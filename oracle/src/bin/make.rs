//! Reads the text form of a function file on standard input and writes the file.

use std::io::{self, ErrorKind, Read, Write};
use std::process::ExitCode;

fn run() -> Result<(), String> {
    let mut bytes = Vec::new();
    io::stdin().lock().read_to_end(&mut bytes).map_err(|e| e.to_string())?;
    let text = String::from_utf8(bytes).map_err(|e| {
        let sound = String::from_utf8_lossy(&e.as_bytes()[..e.utf8_error().valid_up_to()]).into_owned();
        let line = sound.split('\n').count();
        let column = sound.rsplit('\n').next().map_or(0, |l| l.chars().count()) + 1;
        format!("line {line}, column {column}: not UTF-8")
    })?;
    let records = oracle::text::make(&text).map_err(|e| e.to_string())?;
    let mut out = io::stdout().lock();
    match out.write_all(&records.bytes()).and_then(|()| out.flush()) {
        // Nobody reading on is no failure.
        Err(e) if e.kind() != ErrorKind::BrokenPipe => Err(e.to_string()),
        _ => Ok(()),
    }
}

fn main() -> ExitCode {
    match run() {
        Ok(()) => ExitCode::SUCCESS,
        Err(message) => {
            let _ = writeln!(io::stderr(), "make: {message}");
            ExitCode::from(2)
        }
    }
}
