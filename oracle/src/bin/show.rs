//! Reads a function file on standard input and prints its text form.

use std::io::{self, ErrorKind, Read, Write};
use std::process::ExitCode;

fn run() -> io::Result<()> {
    let mut file = Vec::new();
    io::stdin().lock().read_to_end(&mut file)?;
    let mut out = io::stdout().lock();
    out.write_all(oracle::text::show(&file).as_bytes())?;
    out.flush()
}

fn main() -> ExitCode {
    match run() {
        // Nobody reading on is no failure.
        Err(e) if e.kind() != ErrorKind::BrokenPipe => {
            let _ = writeln!(io::stderr(), "show: {e}");
            ExitCode::from(2)
        }
        _ => ExitCode::SUCCESS,
    }
}
