//! `oracle [--tokens|--lowered|--tables] < FILE`: what upstream prints for a function file, or `refused N`.

use std::io::{Read, Write};
use std::process::ExitCode;

use oracle::list::{answer, Mode};
use oracle::records::FILE_MOST;

const USAGE: &str = "usage: oracle [--tokens|--lowered|--tables] < FILE";

fn main() -> ExitCode {
    match run() {
        Ok(()) => ExitCode::SUCCESS,
        Err(message) => {
            // With stderr closed too there is nobody to tell.
            let _ = writeln!(std::io::stderr(), "oracle: {message}");
            ExitCode::from(2)
        }
    }
}

fn run() -> Result<(), String> {
    let options: Vec<_> = std::env::args_os().skip(1).collect();
    let mode = match options.iter().map(|o| o.to_str()).collect::<Vec<_>>().as_slice() {
        [] => Mode::Listing,
        [Some("--tokens")] => Mode::Tokens,
        [Some("--lowered")] => Mode::Lowered,
        [Some("--tables")] => Mode::Tables,
        _ => return Err(USAGE.to_string()),
    };
    // One byte over the limit tells a file that is too long.
    let mut file = Vec::new();
    std::io::stdin().lock().take(FILE_MOST as u64 + 1).read_to_end(&mut file).map_err(|e| format!("cannot read standard input: {e}"))?;
    let text = answer(&file, mode);
    let mut out = std::io::stdout().lock();
    out.write_all(text.as_bytes()).and_then(|()| out.flush()).map_err(|e| format!("cannot write standard output: {e}"))
}
