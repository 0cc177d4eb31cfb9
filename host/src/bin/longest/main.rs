//! `longest`: which file takes the proved printer longest before 8 is known, beside the dearest listing: among the files of profile `limits`
//! and those of `families.rs`, which are made to be dear. Prints a Markdown row for each of the latter, then both.

mod families;

use std::process::ExitCode;
use std::time::Duration;

use host::entry::Buffers;
use host::runs::{ended, Failure};
use host::turns::{least, millis};
use oracle::gen::{about_limit, file, limits, Profile};
use oracle::list::list;

const TURNS: u32 = 3;

fn main() -> ExitCode {
    ended("longest", run())
}

/// A file and what it costs.
struct Case {
    name: String,
    bytes: usize,
    answer: u32,
    ours: Duration,
    upstream: Duration,
}

fn run() -> Result<String, Failure> {
    let mut buffers = Buffers::default();
    let mut case = |(name, bytes): (String, Vec<u8>)| Case {
        name,
        bytes: bytes.len(),
        answer: buffers.run(&bytes).number,
        ours: least(TURNS, || buffers.run(&bytes)),
        upstream: least(TURNS, || list(&bytes)),
    };
    let made: Vec<Case> = families::all().into_iter().map(|(name, bytes)| case((name.into(), bytes))).collect();
    let limits: Vec<Case> = (0..limits()).map(|s| case((format!("limits {s}, {}", about_limit(s)), file(Profile::Limits, s)))).collect();
    let mut out = String::from("| file | bytes | answer | ours, ms | upstream, ms |\n|---|---|---|---|---|\n");
    made.iter().for_each(|c| out += &row(c));
    out += &format!("\ndearest refused with 8: {}\ndearest listing: {}", dearest(&made, &limits, 8), dearest(&made, &limits, 0));
    Ok(out)
}

fn row(c: &Case) -> String {
    format!("| {} | {} | {} | {:.2} | {:.2} |\n", c.name, c.bytes, c.answer, millis(c.ours), millis(c.upstream))
}

/// The file that took longest of those that were answered so.
fn dearest(made: &[Case], limits: &[Case], answer: u32) -> String {
    let worst = made.iter().chain(limits).filter(|c| c.answer == answer).max_by_key(|c| c.ours);
    worst.map_or("none".into(), |c| format!("{} ({} bytes), ours {:.2} ms, upstream {:.2} ms", c.name, c.bytes, millis(c.ours), millis(c.upstream)))
}
