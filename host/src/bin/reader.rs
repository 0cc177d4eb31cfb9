//! `reader PROFILE|all SEED COUNT`: the proved reader against the oracle's on generated files: the same refusal, scratch zero after each.
//! Prints the first difference with its profile and seed and exits 1; else one line with the counts, the times and their ratio.

use std::process::ExitCode;
use std::time::{Duration, Instant};

use host::reader::Reader;
use host::runs::{ended, through, Failure};
use oracle::gen::{file, Profile};
use oracle::read::read;

fn main() -> ExitCode {
    ended("reader", run())
}

/// What a run measures.
#[derive(Default)]
struct Tally {
    files: u64,
    bytes: u64,
    answers: [u64; 10],
    ours: Duration,
    theirs: Duration,
    longest: (Duration, u64),
}

fn run() -> Result<String, Failure> {
    let mut reader = Reader::default();
    let mut tally = Tally::default();
    through("reader", |profile, seed| one(&mut reader, &mut tally, profile, seed))?;
    Ok(report(&tally))
}

fn one(reader: &mut Reader, tally: &mut Tally, profile: Profile, seed: u64) -> Result<(), String> {
    let bytes = file(profile, seed);
    reader.spoil(seed as u32);
    let start = Instant::now();
    let ours = reader.check(&bytes);
    let middle = Instant::now();
    let theirs = read(&bytes).map(|_| ());
    let end = Instant::now();
    let (ours, theirs) = (ours.err().map_or(0, |r| r.number()), theirs.err().map_or(0, |r| r.0));
    if ours != theirs {
        return Err(format!("ours {ours}, the oracle {theirs}"));
    }
    if !reader.is_clean() {
        return Err("the scratch is not zeros".into());
    }
    tally.files += 1;
    tally.bytes += bytes.len() as u64;
    tally.answers[usize::from(ours)] += 1;
    tally.ours += middle - start;
    tally.theirs += end - middle;
    tally.longest = tally.longest.max((middle - start, seed));
    Ok(())
}

fn report(t: &Tally) -> String {
    let per = |d: Duration| d.as_nanos() as f64 / t.bytes.max(1) as f64;
    format!(
        "{} files equal; sound {}, refused 2 to 6: {:?}; ours {:.2} ns a byte, the oracle {:.2}, ratio {:.1}; longest {:?} (seed {})",
        t.files,
        t.answers[0],
        &t.answers[2..7],
        per(t.ours),
        per(t.theirs),
        per(t.theirs) / per(t.ours).max(1e-9),
        t.longest.0,
        t.longest.1,
    )
}
