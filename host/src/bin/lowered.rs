//! `lowered PROFILE|all SEED COUNT`: the proved lowering against upstream's on generated files: the same refusal of 2 to 8, or the same lines
//! with their tokens and kinds; zeros behind them and in all tables. Every buffer is spoilt before each file. Prints the first difference
//! with its profile and seed and exits 1; else one line.

use std::process::ExitCode;
use std::time::Duration;

use host::entry::Buffers;
use host::runs::{ended, through, Failure};
use host::turns::{timed, Longest};
use host::upstream::differing;
use oracle::gen::{file, Profile};
use oracle::list::lowered;

fn main() -> ExitCode {
    ended("lowered", run())
}

/// What a run measures.
#[derive(Default)]
struct Tally {
    files: u64,
    lines: u64,
    answers: [u64; 10],
    ours: Duration,
    theirs: Duration,
    longest: Longest,
}

fn run() -> Result<String, Failure> {
    let mut buffers = Buffers::default();
    let mut tally = Tally::default();
    through("lowered", |profile, seed| one(&mut buffers, &mut tally, profile, seed))?;
    Ok(report(&tally))
}

fn one(buffers: &mut Buffers, tally: &mut Tally, profile: Profile, seed: u64) -> Result<(), String> {
    let bytes = file(profile, seed);
    buffers.spoil(seed);
    let scratch = &mut buffers.scratch;
    let (answer, ours) = timed(|| scratch.lower(&bytes));
    let (upstream, theirs) = timed(|| lowered(&bytes));
    let lines = scratch.lowered(answer)?;
    match (&lines, &upstream) {
        (Ok(a), Ok(b)) => differing(a, b)?,
        (Err(a), Err(b)) if a.number() == b.0 => {}
        _ => return Err(format!("ours {:?}, upstream {:?}", lines.map(|l| l.len()), upstream.map(|l| l.len()))),
    }
    tally.files += 1;
    tally.lines += answer.lines as u64;
    tally.answers[answer.number as usize] += 1;
    tally.ours += ours;
    tally.theirs += theirs;
    tally.longest.consider(ours, (profile, seed), &bytes, || scratch.lower(&bytes), || lowered(&bytes));
    Ok(())
}

fn report(t: &Tally) -> String {
    let per = |d: Duration| d.as_nanos() as f64 / 1e3 / t.files.max(1) as f64;
    format!(
        "{} files equal, {} lines; accepted {}, refused 2 to 8: {:?}; ours {:.1} us a file, upstream {:.1}; longest {}",
        t.files,
        t.lines,
        t.answers[0],
        &t.answers[2..9],
        per(t.ours),
        per(t.theirs),
        t.longest,
    )
}
