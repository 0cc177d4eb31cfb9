//! `structure PROFILE|all SEED COUNT`: the proved passes against upstream's on the lines that upstream lowers: the same lines, tokens,
//! addresses, indents and counts, or 9; zeros behind them. Prints the first difference with its profile and seed and exits 1; else one
//! line with the counts, the times and their ratio, and the file that took upstream's passes longest.

use std::process::ExitCode;
use std::time::{Duration, Instant};

use host::passes::Passes;
use host::runs::{ended, through, Failure};
use host::upstream::{counted, differing};
use oracle::gen::{file, Profile};
use oracle::list::{lowered, Listing};
use oracle::upstream::ssa::c::structure;

fn main() -> ExitCode {
    ended("structure", run())
}

/// What a run measures.
#[derive(Default)]
struct Tally {
    files: u64,
    deep: u64,
    passed_over: u64,
    regions: u64,
    ours: Duration,
    theirs: Duration,
    /// The file that upstream's passes took longest for: both times, profile and seed.
    worst: (Duration, Duration, &'static str, u64),
}

fn run() -> Result<String, Failure> {
    let mut passes = Passes::default();
    let mut tally = Tally::default();
    through("structure", |profile, seed| one(&mut passes, &mut tally, profile, seed))?;
    Ok(report(&tally))
}

fn one(passes: &mut Passes, tally: &mut Tally, profile: Profile, seed: u64) -> Result<(), String> {
    let Ok(low) = lowered(&file(profile, seed)) else {
        tally.passed_over += 1;
        return Ok(());
    };
    if !passes.lay(&low) {
        return Err("no room for the lowered lines".into());
    }
    let start = Instant::now();
    let ours = passes.run();
    let middle = Instant::now();
    let theirs = structure(low);
    let end = Instant::now();
    let listing = theirs.map(|(lines, ifs, loops)| Listing { lines, ifs, loops });
    match (&ours, &listing) {
        (Err(a), Err(b)) if a.number() == b.0 => tally.deep += 1,
        (Ok(counts), Ok(l)) => {
            if *counts != counted(l) {
                return Err(format!("ours {counts:?}, upstream {:?}", counted(l)));
            }
            differing(&passes.finished(*counts)?, &l.lines)?;
            tally.regions += (l.ifs + l.loops) as u64;
        }
        _ => return Err(format!("ours {ours:?}, upstream {:?}", listing.map(|l| counted(&l)))),
    }
    if !passes.is_clean(ours.is_err()) {
        return Err("the scratch is not zeros".into());
    }
    tally.files += 1;
    tally.ours += middle - start;
    tally.theirs += end - middle;
    tally.worst = tally.worst.max((end - middle, middle - start, profile.name(), seed));
    Ok(())
}

fn report(t: &Tally) -> String {
    format!(
        "{} lowered files equal, {} of them refused with 9, {} regions; {} files not lowered; ours {:?}, upstream {:?}, ratio {:.1}; \
         longest for upstream: {:?}, ours {:?} ({} {})",
        t.files,
        t.deep,
        t.regions,
        t.passed_over,
        t.ours,
        t.theirs,
        t.theirs.as_secs_f64() / t.ours.as_secs_f64().max(1e-9),
        t.worst.0,
        t.worst.1,
        t.worst.2,
        t.worst.3,
    )
}
