//! `tables PROFILE|all SEED COUNT`: the proved tables against upstream's on generated files: the same refusal of 2 to 7, and for every value of
//! the file the same offset, root, place and name. All tables are spoilt before each file, and what is not handed out is zeros after it.
//! Prints the first difference with its profile and seed and exits 1; else one line with the counts, the times and the longest file.

use std::process::ExitCode;
use std::time::{Duration, Instant};

use host::runs::{ended, through, Failure};
use host::tables::Tables;
use host::turns::Longest;
use host::values::Values;
use oracle::gen::{file, Profile};
use oracle::list::{tables, Row};
use oracle::read::records;

fn main() -> ExitCode {
    ended("tables", run())
}

/// What a run measures.
#[derive(Default)]
struct Tally {
    files: u64,
    values: u64,
    answers: [u64; 10],
    ours: Duration,
    theirs: Duration,
    longest: Longest,
}

fn run() -> Result<String, Failure> {
    let mut lent = Tables::default();
    let mut tally = Tally::default();
    through("tables", |profile, seed| one(&mut lent, &mut tally, profile, seed))?;
    Ok(report(&tally))
}

fn one(lent: &mut Tables, tally: &mut Tally, profile: Profile, seed: u64) -> Result<(), String> {
    let bytes = file(profile, seed);
    lent.spoil(seed);
    let start = Instant::now();
    let ours = lent.fill(&bytes);
    let middle = Instant::now();
    let theirs = tables(&bytes);
    let end = Instant::now();
    let refusal = theirs.as_ref().err().map_or(0, |r| u32::from(r.0));
    if ours != refusal {
        return Err(format!("ours {ours}, upstream {refusal}"));
    }
    let clean = if ours == 0 { lent.is_handed_out() } else { lent.is_clean() };
    if !clean {
        return Err("a table is left behind".into());
    }
    if let Ok(rows) = theirs {
        compare(lent, &bytes, &rows)?;
        tally.values += rows.len() as u64;
    }
    tally.files += 1;
    tally.answers[ours as usize] += 1;
    tally.ours += middle - start;
    tally.theirs += end - middle;
    tally.longest.consider(middle - start, (profile, seed), &bytes, || lent.fill(&bytes), || tables(&bytes));
    Ok(())
}

fn compare(lent: &Tables, bytes: &[u8], rows: &[Row]) -> Result<(), String> {
    let values = Values::of(&records(bytes).map_err(|r| r.to_string())?);
    if let Some(wrong) = lent.misnumbered(&values) {
        return Err(wrong);
    }
    match rows.iter().find(|row| lent.row(&values, row.value) != **row) {
        Some(row) => Err(format!("ours {:?}, upstream {row:?}", lent.row(&values, row.value))),
        None => Ok(()),
    }
}

fn report(t: &Tally) -> String {
    let per = |d: Duration| d.as_nanos() as f64 / 1e3 / t.files.max(1) as f64;
    format!(
        "{} files equal, {} values; accepted {}, refused 2 to 7: {:?}; ours {:.1} us a file, upstream {:.1}; longest {}",
        t.files,
        t.values,
        t.answers[0],
        &t.answers[2..8],
        per(t.ours),
        per(t.theirs),
        t.longest,
    )
}
