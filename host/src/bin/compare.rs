//! `compare PROFILE|all SEED COUNT`: the proved printer against upstream's on generated files, on all cores: the same refusal, or the same
//! lines, tokens with their kinds, addresses, indents and counts. Every buffer is spoilt before each file; behind a listing are zeros, on a
//! refusal everywhere, and in all scratch always. Stops at the first difference, keeps its file as `difference.bin` and exits 1; else
//! prints one line.

use std::process::ExitCode;
use std::time::Duration;

use host::entry::{Answer, Buffers};
use host::runs::{ended, on_all_cores, Failure};
use host::turns::{timed, Longest};
use host::upstream::{counted, differing};
use oracle::gen::{file, Profile};
use oracle::list::{list, Listing};
use oracle::refusal::Refusal;

fn main() -> ExitCode {
    ended("compare", run())
}

/// A core's buffers and what it measures.
#[derive(Default)]
struct Core {
    buffers: Buffers,
    tally: Tally,
}

#[derive(Default)]
struct Tally {
    /// Files by what was answered, 0 for a listing.
    answers: [u64; 10],
    ours: Duration,
    theirs: Duration,
    longest: Longest,
}

fn run() -> Result<String, Failure> {
    let cores = on_all_cores("compare", one)?;
    Ok(report(cores.into_iter().fold(Tally::default(), |sum, core| sum.with(core.tally))))
}

fn one(core: &mut Core, profile: Profile, seed: u64) -> Result<(), String> {
    let bytes = &file(profile, seed);
    let Core { buffers, tally } = core;
    buffers.spoil(seed);
    let (answer, ours) = timed(|| buffers.run(bytes));
    let (listing, theirs) = timed(|| list(bytes));
    same(buffers, answer, &listing)?;
    tally.answers[answer.number as usize] += 1;
    tally.ours += ours;
    tally.theirs += theirs;
    tally.longest.consider(ours, (profile, seed), bytes, || buffers.run(bytes), || list(bytes));
    Ok(())
}

/// Whether answer and buffers are what upstream's listing asks for.
fn same(buffers: &Buffers, answer: Answer, listing: &Result<Listing, Refusal>) -> Result<(), String> {
    let asked = asked(listing);
    if answer != asked {
        // Which line it is says more than the counts, where both have lines.
        if let (Ok(l), 0) = (listing, answer.number) {
            differing(&buffers.lent.read(answer.lines)?, &l.lines)?;
        }
        return Err(format!("ours {answer:?}, upstream {asked:?}"));
    }
    if !buffers.scratch.is_clean() {
        return Err("the scratch is not zeros".into());
    }
    let Ok(l) = listing else {
        return if buffers.lent.is_clean() { Ok(()) } else { Err("refused, but the lent buffers are not zeros".into()) };
    };
    let lines = buffers.lent.read(answer.lines)?;
    differing(&lines, &l.lines)?;
    if buffers.lent.ends_with(&lines) { Ok(()) } else { Err("no zeros behind the listing".into()) }
}

/// The answer that goes with upstream's listing.
fn asked(listing: &Result<Listing, Refusal>) -> Answer {
    match listing {
        Err(r) => Answer { number: r.0.into(), lines: 0, tokens: 0, bytes: 0, ifs: 0, loops: 0, tests: 0 },
        Ok(l) => counted(l),
    }
}

impl Tally {
    fn with(mut self, other: Tally) -> Tally {
        self.answers.iter_mut().zip(other.answers).for_each(|(a, b)| *a += b);
        self.ours += other.ours;
        self.theirs += other.theirs;
        self.longest = self.longest.max(other.longest);
        self
    }
}

fn report(t: Tally) -> String {
    let refused: Vec<String> = (1..10).filter(|n| t.answers[*n] > 0).map(|n| format!("{} with {n}", t.answers[n])).collect();
    format!(
        "{} files, {} accepted, refused: {}; 0 different; longest {}; in all ours {:.1} s, upstream {:.1} s",
        t.answers.iter().sum::<u64>(),
        t.answers[0],
        if refused.is_empty() { "none".into() } else { refused.join(", ") },
        t.longest,
        t.ours.as_secs_f64(),
        t.theirs.as_secs_f64(),
    )
}
