//! `coverage [COUNT [PROFILE]]`: lists COUNT generated files of each profile and prints, as Markdown, what they met.

use std::io::Write;
use std::process::ExitCode;

use oracle::coverage::{markdown, missing, run, Report};
use oracle::gen::Profile;

const USAGE: &str = "usage: coverage [COUNT [PROFILE]]";
const COUNT: u64 = 2_000;

fn main() -> ExitCode {
    match arguments() {
        Ok((count, profiles)) => cover(count, &profiles),
        Err(message) => {
            // With stderr closed too there is nobody to tell.
            let _ = writeln!(std::io::stderr(), "coverage: {message}");
            ExitCode::from(2)
        }
    }
}

fn arguments() -> Result<(u64, Vec<Profile>), String> {
    let given: Vec<_> = std::env::args_os().skip(1).map(|a| a.to_string_lossy().into_owned()).collect();
    let count = match given.first() {
        Some(text) => text.parse().map_err(|_| format!("COUNT is a whole number, not `{text}`"))?,
        None => COUNT,
    };
    let profiles = match given.get(1) {
        Some(name) => vec![Profile::named(name).ok_or_else(|| format!("no profile `{name}`"))?],
        None => Profile::ALL.to_vec(),
    };
    if given.len() > 2 {
        return Err(USAGE.into());
    }
    Ok((count, profiles))
}

fn cover(count: u64, profiles: &[Profile]) -> ExitCode {
    // A panic is caught and counted; its seed says more than its message.
    std::panic::set_hook(Box::new(|_| {}));
    let reports: Vec<(Profile, Report)> = profiles.iter().map(|p| (*p, run(*p, count))).collect();
    let mut text = format!(
        "# What generated files meet\n\nPrint this again: `cargo run --release --features reach --bin coverage -- {count}` in `oracle/`.\n\n"
    );
    text += &markdown(&reports);
    for name in missing(&reports) {
        text += &format!("\nNever met: `{name}`\n");
    }
    for (profile, report) in &reports {
        for seed in &report.panics {
            text += &format!("\nPanic: `{} {seed}`\n", profile.name());
        }
    }
    let mut out = std::io::stdout().lock();
    let written = out.write_all(text.as_bytes()).and_then(|()| out.flush());
    if written.is_err() || reports.iter().any(|(_, r)| !r.panics.is_empty()) {
        return ExitCode::FAILURE;
    }
    ExitCode::SUCCESS
}
