//! `generate PROFILE SEED [COUNT]`: the function file of a profile and seed, or a batch of COUNT files from SEED on:
//! their number and lengths, a little-endian word each, then the files one after another.

use std::io::{self, BufWriter, Write};
use std::process::ExitCode;

use oracle::gen::{file, Profile};

fn main() -> ExitCode {
    match run() {
        Ok(()) => ExitCode::SUCCESS,
        Err(message) => {
            // With stderr closed too there is nobody to tell.
            let _ = writeln!(io::stderr(), "generate: {message}");
            ExitCode::from(2)
        }
    }
}

fn run() -> Result<(), String> {
    let given: Vec<_> = std::env::args_os().skip(1).map(|a| a.to_string_lossy().into_owned()).collect();
    let mut out = BufWriter::new(io::stdout().lock());
    let written = match given.as_slice() {
        [profile, seed] => out.write_all(&file(profile_of(profile)?, number("SEED", seed)?)),
        [profile, seed, count] => write_batch(&mut out, profile_of(profile)?, number("SEED", seed)?, number("COUNT", count)?),
        _ => return Err(format!("usage: generate PROFILE SEED [COUNT]; profiles: {}", names())),
    };
    written.and_then(|()| out.flush()).map_err(|e| format!("cannot write standard output: {e}"))
}

/// Makes each file twice, for its length and for itself: together they may be more than memory holds.
fn write_batch(out: &mut impl Write, profile: Profile, seed: u64, count: u32) -> io::Result<()> {
    let files = || (0..u64::from(count)).map(|k| file(profile, seed.wrapping_add(k)));
    out.write_all(&count.to_le_bytes())?;
    for f in files() {
        out.write_all(&(f.len() as u32).to_le_bytes())?;
    }
    for f in files() {
        out.write_all(&f)?;
    }
    Ok(())
}

fn profile_of(name: &str) -> Result<Profile, String> {
    Profile::named(name).ok_or_else(|| format!("no profile `{name}`; there are {}", names()))
}

fn number<T: std::str::FromStr>(what: &str, text: &str) -> Result<T, String> {
    text.parse().map_err(|_| format!("{what} is a whole number, not `{text}`"))
}

fn names() -> String {
    Profile::ALL.map(Profile::name).join(", ")
}
