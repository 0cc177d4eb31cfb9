//! `bench PROFILE|all SEED COUNT`: the proved printer's time beside upstream's on generated files, in one process, as Markdown: by profile, and by
//! the size of the file. Each time is the least of some turns. Ours: on buffers that are zeros, and with the clearing of spoilt ones
//! inside the time. Upstream's: with the oracle's reader, and from the function on (over the files that have one).

use std::process::ExitCode;
use std::time::Duration;

use host::entry::Buffers;
use host::runs::{ended, through, Failure};
use host::turns::{least, timed};
use oracle::gen::{file, Profile};
use oracle::list::{list, list_function};
use oracle::read::read;

const TURNS: u32 = 3;

/// Files of under so many bytes go together.
const SIZES: [(usize, &str); 4] = [(1 << 10, "under 1 KB"), (1 << 12, "1 to 4 KB"), (1 << 14, "4 to 16 KB"), (usize::MAX, "over 16 KB")];

fn main() -> ExitCode {
    ended("bench", run())
}

/// What some files cost.
#[derive(Default, Clone, Copy)]
struct Cost {
    files: u32,
    accepted: u32,
    functions: u32,
    bytes: usize,
    clear: Duration,
    spoilt: Duration,
    upstream: Duration,
    from_function: Duration,
}

fn run() -> Result<String, Failure> {
    let mut buffers = Buffers::default();
    let mut by_profile = [Cost::default(); Profile::ALL.len()];
    let mut by_size = [Cost::default(); SIZES.len()];
    through("bench", |profile, seed| {
        let bytes = file(profile, seed);
        let size = SIZES.iter().position(|(under, _)| bytes.len() < *under).unwrap_or(0);
        let cost = measured(&mut buffers, &bytes);
        by_profile[profile as usize].add(cost);
        by_size[size].add(cost);
        Ok(())
    })?;
    let profiles = Profile::ALL.iter().map(|p| p.name()).zip(by_profile);
    let sizes = SIZES.iter().map(|(_, name)| *name).zip(by_size);
    Ok(table(profiles.chain(sizes)))
}

fn measured(buffers: &mut Buffers, bytes: &[u8]) -> Cost {
    let function = read(bytes).ok();
    Cost {
        files: 1,
        accepted: list(bytes).is_ok().into(),
        functions: function.is_some().into(),
        bytes: bytes.len(),
        clear: ours(buffers, bytes, false),
        spoilt: ours(buffers, bytes, true),
        upstream: least(TURNS, || list(bytes)),
        from_function: function.map_or(Duration::ZERO, |f| least(TURNS, || list_function(&f))),
    }
}

/// Our time: the buffers are cleared before it, or spoilt before it and cleared inside it.
fn ours(buffers: &mut Buffers, bytes: &[u8], inside: bool) -> Duration {
    let turn = |seed| {
        if inside {
            buffers.spoil(seed);
            return timed(|| (buffers.clear(), buffers.run(bytes))).1;
        }
        buffers.clear();
        timed(|| buffers.run(bytes)).1
    };
    (1..=u64::from(TURNS)).map(turn).min().unwrap_or_default()
}

impl Cost {
    fn add(&mut self, c: Cost) {
        self.files += c.files;
        self.accepted += c.accepted;
        self.functions += c.functions;
        self.bytes += c.bytes;
        self.clear += c.clear;
        self.spoilt += c.spoilt;
        self.upstream += c.upstream;
        self.from_function += c.from_function;
    }
}

/// A row for each group that has files; times in microseconds a file, ratios upstream's time with its reader over ours.
fn table<'a>(groups: impl Iterator<Item = (&'a str, Cost)>) -> String {
    let mut out = String::from(
        "| files | number | accepted | bytes a file | ours, us | with clearing, us | upstream, us | from the function on, us | ratio | with clearing |\n\
         |---|---|---|---|---|---|---|---|---|---|",
    );
    for (name, c) in groups.filter(|(_, c)| c.files > 0) {
        let per = |d: Duration, files: u32| d.as_secs_f64() * 1e6 / f64::from(files.max(1));
        let ratio = |d: Duration| c.upstream.as_secs_f64() / d.as_secs_f64().max(1e-9);
        let (clear, spoilt, upstream) = (per(c.clear, c.files), per(c.spoilt, c.files), per(c.upstream, c.files));
        out += &format!(
            "\n| {name} | {} | {} | {} | {clear:.1} | {spoilt:.1} | {upstream:.1} | {:.1} | {:.2} | {:.2} |",
            c.files,
            c.accepted,
            c.bytes / c.files as usize,
            per(c.from_function, c.functions),
            ratio(c.clear),
            ratio(c.spoilt),
        );
    }
    out
}
