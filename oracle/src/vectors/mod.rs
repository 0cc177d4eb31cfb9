//! The stored vectors: a list of files, the files themselves and what the oracle answers to each.

mod choose;

use std::fs;
use std::path::{Path, PathBuf};

use crate::gen::{file, Profile};
use crate::list::{answer, Mode};
use crate::text::make;

pub use choose::choose;

/// One line of the list: where the file comes from and what it is there for.
#[derive(Debug, Clone, PartialEq, Eq)]
pub struct Entry {
    pub source: Source,
    pub what: String,
}

#[derive(Debug, Clone, PartialEq, Eq)]
pub enum Source {
    Generated(Profile, u64),
    /// A text in `samples/`, by its name without the ending.
    Sample(String),
}

/// The repository: the directory above this crate.
pub fn repository() -> PathBuf {
    Path::new(env!("CARGO_MANIFEST_DIR")).join("..")
}

fn read(path: &Path) -> Result<Vec<u8>, String> {
    fs::read(path).map_err(|e| format!("cannot read {}: {e}", path.display()))
}

fn read_text(path: &Path) -> Result<String, String> {
    String::from_utf8(read(path)?).map_err(|_| format!("{} is not text", path.display()))
}

fn write(path: &Path, bytes: &[u8]) -> Result<(), String> {
    fs::write(path, bytes).map_err(|e| format!("cannot write {}: {e}", path.display()))
}

/// A line `NUMBER PROFILE SEED WHAT` or `NUMBER sample NAME WHAT`; the numbers count from 0.
fn entry(number: usize, line: &str) -> Result<Entry, String> {
    let wrong = |what: &str| format!("list.txt, file {number}: {what} in `{line}`");
    let mut words = line.splitn(4, ' ');
    let mut word = || words.next().unwrap_or("");
    let (count, family, which, what) = (word(), word(), word(), word());
    if count.parse() != Ok(number) {
        return Err(wrong("another number"));
    }
    let source = match Profile::named(family) {
        _ if family == "sample" => Source::Sample(which.into()),
        Some(profile) => Source::Generated(profile, which.parse().map_err(|_| wrong("no seed"))?),
        None => return Err(wrong("no profile")),
    };
    Ok(Entry { source, what: what.into() })
}

fn line(number: usize, e: &Entry) -> String {
    match &e.source {
        Source::Generated(profile, seed) => format!("{number} {} {seed} {}\n", profile.name(), e.what),
        Source::Sample(name) => format!("{number} sample {name} {}\n", e.what),
    }
}

/// The list as stored.
pub fn list(repository: &Path) -> Result<Vec<Entry>, String> {
    let text = read_text(&repository.join("vectors/list.txt"))?;
    text.lines().enumerate().map(|(number, l)| entry(number, l)).collect()
}

/// Stores a list.
pub fn store_list(repository: &Path, entries: &[Entry]) -> Result<(), String> {
    let text: String = entries.iter().enumerate().map(|(number, e)| line(number, e)).collect();
    write(&repository.join("vectors/list.txt"), text.as_bytes())
}

/// The file of an entry.
pub fn bytes(repository: &Path, source: &Source) -> Result<Vec<u8>, String> {
    match source {
        Source::Generated(profile, seed) => Ok(file(*profile, *seed)),
        Source::Sample(name) => {
            let path = repository.join("samples").join(name).with_extension("ssa");
            let records = make(&read_text(&path)?).map_err(|e| format!("{}: {e}", path.display()))?;
            Ok(records.bytes())
        }
    }
}

/// A batch: the number of files, the length of each, a word each, then the files one after another.
fn batch(files: &[Vec<u8>]) -> Vec<u8> {
    let lengths = files.iter().map(Vec::len);
    let words = std::iter::once(files.len()).chain(lengths);
    let mut out: Vec<u8> = words.flat_map(|n| (n as u32).to_le_bytes()).collect();
    out.extend(files.iter().flatten());
    out
}

/// What `files.bin` and `answers.txt` have to hold for the list as stored.
fn contents(repository: &Path) -> Result<[(&'static str, Vec<u8>); 2], String> {
    let entries = list(repository)?;
    let files = entries.iter().map(|e| bytes(repository, &e.source)).collect::<Result<Vec<_>, String>>()?;
    let answers: String = files.iter().enumerate().map(|(n, f)| format!("file {n}\n{}", answer(f, Mode::Listing))).collect();
    Ok([("files.bin", batch(&files)), ("answers.txt", answers.into_bytes())])
}

/// Writes the files and the answers of the list.
pub fn store(repository: &Path) -> Result<(), String> {
    for (name, bytes) in contents(repository)? {
        write(&repository.join("vectors").join(name), &bytes)?;
    }
    Ok(())
}

/// Whether the stored files are what the generator makes, and the stored answers what the oracle answers.
pub fn check(repository: &Path) -> Result<(), String> {
    for (name, bytes) in contents(repository)? {
        let stored = read(&repository.join("vectors").join(name))?;
        if stored != bytes {
            let at = stored.iter().zip(&bytes).take_while(|(a, b)| a == b).count();
            return Err(format!("vectors/{name} differs from byte {at} on"));
        }
    }
    Ok(())
}
