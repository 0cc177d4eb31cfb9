//! Chooses the list: the samples, the limits, few small files that reach everything between them, and from each
//! profile some more.

use std::collections::{BTreeMap, BTreeSet};
use std::fs;
use std::path::Path;

use super::{bytes, Entry, Source};
use crate::coverage::{parts, reason};
use crate::gen::{about_limit, file, limits, Profile};
use crate::list::list;
use crate::reach;
use crate::read::records;

/// Most bytes of a file that is there to fill the list.
const SMALL: usize = 1_200;
/// Most bytes of a file that is there for what it meets or for its limit.
const LARGE: usize = 9_000;
/// Limits whose files are larger and yet taken: how deep braces may stand, and two counts.
const LARGER: [&str; 8] = [
    "blocks, at the limit",
    "blocks, one past",
    "a statement inside ifs, at the limit",
    "a statement inside ifs, one past",
    "a label inside ifs, one past",
    "loops, the innermost empty, at the limit",
    "loops, the innermost empty, one past",
    "bytes of text written, one past",
];
/// Seeds of a profile that are looked at.
const SEEDS: u64 = 6_000;
/// Files in the whole list.
const COUNT: usize = 300;

/// A file that may be chosen, and what it meets.
struct Candidate {
    source: Source,
    size: usize,
    meets: BTreeSet<String>,
}

/// The list for the samples there are; needs the feature `reach`.
pub fn choose(repository: &Path) -> Result<Vec<Entry>, String> {
    if !cfg!(feature = "reach") {
        return Err("a list is chosen by what files reach: build with --features reach".into());
    }
    let mut choice = Choice { chosen: samples(repository)?, met: BTreeMap::new() };
    choice.chosen.extend(at_limits());
    for e in &choice.chosen {
        meets(&bytes(repository, &e.source)?).into_iter().for_each(|n| *choice.met.entry(n).or_default() += 1);
    }
    let mut left = candidates();
    // Twice but for refusals: what only one file meets, a slip in another place may hide.
    for times in 1..=2 {
        choice.cover(&mut left, times);
    }
    left.retain(|c| c.size <= SMALL);
    choice.fill(&mut left);
    Ok(choice.chosen)
}

fn samples(repository: &Path) -> Result<Vec<Entry>, String> {
    let folder = repository.join("samples");
    let found = fs::read_dir(&folder).map_err(|e| format!("cannot read {}: {e}", folder.display()))?;
    let texts = found.flatten().map(|f| f.path()).filter(|p| p.extension().is_some_and(|e| e == "ssa"));
    let names: BTreeSet<String> = texts.filter_map(|p| p.file_stem()?.to_str().map(String::from)).collect();
    Ok(names.into_iter().map(|n| Entry { what: "a named sample".into(), source: Source::Sample(n) }).collect())
}

/// For each limit and side the smallest file of a few rounds, unless it is a large one. On their allowed side
/// many limits have the same file: it is taken once.
fn at_limits() -> Vec<Entry> {
    let mut out = Vec::new();
    let mut seen = BTreeSet::new();
    for case in 0..limits() {
        let about = about_limit(case);
        let rounds = (0..8).map(|round| case + round * limits());
        let files = rounds.map(|seed| (file(Profile::Limits, seed), seed));
        let Some((smallest, seed)) = files.min_by_key(|(f, _)| f.len()) else { continue };
        if (smallest.len() <= LARGE || LARGER.contains(&about.as_str())) && seen.insert(smallest) {
            out.push(Entry { source: Source::Generated(Profile::Limits, seed), what: about });
        }
    }
    out
}

/// The profiles but `limits`, whose files are chosen by their limit.
fn profiles() -> Vec<Profile> {
    Profile::ALL.into_iter().filter(|p| *p != Profile::Limits).collect()
}

fn candidates() -> Vec<Candidate> {
    let mut out = Vec::new();
    for profile in profiles() {
        for seed in 0..SEEDS {
            let file = file(profile, seed);
            if file.len() <= LARGE {
                let (size, meets) = (file.len(), meets(&file));
                out.push(Candidate { source: Source::Generated(profile, seed), size, meets });
            }
        }
    }
    out
}

/// What a file meets: kinds, marks, tags and condition codes, the branches of upstream's text, and why it is refused.
fn meets(file: &[u8]) -> BTreeSet<String> {
    let before = reach::table();
    let answer = list(file);
    let mut out: BTreeSet<String> =
        reach::table().into_iter().filter(|(name, n)| before.get(name) != Some(n)).map(|(name, _)| name.to_string()).collect();
    match (answer, records(file)) {
        (Ok(_), Ok(r)) => {
            out.extend(parts(&r));
            out.extend(r.statements.iter().map(|s| format!("marks {} on kind {}", s[2], s[3])));
        }
        (Err(refusal), _) => out.extend([reason(file).unwrap_or(refusal.to_string())]),
        _ => {}
    }
    out
}

/// The first few names, and how many more.
fn told(names: &[&String]) -> String {
    let shown: Vec<&str> = names.iter().take(4).map(|n| n.as_str()).collect();
    match names.len().saturating_sub(shown.len()) {
        0 => shown.join(", "),
        more => format!("{} and {more} more", shown.join(", ")),
    }
}

/// What is chosen, and how many of the chosen files meet each thing.
struct Choice {
    chosen: Vec<Entry>,
    met: BTreeMap<String, usize>,
}

impl Choice {
    fn times(&self, name: &str) -> usize {
        self.met.get(name).copied().unwrap_or(0)
    }

    /// Takes candidate `at`; `first` says in which order it is told what it meets.
    fn take(&mut self, left: &mut Vec<Candidate>, at: usize, first: impl Fn(&str) -> usize) {
        let c = left.swap_remove(at);
        let mut names: Vec<&String> = c.meets.iter().collect();
        names.sort_by_key(|n| first(n));
        self.chosen.push(Entry { what: told(&names), source: c.source });
        c.meets.into_iter().for_each(|n| *self.met.entry(n).or_default() += 1);
    }

    /// Takes files until all that any of them meets is met so often: always the one with most of it for its size.
    fn cover(&mut self, left: &mut Vec<Candidate>, times: usize) {
        let all: BTreeSet<String> = left.iter().flat_map(|c| c.meets.iter().cloned()).collect();
        let mut open: BTreeSet<String> = all.into_iter().filter(|n| times == 1 || !n.starts_with("refused")).collect();
        loop {
            open.retain(|n| self.times(n) < times);
            let worth = |c: &Candidate| (c.meets.intersection(&open).count() * 100_000) / (c.size + 300);
            match (0..left.len()).rev().max_by_key(|i| worth(&left[*i])) {
                Some(best) if !open.is_empty() => self.take(left, best, |n| usize::from(!open.contains(n))),
                _ => break,
            }
        }
    }

    /// Fills the list up: each profile in turn gives the file that meets most of what was met seldom.
    fn fill(&mut self, left: &mut Vec<Candidate>) {
        while self.chosen.len() < COUNT {
            let worth = |c: &Candidate| c.meets.iter().map(|n| 100_000 / (1 + self.times(n))).sum::<usize>() / (c.size + 300);
            let profile = profiles()[self.chosen.len() % profiles().len()];
            let of = |i: &usize| matches!(left[*i].source, Source::Generated(p, _) if p == profile);
            let Some(best) = (0..left.len()).filter(of).rev().max_by_key(|i| worth(&left[*i])) else { break };
            let before = self.met.clone();
            self.take(left, best, |n| before.get(n).copied().unwrap_or(0));
        }
    }
}
