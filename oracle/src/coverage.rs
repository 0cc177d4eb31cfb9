//! What a run of generated files meets: answers, kinds, tags, condition codes, branches of upstream's text.

use std::collections::{BTreeMap, BTreeSet};
use std::fmt::Write;
use std::panic::{catch_unwind, AssertUnwindSafe};
use std::time::{Duration, Instant};

use crate::gen::{file, Profile, CONDITIONS};
use crate::list::list;
use crate::reach;
use crate::read::records;
use crate::records::{kind, Records};
use crate::text::damage;

/// Names of the kinds and tags, by number from 1.
const KINDS: [&str; 7] = ["Assign", "Store", "Call", "Branch", "Flags", "Return", "Other"];
const TAGS: [&str; 6] = ["Const", "Use", "Bin", "Un", "Load", "Opaque"];

/// Branches of upstream's text that no valid file reaches, each with the reason.
pub const NEVER: [(&str, &str); 2] = [
    (
        "place.class",
        "an Assign's value is in a phi's class only as the phi's own value, which check 6 forbids, or as an input, \
         and values that are inputs are passed over before",
    ),
    ("lower.assign.unnamed", "naming gives a name to what every live Assign defines, but for rsp and values in place, and both are silent"),
];

/// What the files of one profile met.
#[derive(Default)]
pub struct Report {
    /// How many files were accepted (0) or refused with the number.
    pub answers: BTreeMap<u8, u64>,
    /// Kinds, tags and condition codes of the accepted files.
    pub parts: BTreeMap<String, u64>,
    /// Why files were refused with 2 to 6.
    pub reasons: BTreeMap<String, u64>,
    pub reached: BTreeMap<&'static str, u64>,
    /// The longest time one file took, and its seed.
    pub longest: (Duration, u64),
    /// Seeds whose file was not made or not listed without a panic.
    pub panics: Vec<u64>,
}

impl Report {
    fn meet(&mut self, profile: Profile, seed: u64) {
        if catch_unwind(AssertUnwindSafe(|| self.list(profile, seed))).is_err() {
            self.panics.push(seed);
        }
    }

    fn list(&mut self, profile: Profile, seed: u64) {
        let file = file(profile, seed);
        let begun = Instant::now();
        let answer = list(&file);
        let time = begun.elapsed();
        let found = match (&answer, records(&file)) {
            (Ok(_), Ok(records)) => parts(&records),
            _ => reason(&file).into_iter().collect(),
        };
        self.longest = self.longest.max((time, seed));
        *self.answers.entry(answer.as_ref().map_or_else(|r| r.0, |_| 0)).or_default() += 1;
        let counts = if answer.is_ok() { &mut self.parts } else { &mut self.reasons };
        found.into_iter().for_each(|name| *counts.entry(name).or_default() += 1);
    }

    fn absorb(&mut self, other: Report) {
        for (answer, n) in other.answers {
            *self.answers.entry(answer).or_default() += n;
        }
        for (part, n) in other.parts {
            *self.parts.entry(part).or_default() += n;
        }
        for (reason, n) in other.reasons {
            *self.reasons.entry(reason).or_default() += n;
        }
        for (name, n) in other.reached {
            *self.reached.entry(name).or_default() += n;
        }
        self.longest = self.longest.max(other.longest);
        self.panics.extend(other.panics);
    }
}

/// The kinds, tags and condition codes of a sound file's records, each as often as it stands there.
pub fn parts(r: &Records) -> Vec<String> {
    let mut out: Vec<String> = r.expressions.iter().map(|e| tag_part(TAGS[e[0] as usize - 1])).collect();
    for s in &r.statements {
        out.push(kind_part(KINDS[s[3] as usize - 1]));
        if let [_, _, _, kind::BRANCH, 1, start, length, ..] = *s {
            let (start, length) = (start as usize, length as usize);
            let code = String::from_utf8_lossy(&r.text[start..start + length]);
            out.push(code_part(if CONDITIONS.contains(&&*code) { &code } else { "other" }));
        }
    }
    out
}

/// Why a file is refused with 2 to 6, in words without the numbers that differ from file to file.
pub fn reason(file: &[u8]) -> Option<String> {
    let first = damage(file).into_iter().next()?;
    let text = format!("{}: {}", first.place, first.what);
    let words: Vec<String> = text.split(' ').map(without_number).collect();
    Some(format!("refused {} {}", first.refusal, words.join(" ")))
}

/// A word, or `N` for one with digits, and the sign behind it.
fn without_number(word: &str) -> String {
    if !word.contains(|c: char| c.is_ascii_digit()) {
        return word.into();
    }
    let sign = word.chars().last().filter(char::is_ascii_punctuation);
    std::iter::once('N').chain(sign).collect()
}

fn kind_part(name: &str) -> String {
    format!("kind {name}")
}

fn tag_part(name: &str) -> String {
    format!("tag {name}")
}

fn code_part(name: &str) -> String {
    format!("condition {name}")
}

/// Every part there is, in the order of document 01.
pub fn all_parts() -> Vec<String> {
    let kinds = KINDS.iter().map(|k| kind_part(k));
    let tags = TAGS.iter().map(|t| tag_part(t));
    let codes = CONDITIONS.iter().chain(&["other"]).map(|c| code_part(c));
    kinds.chain(tags).chain(codes).collect()
}

/// Lists the files of seeds 0 to `count` of a profile, on two threads.
pub fn run(profile: Profile, count: u64) -> Report {
    const THREADS: u64 = 2;
    let mut whole = Report::default();
    std::thread::scope(|scope| {
        let share = |first: u64| {
            let mut report = Report::default();
            (first..count).step_by(THREADS as usize).for_each(|seed| report.meet(profile, seed));
            // The branches are counted by thread, and this one is new.
            report.reached = reach::table();
            report
        };
        let threads: Vec<_> = (0..THREADS).map(|first| scope.spawn(move || share(first))).collect();
        for thread in threads {
            match thread.join() {
                Ok(report) => whole.absorb(report),
                Err(panic) => std::panic::resume_unwind(panic),
            }
        }
    });
    whole.panics.sort_unstable();
    whole
}

/// What no profile met although it should: refusals 2 to 9, parts, branches.
pub fn missing(reports: &[(Profile, Report)]) -> Vec<String> {
    let met = |count: &dyn Fn(&Report) -> Option<u64>| reports.iter().any(|(_, r)| count(r).is_some_and(|n| n > 0));
    let mut out = Vec::new();
    for answer in [0, 2, 3, 4, 5, 6, 7, 8, 9] {
        if !met(&|r| r.answers.get(&answer).copied()) {
            out.push(format!("answer {answer}"));
        }
    }
    out.extend(all_parts().into_iter().filter(|p| !met(&|r| r.parts.get(p).copied())));
    let excused = |name: &str| NEVER.iter().any(|(n, _)| *n == name);
    out.extend(reach::ALL.iter().filter(|n| !excused(n) && !met(&|r| r.reached.get(*n).copied())).map(|n| n.to_string()));
    out
}

/// The tables as Markdown.
pub fn markdown(reports: &[(Profile, Report)]) -> String {
    let mut out = String::from("## Answers\n\n| profile | files | accepted |");
    (2..=9).for_each(|n| put(&mut out, format_args!(" {n} |")));
    out += " panics | longest single file |\n|---|---|---|---|---|---|---|---|---|---|---|---|---|\n";
    for (profile, r) in reports {
        answers(&mut out, *profile, r);
    }
    out += "\n## Parts of the accepted files\n\n";
    let parts = all_parts();
    table(&mut out, "part", reports, parts.iter().map(|p| (p.as_str(), counts(reports, |r| r.parts.get(p)))));
    out += "\n## Reasons of refusals 2 to 6\n\n";
    let reasons: BTreeSet<&String> = reports.iter().flat_map(|(_, r)| r.reasons.keys()).collect();
    table(&mut out, "reason", reports, reasons.iter().map(|n| (n.as_str(), counts(reports, |r| r.reasons.get(*n)))));
    out += "\n## Branches of upstream's text\n\n";
    table(&mut out, "branch", reports, reach::ALL.iter().map(|n| (*n, counts(reports, |r| r.reached.get(n)))));
    for (name, why) in NEVER {
        put(&mut out, format_args!("\n`{name}` cannot be reached: {why}\n"));
    }
    out
}

fn answers(out: &mut String, profile: Profile, r: &Report) {
    let files = r.answers.values().sum::<u64>() + r.panics.len() as u64;
    put(out, format_args!("| {} | {files} |", profile.name()));
    for answer in [0, 2, 3, 4, 5, 6, 7, 8, 9] {
        put(out, format_args!(" {} |", r.answers.get(&answer).unwrap_or(&0)));
    }
    let (time, seed) = r.longest;
    put(out, format_args!(" {} | {:.1} ms (seed {seed}) |\n", r.panics.len(), time.as_secs_f64() * 1e3));
}

fn counts(reports: &[(Profile, Report)], count: impl Fn(&Report) -> Option<&u64>) -> Vec<u64> {
    reports.iter().map(|(_, r)| count(r).copied().unwrap_or(0)).collect()
}

/// A row for each name, a column for each profile.
fn table<'a>(out: &mut String, first: &str, reports: &[(Profile, Report)], rows: impl Iterator<Item = (&'a str, Vec<u64>)>) {
    put(out, format_args!("| {first} |"));
    reports.iter().for_each(|(p, _)| put(out, format_args!(" {} |", p.name())));
    put(out, format_args!("\n|{}\n", "---|".repeat(reports.len() + 1)));
    for (name, counts) in rows {
        put(out, format_args!("| `{name}` |"));
        counts.iter().for_each(|n| put(out, format_args!(" {n} |")));
        out.push('\n');
    }
}

fn put(out: &mut String, text: std::fmt::Arguments) {
    out.write_fmt(text).expect("a String takes all text");
}
