//! A short run of every profile meets every refusal, kind, tag, condition code and branch of upstream's text, and
//! so do the stored vectors.

use oracle::coverage::{missing, run, Report, NEVER};
use oracle::gen::Profile;
use oracle::list::list;
use oracle::{reach, vectors};

/// More than it takes to meet the rarest branch; the same files on every machine.
const COUNT: u64 = 1_000;

#[test]
fn everything_is_met_without_a_panic() {
    let reports: Vec<(Profile, Report)> = Profile::ALL.into_iter().map(|p| (p, run(p, COUNT))).collect();
    for (profile, report) in &reports {
        assert!(report.panics.is_empty(), "{} panics at {:?}", profile.name(), report.panics);
    }
    assert_eq!(missing(&reports), Vec::<String>::new());
    for (name, _) in NEVER {
        assert!(reach::ALL.contains(&name), "{name} is excused but no branch");
        assert!(reports.iter().all(|(_, r)| r.reached[name] == 0), "{name} is excused but reached");
    }
}

#[test]
fn the_vectors_meet_every_branch_and_refusal() {
    let home = vectors::repository();
    let before = reach::table();
    let mut refusals = std::collections::BTreeSet::new();
    for entry in vectors::list(&home).expect("a list") {
        let file = vectors::bytes(&home, &entry.source).expect("a file");
        refusals.extend(list(&file).err().map(|r| r.0));
    }
    assert_eq!(refusals, (2..=9).collect());
    let after = reach::table();
    let unmet: Vec<_> = reach::ALL.iter().filter(|n| before[*n] == after[*n] && NEVER.iter().all(|(name, _)| name != *n)).collect();
    assert!(unmet.is_empty(), "{unmet:?}");
}
