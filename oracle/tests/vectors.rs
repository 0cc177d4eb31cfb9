//! The stored vectors are what the generator makes and what the oracle answers.

use oracle::vectors::{bytes, check, list, repository};

#[test]
fn stored_files_and_answers_are_right() {
    assert_eq!(check(&repository()), Ok(()));
}

#[test]
fn they_are_some_300_and_small() {
    let entries = list(&repository()).expect("a list");
    assert!((250..=350).contains(&entries.len()));
    let sizes: Vec<usize> = entries.iter().map(|e| bytes(&repository(), &e.source).expect("a file").len()).collect();
    assert!(sizes.iter().filter(|s| **s <= 1_500).count() * 10 >= sizes.len() * 8, "most files are under 1.5 kB");
    let stored: u64 = ["files.bin", "answers.txt", "list.txt", "README.md"]
        .iter()
        .map(|name| std::fs::metadata(repository().join("vectors").join(name)).expect("a stored file").len())
        .sum();
    assert!(stored < 600_000, "{stored} bytes");
}
