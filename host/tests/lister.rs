//! The printer through its safe form: document 01's example, files that are none, the stored vectors, and the deepest expression.

use host::{list, Lister};
use oracle::gen::builder::{un, Block, Expr, Function, Kind};
use oracle::gen::rng::Rng;
use oracle::list::{answer, Mode};
use oracle::vectors::{bytes, repository, Source};

/// What the program `listing` prints for a file.
fn printed(lister: &mut Lister, file: &[u8]) -> String {
    lister.list(file).map_or_else(|refusal| format!("{refusal}\n"), |listing| listing.to_string())
}

#[test]
fn the_example_of_document_01() {
    let file = bytes(&repository(), &Source::Sample("example".into())).unwrap();
    let listing = "ifs 1 loops 0 lines 4 tests 1\n\
                   1004 1 if (a1 != 0) {\n\
                   1008 2 *(uint32_t *)(0x2000) = a1;\n\
                   - 1 }\n\
                   1010 1 return a1;\n";
    assert_eq!(list(&file).unwrap().to_string(), listing);
}

#[test]
fn random_bytes_are_no_file() {
    let mut rng = Rng::new(1);
    let mut lister = Lister::default();
    for length in (0..2_000).chain([65_536, 65_537, 200_000]) {
        let file: Vec<u8> = (0..length).map(|_| rng.word() as u8).collect();
        let refusal = lister.list(&file).unwrap_err();
        assert_eq!((refusal.number(), refusal.to_string().as_str()), (2, "refused 2"));
        assert!(!refusal.about().is_empty());
    }
}

#[test]
fn the_stored_vectors() {
    let stored = repository().join("vectors");
    let batch = std::fs::read(stored.join("files.bin")).unwrap();
    let word = |i: usize| u32::from_le_bytes(batch[4 * i..4 * i + 4].try_into().unwrap()) as usize;
    let mut lister = Lister::default();
    let (mut at, mut answers) = (4 * (word(0) + 1), String::new());
    for n in 0..word(0) {
        let end = at + word(1 + n);
        answers += &format!("file {n}\n{}", printed(&mut lister, &batch[at..end]));
        at = end;
    }
    assert_eq!(at, batch.len());
    let expected = std::fs::read_to_string(stored.join("answers.txt")).unwrap();
    let differing = expected.lines().zip(answers.lines()).enumerate().find(|(_, (a, b))| a != b);
    assert_eq!(differing, None);
    assert_eq!(answers.len(), expected.len());
}

/// A test's thread has Rust's usual stack of 2 MB: that has to do for the deepest renderings there are.
#[test]
fn the_deepest_expressions() {
    let mut nested = Block::at(0x1000);
    let deep = (0..2_047).fold(Expr::Const(1), |e, _| un("-", e));
    nested.push(0, Kind::Return { value: Some(deep) });
    // Each value is written in place of its one read, in the next.
    let mut chained = Block::at(0x1000);
    chained.push(0, Kind::Assign { def: (0, 1), value: Expr::Const(1) });
    for version in 2..=770 {
        chained.push(0, Kind::Assign { def: (0, version), value: un("-", Expr::Use(0, version - 1)) });
    }
    chained.push(0, Kind::Return { value: Some(Expr::Use(0, 770)) });
    for block in [nested, chained] {
        let file = Function { bits: 64, returns: true, blocks: vec![block], ..Function::default() }.records().bytes();
        let expected = answer(&file, Mode::Listing);
        assert!(expected.starts_with("ifs 0 loops 0 lines 1 "), "{expected}");
        assert_eq!(printed(&mut Lister::default(), &file), expected);
    }
}
