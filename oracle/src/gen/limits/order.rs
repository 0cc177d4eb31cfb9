//! Two faults in one file: the one that is looked for first decides.

use super::super::builder::{bin, Block, Expr, Function, Kind};
use super::super::rng::Rng;
use super::{case, Case};
use crate::records::mark;

pub const CASES: [Case; 11] = [
    case("refusal 2 before 3", |_, past| both(2, 3, past), [3, 2]),
    case("refusal 3 before 4", |_, past| both(3, 4, past), [4, 3]),
    case("refusal 4 before 5", |_, past| both(4, 5, past), [5, 4]),
    case("refusal 5 before 6", |_, past| both(5, 6, past), [6, 5]),
    case("refusal 6 before 7", |_, past| both(6, 7, past), [7, 6]),
    case("refusal 7 before 8", |_, past| both(7, 8, past), [8, 7]),
    case("refusal 8 before 9", |_, past| both(8, 9, past), [9, 8]),
    case("refusal 2 before 9", |_, past| both(2, 9, past), [9, 2]),
    case("the edition of a file that is too long", edition_first, [3, 2]),
    case("a count over its limit in a file that is too short", count_first, [4, 3]),
    case("a tag in the last expression, a child in the first", shape_first, [5, 4]),
];

/// A function that would be refused with each of the numbers, which are from 2 to 9.
fn faulty(faults: &[u8]) -> Vec<u8> {
    let has = |n: u8| faults.contains(&n);
    let depth = if has(9) { 255 } else { 3 };
    let mut blocks = vec![Block::at(0x10)];
    blocks.extend((0..depth).map(|k| Block::at(0x1000 + 0x10 * k)));
    for k in (0..depth).rev() {
        blocks[0].push(0, Kind::Branch { cond: Some("e".into()), target: Some(0x1000 + 0x10 * k), uses: Vec::new() });
    }
    let distance = if has(7) { i64::MIN } else { 8 };
    let far = bin("+", Expr::Use(4, 0), Expr::Const(distance));
    blocks[0].push(mark::DEAD, Kind::Return { value: Some(far) });
    let long = "a".repeat(if has(8) { 16_000 } else { 2 });
    for _ in 0..3 {
        blocks[0].push(0, Kind::Other { text: long.clone(), uses: Vec::new(), defs: Vec::new() });
    }
    let bits = if has(6) { 33 } else { 64 };
    let args = if has(3) { (0..17).collect() } else { vec![7] };
    let mut r = Function { bits, args, blocks, ..Function::default() }.records();
    r.edition = if has(2) { 7 } else { 1 };
    r.statements[0][2] = if has(4) { 8 } else { 0 };
    r.text[0] = if has(5) { 0x7F } else { b'a' };
    r.bytes()
}

/// At the limit the later fault alone, past it both.
fn both(early: u8, late: u8, past: bool) -> Vec<u8> {
    let faults = [late, early];
    faulty(if past { &faults } else { &faults[..1] })
}

fn edition_first(rng: &mut Rng, past: bool) -> Vec<u8> {
    let mut file = faulty(if past { &[2] } else { &[] });
    file.resize(65_537 + rng.below(100), b'x');
    file
}

fn count_first(rng: &mut Rng, past: bool) -> Vec<u8> {
    let mut file = faulty(&[]);
    let section = rng.below(9);
    if past {
        let count = crate::records::SECTIONS[section].most + 1;
        file[20 + 8 * section..24 + 8 * section].copy_from_slice(&count.to_le_bytes());
    }
    file.truncate(rng.range(88, file.len() - 1));
    file
}

fn shape_first(_: &mut Rng, past: bool) -> Vec<u8> {
    let mut block = Block::at(0x1000);
    for _ in 0..5 {
        block.push(0, Kind::Return { value: Some(bin("+", Expr::Use(7, 0), Expr::Const(1))) });
    }
    let mut r = Function { bits: 64, blocks: vec![block], ..Function::default() }.records();
    r.expressions[2][3] = 2;
    if past {
        r.expressions[9][0] = 7;
    }
    r.bytes()
}
