//! Files whose rendering is dear. A value in place is read once by live statements, so nothing doubles; but a dead setter of flags may read
//! it again and again, copies print nothing on the way, and each branch of a block asks its setter anew.

use oracle::gen::builder::{bin, load, un, Block, Expr, Function, Kind};
use oracle::records::mark;

const RAX: u32 = 0;

/// The text section's most bytes.
const TEXT: usize = 16_384;

/// Each file with what it is.
pub fn all() -> Vec<(&'static str, Vec<u8>)> {
    vec![
        ("two towers of long operators under one TEST, compared for each of 555 branches", towers()),
        ("930 copies in place, 50 reads by a dead CMP, 56 branches", copies(56)),
        ("the same with 60 branches", copies(60)),
        ("512 names, 50 loads in a CMP, 56 branches", names()),
        ("a CMP of two expressions of 900 operators, 500 branches", operators()),
        ("a CMP of two texts of 8,000 bytes, 900 branches", texts()),
        ("a call with 380 dead pushes, each of a value behind 380 copies", pushes()),
        ("a call with 15 arguments of 16,000 bytes", arguments()),
    ]
}

fn file(bits: u32, args: Vec<u32>, block: Block) -> Function {
    Function { bits, args, blocks: vec![block], ..Function::default() }
}

/// A balanced tree of so many leaves, an operator of no letters at each joint.
fn tree(leaves: usize, leaf: &dyn Fn() -> Expr) -> Expr {
    match leaves {
        0 | 1 => leaf(),
        n => bin("s", tree(n / 2, leaf), tree(n - n / 2, leaf)),
    }
}

fn branches(block: &mut Block, count: usize, condition: &str) {
    for _ in 0..count {
        block.push(0, Kind::Branch { cond: Some(condition.into()), target: None, uses: Vec::new() });
    }
}

/// `rax` copied from version to version, each read by the next; the last is read by a statement that prints nothing of it.
fn chain(block: &mut Block, copies: u32) {
    block.push(0, Kind::Assign { def: (RAX, 1), value: Expr::Opaque(String::new()) });
    for version in 2..=copies {
        block.push(0, Kind::Assign { def: (RAX, version), value: Expr::Use(RAX, version - 1) });
    }
    block.push(0, Kind::Other { text: String::new(), uses: vec![Expr::Use(RAX, copies)], defs: Vec::new() });
}

/// Equal but for the last leaf, so that sign after TEST prints only `__flags_s`; equal operators stand at two places of the text.
fn towers() -> Vec<u8> {
    const HEIGHT: usize = 611;
    let operator = "x".repeat(TEXT - 2);
    let tower = |leaf| (0..HEIGHT).fold(Expr::Const(leaf), |e, _| un(&operator, e));
    let mut block = Block::at(0x1000);
    block.push(mark::FLAGS, Kind::Flags { test: true, a: tower(0), b: tower(1) });
    branches(&mut block, 555, "s");
    let text = "x".repeat(TEXT - 1);
    let mut records = Function { text, ..file(64, Vec::new(), block) }.records();
    records.expressions[HEIGHT + 2..].iter_mut().for_each(|e| e[1] += 1);
    records.bytes()
}

fn copies(count: usize) -> Vec<u8> {
    const COPIES: u32 = 930;
    let mut block = Block::at(0x1000);
    chain(&mut block, COPIES);
    let a = tree(50, &|| Expr::Use(RAX, COPIES));
    block.push(mark::DEAD | mark::FLAGS, Kind::Flags { test: false, a, b: Expr::Const(0) });
    branches(&mut block, count, "e");
    file(64, Vec::new(), block).records().bytes()
}

/// The name that stands last is asked for.
fn names() -> Vec<u8> {
    let mut block = Block::at(0x1000);
    let a = tree(50, &|| load(4, Expr::Const(0x11FF)));
    block.push(mark::FLAGS, Kind::Flags { test: false, a, b: Expr::Const(0) });
    branches(&mut block, 56, "e");
    let names = (0x1000..0x1200).map(|address| (address, "x".to_string())).collect();
    Function { names, ..file(64, Vec::new(), block) }.records().bytes()
}

fn operators() -> Vec<u8> {
    let tower = || (0..900).fold(Expr::Const(0), |e, _| un("-", e));
    compared(tower(), tower(), 500)
}

fn texts() -> Vec<u8> {
    let text = || Expr::Opaque("x".repeat(8_000));
    compared(text(), text(), 900)
}

fn compared(a: Expr, b: Expr, count: usize) -> Vec<u8> {
    let mut block = Block::at(0x1000);
    block.push(mark::FLAGS, Kind::Flags { test: false, a, b });
    branches(&mut block, count, "b");
    file(64, Vec::new(), block).records().bytes()
}

fn pushes() -> Vec<u8> {
    const COPIES: u32 = 380;
    let mut block = Block::at(0x1000);
    chain(&mut block, COPIES);
    for _ in 0..COPIES {
        let value = Expr::Use(RAX, COPIES);
        block.push(mark::DEAD | mark::PUSH, Kind::Store { size: 4, address: Expr::Const(0), value });
    }
    block.push(0, Kind::Call { target: "f".into(), args: Vec::new(), ret: None, clobbers: Vec::new() });
    file(32, Vec::new(), block).records().bytes()
}

/// All but RSP are registers of arguments, and the last of them is set.
fn arguments() -> Vec<u8> {
    let registers: Vec<u32> = (0..16).filter(|r| *r != 4).collect();
    let args = vec![Expr::Opaque("x".repeat(16_000)); registers.len()];
    let mut block = Block::at(0x1000);
    block.push(0, Kind::Assign { def: (15, 1), value: Expr::Const(0) });
    block.push(0, Kind::Call { target: "f".into(), args, ret: None, clobbers: Vec::new() });
    file(64, registers, block).records().bytes()
}
