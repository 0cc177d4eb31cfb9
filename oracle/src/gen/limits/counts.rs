//! The counts of the sections and the size of the file.

use super::super::builder::{un, Block, Expr, Function, Kind, Phi};
use super::super::rng::Rng;
use super::{case, Case};
use crate::records::{mark, CONTENTS, FILE_MOST, SECTIONS};

pub const CASES: [Case; 12] = [
    case("args", args, [6, 3]),
    case("args, all distinct", args_distinct, [0, 6]),
    case("blocks", blocks, [0, 3]),
    case("phis", phis, [0, 3]),
    case("inputs", inputs, [0, 3]),
    case("statements", statements, [0, 3]),
    case("lists", lists, [0, 3]),
    case("expressions", expressions, [0, 3]),
    case("names", names, [0, 3]),
    case("text", text, [0, 3]),
    case("bytes of the file", file_bytes, [0, 3]),
    case("bytes of the contents", contents_bytes, [0, 2]),
];

/// The most records of a section, or one more.
fn most(section: usize, past: bool) -> usize {
    SECTIONS[section].most as usize + usize::from(past)
}

fn function(blocks: Vec<Block>) -> Function {
    Function { bits: 64, returns: true, args: vec![7], blocks, ..Function::default() }
}

/// Sixteen args fill the section but cannot all be allowed registers: refused later, with 6.
fn args(rng: &mut Rng, past: bool) -> Vec<u8> {
    let mut f = function(Vec::new());
    f.args = (0..most(0, past)).map(|_| rng.below(16) as u32).collect();
    f.records().bytes()
}

fn args_distinct(rng: &mut Rng, past: bool) -> Vec<u8> {
    let mut f = function(vec![Block::at(rng.word())]);
    f.args = (0..16).filter(|r| past || *r != 4).collect();
    rng.shuffle(&mut f.args);
    f.records().bytes()
}

fn blocks(rng: &mut Rng, past: bool) -> Vec<u8> {
    let step = 1 + rng.word() % 0x100;
    let mut blocks: Vec<Block> = (0..most(1, past) as u64).map(|k| Block::at(0x1000 + step * k)).collect();
    let last = blocks[blocks.len() - 1].start;
    blocks[0].taken = Some(last);
    function(blocks).records().bytes()
}

fn phis(rng: &mut Rng, past: bool) -> Vec<u8> {
    let mut blocks = vec![Block::at(0x1000), Block::at(0x1010)];
    for k in 0..most(2, past) as u32 {
        let def = (k % 16, k / 16 + 1);
        let inputs = vec![0; rng.below(4)];
        let at = rng.below(2);
        blocks[at].phis.push(Phi { def, dead: rng.coin(), inputs });
    }
    function(blocks).records().bytes()
}

fn inputs(rng: &mut Rng, past: bool) -> Vec<u8> {
    let mut block = Block::at(0x1000);
    let mut left = most(3, past);
    let each = rng.pick(&[40, 500, left]);
    let register = rng.below(16) as u32;
    let mut version = 0;
    while left > 0 {
        let inputs: Vec<u32> = (0..each.min(left)).map(|_| rng.below(60) as u32).collect();
        left -= inputs.len();
        version += 1;
        block.phis.push(Phi { def: (register, version), dead: false, inputs });
    }
    function(vec![block]).records().bytes()
}

/// Statements that print nothing, so that no room runs out.
fn silent(rng: &mut Rng, k: u32) -> (u32, Kind) {
    match rng.below(4) {
        0 => (mark::DEAD, Kind::Return { value: None }),
        1 => (mark::DEAD, Kind::Other { text: "nop".into(), uses: Vec::new(), defs: vec![(3, k)] }),
        2 => (mark::DEAD, Kind::Branch { cond: None, target: Some(0x1000), uses: Vec::new() }),
        _ => (mark::DEAD, Kind::Call { target: "f".into(), args: Vec::new(), ret: None, clobbers: Vec::new() }),
    }
}

fn statements(rng: &mut Rng, past: bool) -> Vec<u8> {
    let mut blocks: Vec<Block> = (0..rng.range(1, 9) as u64).map(|k| Block::at(0x1000 + 0x1000 * k)).collect();
    for k in 0..most(4, past) {
        let ((marks, kind), at) = (silent(rng, k as u32), rng.below(blocks.len()));
        blocks[at].push(marks, kind);
    }
    function(blocks).records().bytes()
}

fn lists(rng: &mut Rng, past: bool) -> Vec<u8> {
    let mut block = Block::at(0x1000);
    let mut left = most(5, past);
    let each = rng.pick(&[7, 300, left]);
    while left > 0 {
        let defs: Vec<(u32, u32)> = (0..each.min(left)).map(|_| (rng.below(16) as u32, rng.below(9) as u32)).collect();
        left -= defs.len();
        let kind = if rng.coin() {
            Kind::Call { target: "f".into(), args: Vec::new(), ret: None, clobbers: defs }
        } else {
            Kind::Other { text: "x".into(), uses: Vec::new(), defs }
        };
        block.push(0, kind);
    }
    function(vec![block]).records().bytes()
}

fn expressions(rng: &mut Rng, past: bool) -> Vec<u8> {
    let mut block = Block::at(0x1000);
    let count = most(6, past);
    if rng.coin() {
        // One expression as deep as can be.
        let mut e = Expr::Const(1);
        for _ in 1..count {
            e = un("-", e);
        }
        block.push(0, Kind::Return { value: Some(e) });
    } else {
        let uses = |n: usize| (0..n).map(|k| Expr::Use(k as u32 % 16, 0)).collect();
        let first = rng.below(count);
        for n in [first, count - first] {
            block.push(0, Kind::Other { text: "reads".into(), uses: uses(n), defs: Vec::new() });
        }
    }
    function(vec![block]).records().bytes()
}

fn names(rng: &mut Rng, past: bool) -> Vec<u8> {
    let mut f = function(vec![Block::at(0x1000)]);
    let step = 1 + (rng.word() >> 16);
    f.names = (0..most(7, past) as u64).map(|k| (step.wrapping_mul(k), format!("n{}", k % 30))).collect();
    f.records().bytes()
}

fn text(rng: &mut Rng, past: bool) -> Vec<u8> {
    let mut f = function(vec![Block::at(0x1000)]);
    f.text = (0..most(8, past)).map(|_| char::from(rng.range(0x20, 0x7E) as u8)).collect();
    let from = rng.below(f.text.len() - 100);
    let text = f.text[from..from + 100].to_string();
    f.blocks[0].push(0, Kind::Other { text, uses: Vec::new(), defs: Vec::new() });
    f.records().bytes()
}

/// Statements and list items take most of the file, text the rest to the byte.
fn file_bytes(rng: &mut Rng, past: bool) -> Vec<u8> {
    let mut block = Block::at(0x1000);
    for _ in 0..999 {
        block.push(mark::DEAD, Kind::Return { value: None });
    }
    let clobbers = vec![(1, 1); rng.range(700, 2_000)];
    let used = CONTENTS * 4 + 4 + 40 + 1000 * 44 + 8 * clobbers.len();
    block.push(mark::DEAD, Kind::Call { target: String::new(), args: Vec::new(), ret: None, clobbers });
    let mut f = function(vec![block]);
    f.text = "x".repeat(FILE_MOST + usize::from(past) - used);
    f.records().bytes()
}

fn contents_bytes(_: &mut Rng, past: bool) -> Vec<u8> {
    let mut file = Function { bits: 32, ..Function::default() }.records().bytes();
    file.truncate(88 - usize::from(past));
    file
}
