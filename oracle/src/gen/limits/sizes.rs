//! What lowering may write, and how far a stack address may lie.

use super::super::builder::{bin, load, Block, Expr, Function, Kind};
use super::super::rng::Rng;
use super::super::CONDITIONS;
use super::{case, Case};
use crate::records::mark;

pub const CASES: [Case; 9] = [
    case("lines", lines, [0, 8]),
    case("tokens", tokens, [0, 8]),
    case("tokens, one expression", tokens_once, [0, 8]),
    case("bytes of text written", text, [0, 8]),
    case("the lowest stack address", lowest, [0, 7]),
    case("the highest stack address", highest, [0, 7]),
    case("a number of one digit", digit, [0, 0]),
    case("a slot below the entry", slot, [0, 0]),
    case("an address with a global name", global, [0, 0]),
];

fn other(text: &str) -> Kind {
    Kind::Other { text: text.into(), uses: Vec::new(), defs: Vec::new() }
}

fn function(blocks: Vec<Block>) -> Function {
    Function { bits: 64, returns: true, args: vec![7], blocks, ..Function::default() }
}

/// Labels, which dead jumps ask for, and statements of a line each.
fn lines(rng: &mut Rng, past: bool) -> Vec<u8> {
    let labels = rng.range(0, 255);
    let mut blocks: Vec<Block> = (0..labels as u64 + 1).map(|k| Block::at(0x1000 * (k + 1))).collect();
    let starts: Vec<u64> = blocks.iter().skip(1).map(|b| b.start).collect();
    for start in starts {
        blocks[0].push(mark::DEAD, Kind::Branch { cond: None, target: Some(start), uses: Vec::new() });
    }
    for _ in 0..768 + usize::from(past) - labels {
        let at = rng.below(blocks.len());
        blocks[at].push(0, other(rng.pick(&["nop", "", "x"])));
    }
    function(blocks).records().bytes()
}

/// Conditional jumps of ten tokens each to a label of two, then lines of two and, for an odd rest, three.
fn tokens(rng: &mut Rng, past: bool) -> Vec<u8> {
    let jumps = rng.range(595, 613);
    let rest = 6_144 + usize::from(past) - 2 - 10 * jumps;
    let mut blocks = vec![Block::at(0x1000), Block::at(0x2000)];
    blocks[0].push(mark::FLAGS, Kind::Flags { test: false, a: Expr::Use(7, 0), b: Expr::Const(3) });
    let codes = ["e", "ne", "l", "ge", "g", "le"];
    for _ in 0..jumps {
        let cond = Some(rng.pick(&codes).to_string());
        blocks[0].push(0, Kind::Branch { cond, target: Some(0x1000), uses: Vec::new() });
    }
    for _ in 0..rest / 2 - rest % 2 {
        // An empty name is a token, too.
        let call = Kind::Call { target: String::new(), args: Vec::new(), ret: None, clobbers: Vec::new() };
        blocks[1].push(0, if rng.coin() { call } else { other("nop") });
    }
    if rest % 2 == 1 {
        blocks[1].push(0, Kind::Return { value: Some(Expr::Opaque(rng.pick(&["", "x"]).into())) });
    }
    function(blocks).records().bytes()
}

/// A value written in place into a setter that many jumps print.
fn tokens_once(rng: &mut Rng, past: bool) -> Vec<u8> {
    let mut blocks = vec![Block::at(0x1000), Block::at(0x2000)];
    // `if (0 == (1 + (1 + … a1))) goto loc_1000;`: each leaf with the signs before it, and eight more.
    let leaves = rng.range(10, 60);
    let mut sum = Expr::Use(7, 0);
    for _ in 1..leaves {
        sum = bin("+", Expr::Const(1), sum);
    }
    blocks[0].push(0, Kind::Assign { def: (3, 1), value: sum });
    blocks[0].push(mark::FLAGS, Kind::Flags { test: false, a: Expr::Const(0), b: Expr::Use(3, 1) });
    let each = 2 * leaves + 8;
    let jumps = 6_100 / each;
    for _ in 0..jumps {
        blocks[0].push(0, Kind::Branch { cond: Some("e".into()), target: Some(0x1000), uses: Vec::new() });
    }
    fill(&mut blocks[1], 6_144 + usize::from(past) - 2 - jumps * each);
    function(blocks).records().bytes()
}

/// Lines of four tokens, two and three that make up `tokens` of them (at least 2).
fn fill(block: &mut Block, tokens: usize) {
    let odd = tokens % 2;
    let pairs = (tokens - 3 * odd) / 2;
    for k in 0..pairs / 2 {
        block.push(0, Kind::Assign { def: (6, k as u32 + 1), value: load(4, Expr::Const(0x2000)) });
    }
    for _ in 0..pairs % 2 {
        block.push(0, other("nop"));
    }
    for _ in 0..odd {
        block.push(0, Kind::Return { value: Some(Expr::Opaque("x".into())) });
    }
}

/// Lines of `__asm { … }`, ten bytes and a stretch of one long text each.
fn text(rng: &mut Rng, past: bool) -> Vec<u8> {
    let count = rng.range(2, 40);
    let total = 32_768 + usize::from(past) - 10 * count;
    let mut f = function(vec![Block::at(0x1000)]);
    f.text = "a".repeat(16_384);
    for k in 0..count {
        let length = total / count + usize::from(k < total % count);
        f.blocks[0].push(0, other(&f.text[..length]));
    }
    f.records().bytes()
}

/// Two statements about numbers on both sides of where their text changes: both are accepted.
fn digit(rng: &mut Rng, past: bool) -> Vec<u8> {
    let most = 9 + i64::from(past);
    let mut block = Block::at(0x1000);
    for number in [most, -most] {
        block.push(0, Kind::Store { size: rng.pick(&[1, 4]), address: Expr::Use(7, 0), value: Expr::Const(number) });
    }
    function(vec![block]).records().bytes()
}

fn slot(rng: &mut Rng, past: bool) -> Vec<u8> {
    let offset = i64::from(past) - 1;
    let mut block = Block::at(0x1000);
    block.push(0, Kind::Assign { def: (3, 1), value: bin("+", Expr::Use(4, 0), Expr::Const(offset)) });
    let address = rng.pick(&[3, 4]);
    let address = if address == 3 { Expr::Use(3, 1) } else { bin("-", Expr::Use(4, 0), Expr::Const(-offset)) };
    block.push(0, Kind::Store { size: 4, address, value: Expr::Use(3, 1) });
    function(vec![block]).records().bytes()
}

fn global(rng: &mut Rng, past: bool) -> Vec<u8> {
    let address = 0x1000 - i64::from(past);
    let mut f = function(vec![Block::at(0x1000)]);
    let value = load(rng.pick(&[1, 2, 4, 8, 16]), Expr::Const(address));
    f.blocks[0].push(0, Kind::Store { size: 4, address: Expr::Const(address), value });
    if rng.coin() {
        f.names.insert(address as u64, "named".into());
    }
    f.records().bytes()
}

fn lowest(rng: &mut Rng, past: bool) -> Vec<u8> {
    far(rng, past, "-", "+")
}

fn highest(rng: &mut Rng, past: bool) -> Vec<u8> {
    far(rng, past, "+", "-")
}

/// The farthest address in direction `op`; past it by one step more, or at once by the least number.
fn far(rng: &mut Rng, past: bool, op: &str, back: &str) -> Vec<u8> {
    let mut block = Block::at(0x1000);
    let register = rng.pick(&[4, 4, 5, 0]);
    block.push(0, Kind::Assign { def: (register, 1), value: bin(op, Expr::Use(4, 0), Expr::Const(i64::MAX)) });
    let at_once = bin(back, Expr::Use(4, 0), Expr::Const(i64::MIN));
    let node = match (past, rng.coin()) {
        (true, true) => at_once,
        (true, false) => bin(op, Expr::Use(register, 1), Expr::Const(1)),
        (false, true) => bin(back, Expr::Use(register, 1), Expr::Const(1)),
        (false, false) => Expr::Use(register, 1),
    };
    let dead = rng.pick(&[0, mark::DEAD]);
    block.push(dead, holder(rng, node));
    let mut f = function(vec![block]);
    f.returns = rng.coin();
    f.records().bytes()
}

/// A statement around the node, which it prints, hides or never looks at.
fn holder(rng: &mut Rng, node: Expr) -> Kind {
    match rng.below(7) {
        0 => Kind::Assign { def: (rng.pick(&[4, 3]), 9), value: node },
        1 => Kind::Store { size: 8, address: node, value: Expr::Const(1) },
        2 => Kind::Store { size: 8, address: load(8, Expr::Use(7, 0)), value: node },
        3 => Kind::Return { value: Some(bin("*", Expr::Const(2), node)) },
        4 => Kind::Branch { cond: Some(rng.pick(&CONDITIONS).into()), target: None, uses: vec![node] },
        5 => Kind::Call { target: "f".into(), args: vec![node], ret: None, clobbers: Vec::new() },
        _ => Kind::Other { text: "reads".into(), uses: vec![node], defs: Vec::new() },
    }
}
