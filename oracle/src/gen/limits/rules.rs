//! Checks 5 and 6 on both sides: children, owners, registers, definitions, starts, names, indirect calls.

use super::super::builder::{bin, Block, Expr, Function, Kind, Phi, Value};
use super::super::edit::{section, word};
use super::super::rng::Rng;
use super::specimen::{first, function};
use super::{case, Case};
use crate::records::{kind, tag, Records};

use section::{ARGS, BLOCKS, EXPRESSIONS, LISTS, NAMES, PHIS, STATEMENTS};

pub const CASES: [Case; 11] = [
    case("a child below its parent", child, [0, 5]),
    case("an expression's one owner", owner, [0, 5]),
    case("an index", index, [0, 5]),
    case("a register", register, [0, 6]),
    case("an arg that is the stack pointer", stack_arg, [0, 6]),
    case("args repeated", args, [0, 6]),
    case("version 0 defined", version, [0, 6]),
    case("a value defined twice", twice, [0, 6]),
    case("equal block starts", starts, [0, 6]),
    case("rising names", names, [0, 6]),
    case("an indirect call without args", indirect, [0, 6]),
];

/// The fields that name expressions: of statements, of lists, of expressions.
fn references(r: &Records) -> Vec<(usize, usize, usize)> {
    vec![
        (STATEMENTS, first(r, STATEMENTS, kind::ASSIGN), 6),
        (STATEMENTS, first(r, STATEMENTS, kind::STORE), 5),
        (STATEMENTS, first(r, STATEMENTS, kind::STORE), 6),
        (STATEMENTS, first(r, STATEMENTS, kind::FLAGS), 5),
        (STATEMENTS, first(r, STATEMENTS, kind::FLAGS), 6),
        (STATEMENTS, first(r, STATEMENTS, kind::RETURN), 5),
        (LISTS, 0, 0),
        (EXPRESSIONS, first(r, EXPRESSIONS, tag::BIN), 3),
        (EXPRESSIONS, first(r, EXPRESSIONS, tag::BIN), 4),
        (EXPRESSIONS, first(r, EXPRESSIONS, tag::UN), 3),
        (EXPRESSIONS, first(r, EXPRESSIONS, tag::LOAD), 2),
    ]
}

fn child(rng: &mut Rng, past: bool) -> Vec<u8> {
    let mut r = function().records();
    let parents = [tag::BIN, tag::UN, tag::LOAD].map(|t| first(&r, EXPRESSIONS, t));
    if past {
        let at = rng.pick(&parents);
        let field = if r.expressions[at][0] == tag::LOAD { 2 } else { 3 };
        *word(&mut r, EXPRESSIONS, at, field) = (at + rng.below(2)) as u32;
    }
    r.bytes()
}

/// Past the limit: an expression that nobody owns, or one with two owners.
fn owner(rng: &mut Rng, past: bool) -> Vec<u8> {
    let mut r = function().records();
    match (past, rng.below(3)) {
        (false, _) => {}
        (true, 0) => r.expressions.push([tag::CONST, 1, 0, 0, 0]),
        (true, 1) => {
            // Nobody's in a function of no blocks, too.
            r = Function { bits: 64, ..Function::default() }.records();
            r.expressions.push([tag::CONST, 1, 0, 0, 0]);
        }
        _ => {
            let flags = first(&r, STATEMENTS, kind::FLAGS);
            r.statements[flags][5] = r.statements[flags][6];
        }
    }
    r.bytes()
}

fn index(rng: &mut Rng, past: bool) -> Vec<u8> {
    let mut r = function().records();
    let count = r.expressions.len() as u32;
    if past {
        let (section, at, field) = rng.pick(&references(&r));
        *word(&mut r, section, at, field) = rng.pick(&[count, count + 1, u32::MAX]);
    } else {
        // The last expression is named where its owner stands.
        let last = r.expressions[count as usize - 1];
        r.expressions.push(last);
        let lists = r.lists.len();
        r.lists.insert(lists, [count, 0]);
        let mut extra = [0; 11];
        (extra[3], extra[6]) = (kind::OTHER, 1);
        r.statements.push(extra);
        let block = r.blocks.len() - 1;
        r.blocks[block][9] += 1;
    }
    r.bytes()
}

/// Every place of a register.
fn register(rng: &mut Rng, past: bool) -> Vec<u8> {
    let mut r = function().records();
    let places = [
        (ARGS, 0, 0),
        (PHIS, 1, 0),
        (STATEMENTS, first(&r, STATEMENTS, kind::ASSIGN), 4),
        (STATEMENTS, first(&r, STATEMENTS, kind::CALL), 8),
        (LISTS, 2, 0),
        (LISTS, 5, 0),
        (EXPRESSIONS, first(&r, EXPRESSIONS, tag::USE), 1),
    ];
    let (section, at, field) = rng.pick(&places);
    *word(&mut r, section, at, field) = if past { rng.pick(&[16, 256, 1 << 31]) } else { 15 };
    r.bytes()
}

fn stack_arg(rng: &mut Rng, past: bool) -> Vec<u8> {
    let mut f = function();
    let at = rng.below(f.args.len());
    f.args[at] = if past { 4 } else { rng.pick(&[3, 5]) };
    f.records().bytes()
}

fn args(rng: &mut Rng, past: bool) -> Vec<u8> {
    let mut f = function();
    f.args.push(if past { rng.pick(&[7, 6]) } else { rng.pick(&[1, 2]) });
    f.records().bytes()
}

fn version(rng: &mut Rng, past: bool) -> Vec<u8> {
    let mut r = function().records();
    let (section, at, field) = rng.pick(&[(PHIS, 0, 1), (PHIS, 1, 1), (STATEMENTS, first(&r, STATEMENTS, kind::ASSIGN), 5)]);
    *word(&mut r, section, at, field) = if past { 0 } else { rng.pick(&[9, u32::MAX]) };
    r.bytes()
}

/// A statement or phi that defines `value`, loosely if a value may then be repeated.
fn definer(rng: &mut Rng, block: &mut Block, value: Value, loose: bool) {
    match (loose, rng.below(3)) {
        (true, 0) => block.push(0, Kind::Call { target: "f".into(), args: Vec::new(), ret: Some(value), clobbers: Vec::new() }),
        (true, 1) => block.push(1, Kind::Call { target: "f".into(), args: Vec::new(), ret: None, clobbers: vec![value] }),
        (true, _) => block.push(0, Kind::Other { text: "x".into(), uses: Vec::new(), defs: vec![value] }),
        (false, 0) => block.phis.push(Phi { def: value, dead: rng.coin(), inputs: Vec::new() }),
        (false, k) => block.push(k as u32 - 1, Kind::Assign { def: value, value: bin("+", Expr::Use(1, 0), Expr::Const(1)) }),
    }
}

/// Calls and Others may define one value together; a phi or an Assign must define its own alone.
fn twice(rng: &mut Rng, past: bool) -> Vec<u8> {
    let mut blocks = vec![Block::at(0x1000), Block::at(0x2000)];
    let register = rng.below(16) as u32;
    let version = if past { 1 + rng.below(3) as u32 } else { rng.below(3) as u32 };
    let strict = rng.below(2);
    for k in 0..2 {
        let at = rng.below(2);
        let loose = !past || (k != strict && rng.coin());
        definer(rng, &mut blocks[at], (register, version), loose);
    }
    Function { bits: 32, blocks, ..Function::default() }.records().bytes()
}

fn starts(rng: &mut Rng, past: bool) -> Vec<u8> {
    let mut r = function().records();
    let start = [r.blocks[0][0], r.blocks[0][1]];
    let at = rng.range(1, 2);
    let change = if past { [0, 0] } else { rng.pick(&[[1, 0], [0, 1], [1, 1]]) };
    *word(&mut r, BLOCKS, at, 0) = start[0] + change[0];
    *word(&mut r, BLOCKS, at, 1) = start[1] + change[1];
    r.bytes()
}

/// Rising by the high word, by the low one, or not at all.
fn names(rng: &mut Rng, past: bool) -> Vec<u8> {
    let mut r = function().records();
    let pairs = if past { [[5, 7, 5, 7], [6, 7, 5, 7], [0, 8, u32::MAX, 7]] } else { [[5, 7, 6, 7], [u32::MAX, 7, 0, 8], [5, 7, 5, 8]] };
    let [low, high, next_low, next_high] = rng.pick(&pairs);
    let at = rng.below(2);
    // Names before and behind the pair lie well below and above it.
    for k in 0..r.names.len() {
        *word(&mut r, NAMES, k, 1) = if k < at { 0 } else { 100 };
    }
    (r.names[at][0], r.names[at][1]) = (low, high);
    (r.names[at + 1][0], r.names[at + 1][1]) = (next_low, next_high);
    r.bytes()
}

fn indirect(rng: &mut Rng, past: bool) -> Vec<u8> {
    let mut f = function();
    let target = rng.pick(&["[", "[rax]"]).to_string();
    let args = if past { Vec::new() } else { vec![Expr::Use(0, 0)] };
    let marks = rng.below(8) as u32;
    f.blocks[0].push(marks, Kind::Call { target, args, ret: None, clobbers: vec![(1, 9)] });
    f.records().bytes()
}
