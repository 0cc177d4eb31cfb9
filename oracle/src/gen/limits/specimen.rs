//! A small sound file with every kind, every tag and a record in every section, for changes of single fields.

use super::super::builder::{bin, load, un, Block, Expr, Function, Kind, Phi};
use super::super::edit::section;
use crate::records::{mark, Records};

fn entry() -> Block {
    let mut b = Block { taken: Some(0x1020), fall: Some(0x1010), ..Block::at(0x1000) };
    b.phis.push(Phi { def: (0, 1), dead: false, inputs: vec![0, 0] });
    b.phis.push(Phi { def: (5, 1), dead: true, inputs: vec![0] });
    b.push(0, Kind::Assign { def: (3, 1), value: bin("+", Expr::Use(7, 0), Expr::Const(5)) });
    b.push(0, Kind::Store { size: 4, address: un("-", Expr::Use(7, 0)), value: load(4, Expr::Const(0x2000)) });
    let args = vec![Expr::Use(3, 1), Expr::Opaque("xmm0".into())];
    b.push(0, Kind::Call { target: "sub_3000".into(), args, ret: Some((0, 2)), clobbers: vec![(1, 1), (2, 1)] });
    b.push(0, Kind::Other { text: "cpuid".into(), uses: vec![Expr::Use(0, 2)], defs: vec![(2, 2)] });
    b.push(mark::FLAGS, Kind::Flags { test: false, a: Expr::Use(2, 2), b: Expr::Const(-1) });
    b.push(0, Kind::Branch { cond: Some("e".into()), target: Some(0x1020), uses: vec![Expr::Const(1)] });
    b
}

/// Ends in which a value, a target, a condition and a result are absent.
fn rest() -> Vec<Block> {
    let mut second = Block::at(0x1010);
    second.push(0, Kind::Assign { def: (0, 3), value: Expr::Opaque("x".into()) });
    second.push(0, Kind::Call { target: "f".into(), args: Vec::new(), ret: None, clobbers: Vec::new() });
    second.push(0, Kind::Branch { cond: None, target: None, uses: vec![Expr::Use(0, 3)] });
    let mut third = Block::at(0x1020);
    third.push(0, Kind::Return { value: Some(Expr::Use(0, 2)) });
    third.push(0, Kind::Return { value: None });
    vec![second, third]
}

pub fn function() -> Function {
    let mut blocks = vec![entry()];
    blocks.extend(rest());
    let names = [(0x2000, "g".to_string()), (0x3000, "f".to_string()), (0x1_0000_0000, "high".to_string())].into();
    // Text that nothing refers to is checked all the same.
    Function { bits: 64, returns: true, args: vec![7, 6], blocks, names, text: "spare".into() }
}

/// The first statement of a kind, or expression of a tag.
pub fn first(r: &Records, sect: usize, number: u32) -> usize {
    let found = match sect {
        section::STATEMENTS => r.statements.iter().position(|s| s[3] == number),
        section::EXPRESSIONS => r.expressions.iter().position(|e| e[0] == number),
        _ => None,
    };
    found.unwrap_or(0)
}
