//! How deep braces may stand: 254 of them around any line.

use super::super::builder::{Block, Expr, Function, Kind};
use super::super::rng::Rng;
use super::super::CONDITIONS;
use super::{case, Case};
use crate::records::mark;

pub const CASES: [Case; 6] = [
    case("a statement inside ifs", ifs, [0, 9]),
    case("a label inside ifs", label, [0, 9]),
    case("a statement inside loops", loops, [0, 9]),
    case("loops, the innermost empty", empty_loops, [0, 9]),
    case("an empty loop inside ifs", empty_loop_inside, [0, 9]),
    case("a statement inside ifs and loops", mixed, [0, 9]),
];

const DEEPEST: usize = 254;

/// Regions around one another, the outermost first, and what stands in the innermost.
struct Tower {
    /// For each region whether it is a loop.
    regions: Vec<bool>,
    inside: Inside,
}

enum Inside {
    Statement,
    Label,
    EmptyLoop,
    Nothing,
}

fn branch(rng: &mut Rng, target: u64) -> Kind {
    Kind::Branch { cond: Some(rng.pick(&CONDITIONS).into()), target: Some(target), uses: Vec::new() }
}

impl Tower {
    fn start(region: usize) -> u64 {
        0x1000 + 0x1000 * region as u64
    }

    /// An if is a jump before its label, a loop the other way round; a label begins a block.
    fn bytes(&self, rng: &mut Rng) -> Vec<u8> {
        let mut blocks = vec![Block::at(0x10)];
        for (k, is_loop) in self.regions.iter().enumerate() {
            Tower::edge(rng, &mut blocks, k, *is_loop);
        }
        self.inside(rng, &mut blocks);
        for (k, is_loop) in self.regions.iter().enumerate().rev() {
            Tower::edge(rng, &mut blocks, k, !*is_loop);
        }
        if rng.coin() {
            let last = blocks.len() - 1;
            blocks[last].push(0, Kind::Return { value: None });
        }
        Function { bits: 64, args: vec![7], blocks, ..Function::default() }.records().bytes()
    }

    fn edge(rng: &mut Rng, blocks: &mut Vec<Block>, region: usize, label: bool) {
        let (start, last) = (Tower::start(region), blocks.len() - 1);
        if label {
            blocks.push(Block::at(start));
        } else {
            blocks[last].push(0, branch(rng, start));
        }
    }

    fn inside(&self, rng: &mut Rng, blocks: &mut Vec<Block>) {
        let last = blocks.len() - 1;
        match self.inside {
            Inside::Statement => {
                if rng.coin() {
                    let (a, b) = (Expr::Use(7, 0), Expr::Const(3));
                    blocks[last].push(mark::FLAGS, Kind::Flags { test: false, a, b });
                }
                blocks[last].push(0, Kind::Other { text: "nop".into(), uses: Vec::new(), defs: Vec::new() });
            }
            // The label is there because a dead jump names it; no line does.
            Inside::Label => {
                blocks[last].push(mark::DEAD, branch(rng, 0x20));
                blocks.push(Block::at(0x20));
            }
            Inside::EmptyLoop => {
                blocks.push(Block::at(0x20));
                blocks[last + 1].push(0, branch(rng, 0x20));
            }
            Inside::Nothing => {}
        }
    }
}

fn ifs(rng: &mut Rng, past: bool) -> Vec<u8> {
    Tower { regions: vec![false; DEEPEST + usize::from(past)], inside: Inside::Statement }.bytes(rng)
}

fn label(rng: &mut Rng, past: bool) -> Vec<u8> {
    Tower { regions: vec![false; DEEPEST + usize::from(past)], inside: Inside::Label }.bytes(rng)
}

fn loops(rng: &mut Rng, past: bool) -> Vec<u8> {
    Tower { regions: vec![true; DEEPEST + usize::from(past)], inside: Inside::Statement }.bytes(rng)
}

/// The innermost loop puts no line inside its braces: one more is allowed.
fn empty_loops(rng: &mut Rng, past: bool) -> Vec<u8> {
    Tower { regions: vec![true; DEEPEST + 1 + usize::from(past)], inside: Inside::Nothing }.bytes(rng)
}

fn empty_loop_inside(rng: &mut Rng, past: bool) -> Vec<u8> {
    Tower { regions: vec![false; DEEPEST + usize::from(past)], inside: Inside::EmptyLoop }.bytes(rng)
}

fn mixed(rng: &mut Rng, past: bool) -> Vec<u8> {
    let regions = (0..DEEPEST + usize::from(past)).map(|_| rng.coin()).collect();
    Tower { regions, inside: Inside::Statement }.bytes(rng)
}
