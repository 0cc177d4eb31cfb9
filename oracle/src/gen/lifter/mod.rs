//! Profiles `lifter32` and `lifter64`: functions as upstream's lifter makes them. A structured program of ifs,
//! loops, switches and calls is laid out as blocks of lifted instructions, then given versions.

mod code;
mod program;

use std::collections::BTreeMap;

use super::builder::{fits, Block, Expr, Function, Kind, Stmt};
use super::rng::Rng;
use super::ssa::{mark_dead, propagate, versions, Draft};
use super::CONDITIONS;
use crate::records::Records;

const RAX: u32 = 0;
const RCX: u32 = 1;
const RDX: u32 = 2;
const RSP: u32 = 4;
const RBP: u32 = 5;

#[rustfmt::skip]
const NAMES: [&str; 13] = [
    "main", "malloc", "memcpy", "CreateFileA", "g_state", "table", "operator new", "std::vector<int>::push_back",
    "__security_cookie", "errno", "WinMain", "??_7type_info@@6B@",
    "std::basic_string<char, std::char_traits<char>, std::allocator<char> >::append",
];

/// A function for 32 or 64 bits that keeps to every limit.
pub fn records(rng: &mut Rng, bits: u32) -> Records {
    let mut budget = if rng.one_in(24) { rng.range(100, 500) } else { rng.size(3, 90) };
    loop {
        let records = Lifter::new(rng, bits, budget).function().records();
        if fits(&records) {
            return records;
        }
        budget /= 2;
    }
}

/// How a block ends; a label is a number into `labels`.
enum End {
    Fall,
    Jump(usize),
    Cond(usize),
    Switch(Vec<usize>),
    /// Leaves the function; some graphs have an edge for it.
    Out(Option<u64>),
    Stop,
}

#[derive(Default, Clone, Copy)]
struct Label {
    block: usize,
    used: bool,
}

/// What stands around the code being written: where `break`, `continue` and an error exit lead.
#[derive(Clone, Copy)]
struct Around {
    depth: usize,
    inside: Option<(usize, usize)>,
    exit: usize,
}

struct Lifter<'a> {
    rng: &'a mut Rng,
    bits: u32,
    args: Vec<u32>,
    volatile: Vec<u32>,
    /// The registers this function computes with.
    work: Vec<u32>,
    saved: Vec<u32>,
    frame: bool,
    room: i64,
    at: u64,
    budget: usize,
    blocks: Vec<(Block, End)>,
    open: bool,
    labels: Vec<Label>,
    functions: Vec<u64>,
    globals: Vec<u64>,
}

impl<'a> Lifter<'a> {
    fn new(rng: &'a mut Rng, bits: u32, budget: usize) -> Lifter<'a> {
        let (args, volatile): (&[u32], &[u32]) = match (bits, rng.below(4)) {
            (32, 0) => (&[1, 2], &[0, 1, 2]),
            (32, _) => (&[], &[0, 1, 2]),
            (_, 0) => (&[1, 2, 8, 9], &[0, 1, 2, 8, 9, 10, 11]),
            _ => (&[7, 6, 2, 1, 8, 9], &[0, 1, 2, 6, 7, 8, 9, 10, 11]),
        };
        let frame = rng.coin();
        let mut work: Vec<u32> = (0..if bits == 32 { 8 } else { 16 }).filter(|r| *r != RSP && !(frame && *r == RBP)).collect();
        rng.shuffle(&mut work);
        work.truncate(rng.range(3, 7));
        let keeps = |r: &u32| [3, 5, 6, 7, 12, 13, 14, 15].contains(r) && !volatile.contains(r);
        let saved = work.iter().copied().filter(keeps).collect();
        let base = if bits == 32 { 0x40_1000 } else { 0x1_4000_1000 };
        let at = base + 0x10 * rng.below(0x400) as u64;
        let functions = (0..rng.range(1, 4)).map(|_| base + 0x10 * rng.below(0x2000) as u64).collect();
        let globals = (0..rng.range(1, 4)).map(|_| base + 0x2_0000 + 8 * rng.below(0x800) as u64).collect();
        Lifter {
            bits,
            args: args.to_vec(),
            volatile: volatile.to_vec(),
            work,
            saved,
            frame,
            room: 8 * rng.below(12) as i64,
            at,
            budget,
            blocks: Vec::new(),
            open: false,
            labels: Vec::new(),
            functions,
            globals,
            rng,
        }
    }

    fn word(&self) -> i64 {
        i64::from(self.bits / 8)
    }

    fn start_block(&mut self) {
        // An empty block is a nop: two blocks never start at one address.
        if self.blocks.last().is_some_and(|(b, _)| b.start == self.at) {
            self.at += 1;
        }
        self.blocks.push((Block::at(self.at), End::Fall));
        self.open = true;
    }

    fn stmt(&mut self, marks: u32, kind: Kind) {
        if !self.open {
            self.start_block();
        }
        let address = self.at;
        if let Some((block, _)) = self.blocks.last_mut() {
            block.stmts.push(Stmt { address, marks, kind });
        }
    }

    /// The instruction just written ends.
    fn step(&mut self) {
        self.at += self.rng.range(1, 7) as u64;
        self.budget = self.budget.saturating_sub(1);
    }

    fn ins(&mut self, marks: u32, kind: Kind) {
        self.stmt(marks, kind);
        self.step();
    }

    fn assign(&mut self, marks: u32, register: u32, value: Expr) {
        self.ins(marks, Kind::Assign { def: (register, 0), value });
    }

    fn label(&mut self) -> usize {
        self.labels.push(Label::default());
        self.labels.len() - 1
    }

    fn place(&mut self, label: usize) {
        let fresh = self.open && self.blocks.last().is_some_and(|(b, _)| b.stmts.is_empty());
        if !fresh {
            self.start_block();
        }
        self.labels[label].block = self.blocks.len() - 1;
    }

    fn end(&mut self, end: End) {
        if let Some((_, e)) = self.blocks.last_mut() {
            *e = end;
        }
        self.open = false;
    }

    /// A jump whose target is filled in when all labels are placed.
    fn jump(&mut self, label: usize) {
        self.ins(0, Kind::Branch { cond: None, target: Some(0), uses: Vec::new() });
        self.labels[label].used = true;
        self.end(End::Jump(label));
    }

    fn branch(&mut self, label: usize) {
        // Half of them comparisons, as compilers write them; `none` is what a `jrcxz` is lifted to.
        let cond = match self.rng.below(60) {
            0 => "none",
            1..=29 => self.rng.pick(&["e", "ne", "l", "ge", "g", "le", "b", "ae", "a", "be", "s", "ns"]),
            _ => self.rng.pick(&CONDITIONS),
        };
        self.ins(0, Kind::Branch { cond: Some(cond.into()), target: Some(0), uses: Vec::new() });
        self.labels[label].used = true;
        self.end(End::Cond(label));
        self.start_block();
    }

    fn start_of(&self, label: usize) -> u64 {
        self.blocks[self.labels[label].block].0.start
    }

    /// The edges of block `at`: taken, fall, and the blocks that follow.
    fn edges(&self, at: usize) -> (Option<u64>, Option<u64>, Vec<usize>) {
        let below = self.blocks.get(at + 1).map(|(b, _)| b.start);
        let to = |label: &usize| self.labels[*label].block;
        match &self.blocks[at].1 {
            End::Fall => (None, below, vec![at + 1]),
            End::Jump(l) => (Some(self.start_of(*l)), None, vec![to(l)]),
            End::Cond(l) => (Some(self.start_of(*l)), below, vec![to(l), at + 1]),
            End::Switch(cases) => (None, None, cases.iter().map(to).collect()),
            End::Out(edge) => (*edge, None, Vec::new()),
            End::Stop => (None, None, Vec::new()),
        }
    }

    fn drafts(&mut self) -> Vec<Draft> {
        let edges: Vec<_> = (0..self.blocks.len()).map(|at| self.edges(at)).collect();
        let mut out = Vec::new();
        for ((mut block, end), (taken, fall, next)) in std::mem::take(&mut self.blocks).into_iter().zip(edges) {
            (block.taken, block.fall) = (taken, fall);
            if let (End::Jump(_) | End::Cond(_), Some(Kind::Branch { target, .. })) = (end, block.stmts.last_mut().map(|s| &mut s.kind)) {
                *target = taken;
            }
            out.push(Draft { block, next });
        }
        out
    }

    fn names(&mut self) -> BTreeMap<u64, String> {
        let mut out = BTreeMap::new();
        for (k, a) in self.functions.iter().chain(&self.globals).enumerate() {
            if self.rng.coin() {
                out.insert(*a, format!("{}_{k}", self.rng.pick(&NAMES)));
            }
        }
        out
    }

    fn function(mut self) -> Function {
        self.program();
        let mut drafts = self.drafts();
        versions(&mut drafts);
        if !self.rng.one_in(4) {
            propagate(&mut drafts);
        }
        if !self.rng.one_in(8) {
            mark_dead(&mut drafts);
        }
        let mut blocks: Vec<Block> = drafts.into_iter().map(|d| d.block).collect();
        // A part of a function that stands elsewhere: falling is then no longer falling into the next block.
        if self.rng.one_in(8) && blocks.len() > 2 {
            let moved = blocks.remove(self.rng.range(1, blocks.len() - 1));
            blocks.push(moved);
        }
        Function { bits: self.bits, returns: self.rng.coin(), args: self.args.clone(), blocks, names: self.names(), text: String::new() }
    }
}
