//! Gives the registers of a drafted function their versions, as upstream's lifter does: phis at the iterated
//! dominance frontiers, renaming along the dominator tree, copies and constants carried into their readers,
//! dead definitions marked. Blocks that cannot be reached keep version 0, as upstream's do.

use std::collections::{BTreeMap, BTreeSet};

use super::builder::{Block, Expr, Kind, Phi, Value};
use crate::records::mark;

const REGISTERS: usize = 16;
const RSP: u32 = 4;

/// A block whose registers have no versions yet, and the blocks that may follow it.
pub struct Draft {
    pub block: Block,
    pub next: Vec<usize>,
}

/// What the flow between the blocks says; the first block is the entry.
struct Flow {
    before: Vec<Vec<usize>>,
    /// Reachable blocks, each behind those that dominate it.
    order: Vec<usize>,
    /// The nearest block that dominates a block; its own number for the entry and what is unreachable.
    above: Vec<usize>,
}

fn reverse_postorder(blocks: &[Draft]) -> Vec<usize> {
    let mut order = Vec::new();
    let mut seen = vec![false; blocks.len()];
    let mut stack = vec![(0, 0)];
    seen[0] = true;
    while let Some((at, tried)) = stack.pop() {
        let Some(&to) = blocks[at].next.get(tried) else {
            order.push(at);
            continue;
        };
        stack.push((at, tried + 1));
        if !seen[to] {
            seen[to] = true;
            stack.push((to, 0));
        }
    }
    order.reverse();
    order
}

fn flow(blocks: &[Draft]) -> Flow {
    let order = reverse_postorder(blocks);
    let mut before = vec![Vec::new(); blocks.len()];
    let mut from = order.clone();
    from.sort_unstable();
    for at in from {
        for &to in &blocks[at].next {
            if !before[to].contains(&at) {
                before[to].push(at);
            }
        }
    }
    let above = dominators(&before, &order);
    Flow { before, order, above }
}

/// Cooper, Harvey and Kennedy's way: the common dominator of what comes before, until nothing moves.
fn dominators(before: &[Vec<usize>], order: &[usize]) -> Vec<usize> {
    let mut place = vec![usize::MAX; before.len()];
    for (i, at) in order.iter().enumerate() {
        place[*at] = i;
    }
    let mut above: Vec<Option<usize>> = vec![None; before.len()];
    above[0] = Some(0);
    let mut moved = true;
    while moved {
        moved = false;
        for &at in &order[1..] {
            let known = before[at].iter().copied().filter(|p| above[*p].is_some());
            let new = known.reduce(|a, b| common(a, b, &above, &place));
            moved |= above[at] != new;
            above[at] = new;
        }
    }
    above.iter().enumerate().map(|(at, a)| a.unwrap_or(at)).collect()
}

fn common(mut a: usize, mut b: usize, above: &[Option<usize>], place: &[usize]) -> usize {
    while a != b {
        let lower = if place[a] > place[b] { &mut a } else { &mut b };
        *lower = above[*lower].unwrap_or(0);
    }
    a
}

/// For each block the joins at which what it defines meets other definitions.
fn frontiers(flow: &Flow) -> Vec<BTreeSet<usize>> {
    let mut out = vec![BTreeSet::new(); flow.above.len()];
    for &at in &flow.order {
        // As upstream counts: the call that enters the first block is nothing that comes before it.
        if flow.before[at].len() < 2 {
            continue;
        }
        for &p in &flow.before[at] {
            let mut runner = p;
            while runner != flow.above[at] {
                out[runner].insert(at);
                if runner == flow.above[runner] {
                    break;
                }
                runner = flow.above[runner];
            }
        }
    }
    out
}

fn place_phis(blocks: &mut [Draft], flow: &Flow) {
    let joins = frontiers(flow);
    for register in 0..REGISTERS as u32 {
        let defines = |d: &mut Draft| d.block.stmts.iter_mut().any(|s| s.kind.defs_mut().iter().any(|v| v.0 == register));
        let mut work: Vec<usize> = (0..blocks.len()).filter(|b| defines(&mut blocks[*b])).collect();
        let mut has = BTreeSet::new();
        while let Some(at) = work.pop() {
            for &join in &joins[at] {
                if has.insert(join) {
                    let inputs = vec![0; flow.before[join].len()];
                    blocks[join].block.phis.push(Phi { def: (register, 0), dead: false, inputs });
                    work.push(join);
                }
            }
        }
    }
}

/// The versions handed out so far, and for each register the ones that hold on the way down the tree.
struct Naming<'a> {
    flow: &'a Flow,
    below: Vec<Vec<usize>>,
    last: [u32; REGISTERS],
    current: [Vec<u32>; REGISTERS],
}

impl Naming<'_> {
    fn fresh(&mut self, register: u32, given: &mut Vec<u32>) -> u32 {
        let r = register as usize;
        self.last[r] += 1;
        self.current[r].push(self.last[r]);
        given.push(register);
        self.last[r]
    }

    fn now(&self, register: u32) -> u32 {
        *self.current[register as usize].last().unwrap_or(&0)
    }

    fn rename(&mut self, at: usize, blocks: &mut [Draft]) {
        let mut given = Vec::new();
        for p in &mut blocks[at].block.phis {
            p.def.1 = self.fresh(p.def.0, &mut given);
        }
        for s in &mut blocks[at].block.stmts {
            for e in s.kind.exprs_mut() {
                e.uses_mut(&mut |u| {
                    if let Expr::Use(register, version) = u {
                        *version = self.now(*register);
                    }
                });
            }
            for def in s.kind.defs_mut() {
                def.1 = self.fresh(def.0, &mut given);
            }
        }
        for to in blocks[at].next.clone() {
            let Some(input) = self.flow.before[to].iter().position(|p| *p == at) else { continue };
            for p in &mut blocks[to].block.phis {
                p.inputs[input] = self.now(p.def.0);
            }
        }
        for child in self.below[at].clone() {
            self.rename(child, blocks);
        }
        for register in given {
            self.current[register as usize].pop();
        }
    }
}

/// Places phis and gives every register its version.
pub fn versions(blocks: &mut [Draft]) {
    let flow = flow(blocks);
    place_phis(blocks, &flow);
    let mut below = vec![Vec::new(); blocks.len()];
    for &at in &flow.order[1..] {
        below[flow.above[at]].push(at);
    }
    let current = std::array::from_fn(|_| vec![0]);
    Naming { flow: &flow, below, last: [0; REGISTERS], current }.rename(0, blocks);
}

/// Carries copies and plain constants into their readers (upstream also folds; that changes constants only).
pub fn propagate(blocks: &mut [Draft]) {
    let mut known: BTreeMap<Value, Expr> = BTreeMap::new();
    for s in blocks.iter().flat_map(|d| &d.block.stmts) {
        if let Kind::Assign { def, value: value @ (Expr::Use(..) | Expr::Const(_)) } = &s.kind {
            // Version 0 is what unreachable blocks define: every one of them the same.
            if def.1 != 0 {
                known.insert(*def, value.clone());
            }
        }
    }
    let mut resolve = |u: &mut Expr| {
        while let Expr::Use(register, version) = u {
            match known.get(&(*register, *version)) {
                Some(e) => *u = e.clone(),
                None => break,
            }
        }
    };
    for s in blocks.iter_mut().flat_map(|d| &mut d.block.stmts) {
        for e in s.kind.exprs_mut() {
            e.uses_mut(&mut resolve);
        }
    }
}

fn read_values(blocks: &mut [Draft]) -> BTreeSet<Value> {
    let mut out = BTreeSet::new();
    for d in blocks {
        for p in d.block.phis.iter().filter(|p| !p.dead) {
            out.extend(p.inputs.iter().map(|n| (p.def.0, *n)));
        }
        for s in d.block.stmts.iter_mut().filter(|s| s.marks & mark::DEAD == 0) {
            for e in s.kind.exprs_mut() {
                e.uses_mut(&mut |u| {
                    if let Expr::Use(register, version) = u {
                        out.insert((*register, *version));
                    }
                });
            }
        }
    }
    out
}

/// Marks phis and pure definitions that nobody reads, again and again: what only dead code reads is dead.
pub fn mark_dead(blocks: &mut [Draft]) {
    let mut killed = true;
    while killed {
        killed = false;
        let read = read_values(blocks);
        for d in blocks.iter_mut() {
            for p in d.block.phis.iter_mut().filter(|p| !p.dead && !read.contains(&p.def)) {
                p.dead = true;
                killed = true;
            }
            for s in d.block.stmts.iter_mut().filter(|s| s.marks & mark::DEAD == 0) {
                // Updates of the stack pointer and loads stay: stack and memory are not followed.
                let Kind::Assign { def, value } = &s.kind else { continue };
                if def.0 != RSP && !matches!(value, Expr::Load(..)) && !read.contains(def) {
                    s.marks |= mark::DEAD;
                    killed = true;
                }
            }
        }
    }
}
