//! Profile `jumps`: skeletons of labels and jumps with few statements between, so that the structuring passes
//! form many regions, nest them deeply and give up for each of their reasons.

use super::builder::{bin, fits, load, Block, Expr, Function, Kind};
use super::rng::Rng;
use super::CONDITIONS;
use crate::records::{mark, Records};

/// A place in the skeleton; labels are numbers.
#[derive(Clone, Copy, PartialEq)]
enum Item {
    Plain,
    Label(usize),
    Cond(usize),
    Goto(usize),
    Return,
    Computed,
}

use Item::{Computed, Cond, Goto, Label, Plain, Return};

/// A skeleton in the making, and the number of labels it has.
struct Skeleton<'a> {
    rng: &'a mut Rng,
    items: Vec<Item>,
    labels: usize,
}

pub fn records(rng: &mut Rng) -> Records {
    let mut size = if rng.one_in(250) { rng.range(150, 700) } else { rng.range(2, 26) };
    loop {
        let mut s = Skeleton { rng, items: Vec::new(), labels: 0 };
        s.draw(size);
        let records = s.function().records();
        if fits(&records) {
            return records;
        }
        size /= 2;
    }
}

impl Skeleton<'_> {
    fn draw(&mut self, size: usize) {
        match self.rng.below(20) {
            0..=5 => self.scatter(size),
            6..=12 => self.nest(size, &[]),
            13 | 14 => self.tower(size / 2),
            15 => self.crawl(size / 6),
            _ => self.intervals(size / 2),
        }
        let spoilt = if self.rng.coin() { 0 } else { self.rng.range(1, 3) };
        for _ in 0..spoilt {
            self.spoil();
        }
    }

    fn label(&mut self) -> usize {
        self.labels += 1;
        self.labels - 1
    }

    fn plain(&mut self) {
        if !self.rng.one_in(3) {
            self.items.push(Plain);
        }
    }

    /// Labels in a row, each with a few jumps to any of them or to nowhere.
    fn scatter(&mut self, size: usize) {
        self.labels = size / 2 + 1;
        for l in 0..self.labels {
            self.items.push(Label(l));
            for _ in 0..self.rng.below(4) {
                let to = self.rng.below(self.labels + 1);
                self.items.push(match self.rng.below(12) {
                    0..=4 => Plain,
                    5..=9 => Cond(to),
                    10 => Goto(to),
                    _ => self.rng.pick(&[Return, Computed]),
                });
            }
        }
    }

    /// Well nested ifs and loops, with a jump to something around them now and then.
    fn nest(&mut self, size: usize, around: &[usize]) {
        let mut left = size;
        while left > 0 {
            let inner = self.rng.below(left);
            self.region(inner, around);
            left -= inner + 1;
        }
    }

    fn region(&mut self, size: usize, around: &[usize]) {
        let (a, b) = (self.label(), self.label());
        let mut inside = around.to_vec();
        inside.extend([a, b]);
        match self.rng.below(12) {
            0..=3 => self.framed(&[Cond(a)], size, &inside, &[Label(a)]),
            4..=6 => self.framed(&[Label(a)], size, &inside, &[Cond(a)]),
            7 => self.framed(&[Label(b), Cond(a)], size, &inside, &[Goto(b), Label(a)]),
            8 => {
                self.framed(&[Cond(a)], size / 2, &inside, &[Goto(b), Label(a)]);
                self.framed(&[], size / 2, &inside, &[Label(b)]);
            }
            9 => self.framed(&[Label(a)], size, &inside, &[Goto(a)]),
            10 if !around.is_empty() => {
                let to = self.rng.pick(around);
                self.items.push(Cond(to));
                self.nest(size, around);
            }
            _ => {
                self.plain();
                self.nest(size, around);
            }
        }
    }

    fn framed(&mut self, before: &[Item], size: usize, inside: &[usize], after: &[Item]) {
        self.items.extend(before);
        self.plain();
        self.nest(size, inside);
        self.items.extend(after);
        self.plain();
    }

    /// One region in another, down to the last: ifs, loops, or both by turns.
    fn tower(&mut self, depth: usize) {
        let style = self.rng.below(4);
        let mut ends = Vec::new();
        for _ in 0..depth {
            let l = self.label();
            let loops = match style {
                0 => false,
                1 => true,
                _ => self.rng.coin(),
            };
            let (head, end) = if loops { (Label(l), Cond(l)) } else { (Cond(l), Label(l)) };
            self.items.push(head);
            ends.push(end);
            if style == 3 {
                self.plain();
            }
        }
        self.plain();
        self.items.extend(ends.into_iter().rev());
        self.plain();
    }

    /// Ifs that a jump from below into all of them forbids, then ifs that can be formed: upstream looks at the
    /// former again after each of the latter, which is its slowest way through a file.
    fn crawl(&mut self, count: usize) {
        let entered = self.label();
        let outer: Vec<usize> = (0..count).map(|_| self.label()).collect();
        self.items.extend(outer.iter().map(|l| Cond(*l)));
        self.items.extend([Plain, Label(entered), Plain]);
        self.items.extend(outer.iter().rev().map(|l| Label(*l)));
        self.items.push(Goto(entered));
        for _ in 0..count {
            let l = self.label();
            self.items.extend([Cond(l), Plain, Label(l)]);
        }
    }

    /// Jumps over stretches that nest, cross or share an end.
    fn intervals(&mut self, jumps: usize) {
        let mut at: Vec<(usize, Item)> = (0..2 * jumps).map(|p| (p, Plain)).collect();
        for _ in 0..jumps {
            let l = self.label();
            let (from, to) = (self.rng.below(2 * jumps), self.rng.below(2 * jumps));
            at.push((to, Label(l)));
            at.push((from, Cond(l)));
            if self.rng.one_in(6) {
                at.push((self.rng.below(2 * jumps), Goto(l)));
            }
        }
        // Stable: what stands at one place keeps the order it was drawn in.
        at.sort_by_key(|(p, _)| *p);
        self.items = at.into_iter().map(|(_, item)| item).collect();
        let kept = self.rng.range(1, 4);
        let mut count = 0;
        self.items.retain(|i| {
            count += 1;
            *i != Plain || count % kept == 0
        });
    }

    /// Breaks the shape in one place: a second jump to a head, a jump into a body, a label gone.
    fn spoil(&mut self) {
        if self.items.is_empty() || self.labels == 0 {
            return;
        }
        let (at, to) = (self.rng.below(self.items.len()), self.rng.below(self.labels));
        match self.rng.below(6) {
            0 => self.items.insert(at, Goto(to)),
            1 => self.items.insert(at, Cond(to)),
            2 => drop(self.items.remove(at)),
            3 => {
                let other = self.rng.below(self.items.len());
                self.items.swap(at, other);
            }
            4 => self.items[at] = Cond(to),
            _ => self.items.insert(at, Return),
        }
    }

    // From the skeleton to blocks.

    /// Where each label's block starts; a label that stands nowhere lies outside the function.
    fn starts(&mut self) -> Vec<u64> {
        let mut order: Vec<u64> = (0..self.labels as u64 + 1).collect();
        if self.rng.one_in(8) {
            self.rng.shuffle(&mut order);
        }
        order.into_iter().map(|n| 0x1000 + 0x10 * n).collect()
    }

    /// What sets the flags of a block, if anything.
    fn setter(&mut self) -> Option<Kind> {
        let (a, b) = (Expr::Use(7, 0), Expr::Const(self.rng.below(20) as i64 - 5));
        let op = self.rng.pick(&["+", "==", "<", "&&", "(", ">>s"]);
        Some(match self.rng.below(10) {
            0..=2 => Kind::Flags { test: false, a, b },
            3 => Kind::Flags { test: true, a: a.clone(), b: a },
            4 => Kind::Flags { test: true, a, b },
            5 => Kind::Flags { test: false, a: bin(op, a, b), b: Expr::Use(6, 0) },
            6 => Kind::Flags { test: false, a, b: bin(op, Expr::Use(6, 0), b) },
            7 => Kind::Flags { test: false, a: load(4, Expr::Const(0x2000)), b },
            _ => return None,
        })
    }

    fn statement(&mut self, item: Item, starts: &[u64]) -> Kind {
        let cond = self.rng.pick(&CONDITIONS);
        let to = |l: usize| Some(*starts.get(l).unwrap_or(&0x9000));
        match item {
            Cond(l) => Kind::Branch { cond: Some(cond.into()), target: to(l), uses: Vec::new() },
            Goto(l) => Kind::Branch { cond: None, target: to(l), uses: Vec::new() },
            Return => Kind::Return { value: None },
            Computed => Kind::Branch { cond: None, target: None, uses: vec![load(8, Expr::Const(0x2000))] },
            Plain | Label(_) => match self.rng.below(3) {
                0 => Kind::Other { text: "nop".into(), uses: Vec::new(), defs: Vec::new() },
                1 => Kind::Store { size: 4, address: Expr::Const(0x3000), value: Expr::Use(7, 0) },
                _ => Kind::Call { target: "sub_4000".into(), args: Vec::new(), ret: None, clobbers: Vec::new() },
            },
        }
    }

    /// One block a label, each jump with its own target: a block may then have many.
    fn blocks(&mut self) -> Vec<Block> {
        let starts = self.starts();
        let mut blocks = vec![Block::at(0xF00)];
        let mut placed = Vec::new();
        for item in std::mem::take(&mut self.items) {
            let at = blocks.len() - 1;
            match item {
                // A label stands once; spoiling may have doubled it.
                Label(l) if placed.contains(&l) => {}
                Label(l) => {
                    placed.push(l);
                    blocks.push(Block::at(starts[l]));
                    if let Some(kind) = self.setter() {
                        blocks[at + 1].push(mark::FLAGS, kind);
                    }
                }
                _ => {
                    let kind = self.statement(item, &starts);
                    blocks[at].push(0, kind);
                }
            }
        }
        blocks
    }

    /// Ends a block behind each jump, with edges in place of targets, as a lifter has it.
    fn split(&mut self, blocks: Vec<Block>) -> Vec<Block> {
        let mut out: Vec<Block> = Vec::new();
        for block in blocks {
            out.push(Block::at(block.start));
            for (k, s) in block.stmts.into_iter().enumerate() {
                let at = out.len() - 1;
                let Kind::Branch { cond, target: Some(target), .. } = &s.kind else {
                    out[at].stmts.push(s);
                    continue;
                };
                let falls = cond.is_some();
                out[at].taken = Some(*target);
                out[at].stmts.push(s);
                let start = (block.start << 16) + k as u64 + 1;
                out[at].fall = falls.then_some(start);
                out.push(Block::at(start));
                if let Some(kind) = self.setter() {
                    out[at + 1].push(mark::FLAGS, kind);
                }
            }
        }
        out
    }

    /// Lets blocks without an edge fall into the next one; `astray`, some fall elsewhere.
    fn fall(&mut self, blocks: &mut [Block], astray: bool) {
        let starts: Vec<u64> = blocks.iter().map(|b| b.start).collect();
        for (i, b) in blocks.iter_mut().enumerate() {
            if astray && self.rng.one_in(12) {
                b.fall = Some(self.rng.pick(&starts));
            } else if b.fall.is_none() && b.taken.is_none() {
                b.fall = starts.get(i + 1).copied();
            }
        }
    }

    fn function(mut self) -> Function {
        let mut blocks = self.blocks();
        if self.rng.coin() {
            blocks = self.split(blocks);
        }
        match self.rng.below(3) {
            0 => {}
            1 => self.fall(&mut blocks, true),
            _ => self.fall(&mut blocks, false),
        }
        let mut f = Function { bits: 64, args: vec![7, 6], blocks, ..Function::default() };
        let name = self.rng.pick(&["", "", "counter", "a && b", "loc_1010", "loc_1020"]);
        if !name.is_empty() {
            f.names.insert(0x2000, name.into());
        }
        f
    }
}
