//! Profile `random`: any valid file. Checks 2 to 6 hold by construction; all the rest is drawn, expressions stand
//! in any order that has children lower, and texts share and overlap.

use super::builder::{bin, fits, load, un, Block, Expr, Function, Kind, Phi, Value};
use super::odd::{OPERATORS, PREFIXES, TEXTS};
use super::order::renumber;
use super::rng::Rng;
use super::values::Values;
use super::CONDITIONS;
use crate::records::{mark, Records};

struct Random<'a> {
    rng: &'a mut Rng,
    values: Values,
    pool: String,
    starts: Vec<u64>,
    /// Expressions still to be drawn; what comes after is leaves.
    left: usize,
    /// Whether stack addresses may lie far out, which gives 7: in most files the checks behind shall be met.
    far: bool,
}

pub fn records(rng: &mut Rng) -> Records {
    let mut scale = if rng.one_in(100) { rng.range(20, 300) } else { rng.range(1, 12) };
    loop {
        let function = if rng.one_in(12) { expansion(rng) } else { Random::new(rng, scale).function() };
        let mut records = function.records();
        if fits(&records) {
            renumber(&mut records, rng);
            return records;
        }
        scale /= 2;
    }
}

impl<'a> Random<'a> {
    fn new(rng: &'a mut Rng, scale: usize) -> Random<'a> {
        let length = rng.size(0, 40 * scale);
        let pool = (0..length).map(|_| char::from(rng.range(0x20, 0x7E) as u8)).collect();
        let mut r = Random { values: Values::new(rng.coin()), pool, starts: Vec::new(), left: 8 * scale, far: rng.one_in(10), rng };
        for _ in 0..r.rng.below(scale + 1) {
            let start = r.address();
            // The next free start: equal ones would be refused.
            let free = (0..).map(|k| start.wrapping_add(k)).find(|s| !r.starts.contains(s));
            r.starts.extend(free);
        }
        r
    }

    fn function(mut self) -> Function {
        let per_block = self.rng.range(1, 8);
        let blocks = self.starts.clone().into_iter().map(|s| self.block(s, per_block)).collect();
        let mut args: Vec<u32> = (0..16).filter(|r| *r != 4).collect();
        self.rng.shuffle(&mut args);
        args.truncate(self.rng.below(16));
        let mut names = std::collections::BTreeMap::new();
        for _ in 0..self.rng.size(0, 2 * self.starts.len() + 2) {
            let (address, name) = (self.address(), self.word());
            names.insert(address, name);
        }
        Function { bits: self.rng.pick(&[32, 64]), returns: self.rng.coin(), args, blocks, names, text: self.pool }
    }

    fn block(&mut self, start: u64, most: usize) -> Block {
        let mut b = Block::at(start);
        b.taken = self.rng.coin().then(|| self.destination());
        b.fall = self.rng.coin().then(|| self.destination());
        for _ in 0..self.rng.size(0, 3) {
            let inputs = (0..self.rng.below(4)).map(|_| self.values.read(self.rng).1).collect();
            b.phis.push(Phi { def: self.values.define(self.rng), dead: self.rng.coin(), inputs });
        }
        for _ in 0..self.rng.below(most + 1) {
            let marks = if self.rng.coin() { 0 } else { self.rng.below(8) as u32 };
            b.push(marks, self.kind());
        }
        b
    }

    fn address(&mut self) -> u64 {
        match self.rng.below(4) {
            0 => self.rng.word(),
            1 => self.rng.below(0x2000) as u64,
            2 => self.rng.word() >> self.rng.below(64),
            _ => 0x1000 + 0x10 * self.rng.below(40) as u64,
        }
    }

    fn destination(&mut self) -> u64 {
        if self.rng.one_in(4) {
            self.address()
        } else {
            self.rng.pick(&self.starts)
        }
    }

    /// Some stretch of the pool, perhaps an empty one.
    fn text(&mut self) -> String {
        let from = self.rng.below(self.pool.len() + 1);
        let length = self.rng.size(0, (self.pool.len() - from).min(40));
        self.pool[from..from + length].to_string()
    }

    /// A text of at least one byte.
    fn word(&mut self) -> String {
        let text = self.text();
        if text.is_empty() {
            self.rng.pick(&["x", "loc_1000", "s", "==", " "]).into()
        } else {
            text
        }
    }

    fn number(&mut self) -> i64 {
        match self.rng.below(4) {
            0 => self.rng.below(20) as i64 - 10,
            1 => self.address() as i64,
            2 => (self.rng.word() >> self.rng.below(64)) as i64,
            _ => -((self.rng.word() >> self.rng.range(1, 63)) as i64),
        }
    }

    fn expr(&mut self) -> Expr {
        let more = usize::from(self.left > 0);
        self.left = self.left.saturating_sub(1);
        match self.rng.weighted(&[1, 1, more, more, more, 1]) {
            0 => Expr::Const(self.number()),
            1 => self.read(),
            2 => self.two(),
            3 => {
                let op = if self.rng.coin() { self.rng.pick(&PREFIXES).into() } else { self.word() };
                un(&op, self.expr())
            }
            4 => load(self.rng.below(256) as u32, self.expr()),
            _ => Expr::Opaque(self.text()),
        }
    }

    /// Any value; the stack pointer on entry more often than it would come by itself.
    fn read(&mut self) -> Expr {
        if self.rng.one_in(6) {
            Expr::Use(4, 0)
        } else {
            Expr::of(self.values.read(self.rng))
        }
    }

    fn two(&mut self) -> Expr {
        let op = if self.rng.coin() { self.rng.pick(&OPERATORS).into() } else { self.word() };
        let (a, b) = (self.expr(), self.expr());
        match (&a, &b) {
            (Expr::Use(..), Expr::Const(_)) if !self.far => bin(&op, a, Expr::Const(self.rng.below(100) as i64)),
            (Expr::Use(..), _) if self.far => {
                let op = self.rng.pick(&["+", "-"]);
                let most = self.rng.pick(&[i64::MIN, i64::MIN, i64::MAX]);
                bin(op, bin(op, a, Expr::Const(most)), b)
            }
            _ => bin(&op, a, b),
        }
    }

    fn exprs(&mut self) -> Vec<Expr> {
        (0..self.rng.size(0, 4)).map(|_| self.expr()).collect()
    }

    fn defs(&mut self) -> Vec<Value> {
        (0..self.rng.size(0, 4)).map(|_| self.values.loosely(self.rng)).collect()
    }

    fn kind(&mut self) -> Kind {
        match self.rng.below(7) {
            0 => Kind::Assign { value: self.expr(), def: self.values.define(self.rng) },
            1 => Kind::Store { size: self.rng.below(256) as u32, address: self.expr(), value: self.expr() },
            2 => self.call(),
            3 => self.branch(),
            4 => Kind::Flags { test: self.rng.coin(), a: self.expr(), b: self.expr() },
            5 => Kind::Return { value: self.rng.coin().then(|| self.expr()) },
            _ => Kind::Other { text: self.text(), uses: self.exprs(), defs: self.defs() },
        }
    }

    fn call(&mut self) -> Kind {
        let mut args = self.exprs();
        let target = if self.rng.one_in(4) { "[".to_string() + &self.text() } else { self.text() };
        if target.starts_with('[') && args.is_empty() {
            args.push(self.expr());
        }
        let ret = self.rng.coin().then(|| self.values.loosely(self.rng));
        Kind::Call { target, args, ret, clobbers: self.defs() }
    }

    fn branch(&mut self) -> Kind {
        let cond = match self.rng.below(8) {
            0 => Some(self.text()),
            1..=5 => Some(self.rng.pick(&CONDITIONS).to_string()),
            _ => None,
        };
        let target = self.rng.coin().then(|| self.destination());
        Kind::Branch { cond, target, uses: self.exprs() }
    }
}

/// A value written in place that dead statements read many times, printed by many branches or by a call that
/// takes them as pushes: a short file whose listing is long, often too long.
fn expansion(rng: &mut Rng) -> Function {
    let mut block = Block::at(0x1000);
    let value = chain(rng, &mut block);
    let mut many = value.clone();
    for _ in 1..short_or_long(rng, 40) {
        many = bin("|", many, value.clone());
    }
    let bits = rng.pick(&[32, 64]);
    if rng.coin() {
        block.push(mark::DEAD | mark::FLAGS, Kind::Flags { test: rng.coin(), a: many, b: Expr::Const(0) });
        for _ in 0..rng.size(1, 120) {
            let cond = Some(rng.pick(&["e", "ne", "s", "l", "b", "o"]).into());
            block.push(0, Kind::Branch { cond, target: Some(0x1000), uses: Vec::new() });
        }
    } else {
        for _ in 0..rng.range(1, 6) {
            block.push(mark::DEAD | mark::PUSH, Kind::Store { size: 4, address: Expr::Use(4, 0), value: many.clone() });
        }
        block.push(0, Kind::Call { target: "sub_2000".into(), args: Vec::new(), ret: None, clobbers: Vec::new() });
    }
    block.push(0, Kind::Return { value: Some(value) });
    Function { bits, returns: rng.coin(), blocks: vec![block], ..Function::default() }
}

/// A few, or nearly the most.
fn short_or_long(rng: &mut Rng, most: usize) -> usize {
    if rng.one_in(3) {
        rng.range(most / 2, most)
    } else {
        rng.size(1, most)
    }
}

/// Assigns each read by the next; the value of the last.
fn chain(rng: &mut Rng, block: &mut Block) -> Expr {
    let (leaves, long) = (rng.size(1, 60), "long ".repeat(short_or_long(rng, 300)));
    let mut value = Expr::Opaque(long);
    for link in 1..=rng.size(1, 8) as u32 {
        for _ in 0..leaves {
            value = if rng.one_in(8) { load(rng.pick(&[1, 2, 4, 8]), value) } else { bin(rng.pick(&OPERATORS), value, leaf(rng)) };
        }
        block.push(0, Kind::Assign { def: (3, link), value });
        value = Expr::Use(3, link);
    }
    value
}

fn leaf(rng: &mut Rng) -> Expr {
    match rng.below(3) {
        0 => Expr::Const(rng.below(1000) as i64),
        1 => Expr::Use(rng.below(16) as u32, 0),
        _ => Expr::Opaque(rng.pick(&TEXTS).into()),
    }
}
