//! A function as a small tree, and its numbering into the records of a file: expressions children first,
//! lists in their owners' order, text pooled.

use std::collections::BTreeMap;

use crate::records::{kind, split, tag, Records, FILE_MOST, SECTIONS};

/// A register and a version.
pub type Value = (u32, u32);

#[derive(Debug, Clone, PartialEq, Eq)]
pub enum Expr {
    Const(i64),
    Use(u32, u32),
    Bin(String, Box<Expr>, Box<Expr>),
    Un(String, Box<Expr>),
    Load(u32, Box<Expr>),
    Opaque(String),
}

pub fn bin(op: &str, a: Expr, b: Expr) -> Expr {
    Expr::Bin(op.into(), Box::new(a), Box::new(b))
}

pub fn un(op: &str, a: Expr) -> Expr {
    Expr::Un(op.into(), Box::new(a))
}

pub fn load(size: u32, address: Expr) -> Expr {
    Expr::Load(size, Box::new(address))
}

impl Expr {
    /// The value as read.
    pub fn of(value: Value) -> Expr {
        Expr::Use(value.0, value.1)
    }

    /// Every value read, from left to right.
    pub fn uses_mut(&mut self, f: &mut dyn FnMut(&mut Expr)) {
        match self {
            Expr::Use(..) => f(self),
            Expr::Bin(_, a, b) => {
                a.uses_mut(f);
                b.uses_mut(f);
            }
            Expr::Un(_, a) | Expr::Load(_, a) => a.uses_mut(f),
            Expr::Const(_) | Expr::Opaque(_) => {}
        }
    }
}

#[derive(Debug, Clone, PartialEq, Eq)]
pub enum Kind {
    Assign { def: Value, value: Expr },
    Store { size: u32, address: Expr, value: Expr },
    Call { target: String, args: Vec<Expr>, ret: Option<Value>, clobbers: Vec<Value> },
    Branch { cond: Option<String>, target: Option<u64>, uses: Vec<Expr> },
    Flags { test: bool, a: Expr, b: Expr },
    Return { value: Option<Expr> },
    Other { text: String, uses: Vec<Expr>, defs: Vec<Value> },
}

impl Kind {
    /// The expressions of the statement, in the order of the file.
    pub fn exprs_mut(&mut self) -> Vec<&mut Expr> {
        match self {
            Kind::Assign { value, .. } => vec![value],
            Kind::Store { address, value, .. } => vec![address, value],
            Kind::Call { args, .. } => args.iter_mut().collect(),
            Kind::Branch { uses, .. } | Kind::Other { uses, .. } => uses.iter_mut().collect(),
            Kind::Flags { a, b, .. } => vec![a, b],
            Kind::Return { value } => value.iter_mut().collect(),
        }
    }

    /// The values the statement defines.
    pub fn defs_mut(&mut self) -> Vec<&mut Value> {
        match self {
            Kind::Assign { def, .. } => vec![def],
            Kind::Call { ret, clobbers, .. } => ret.iter_mut().chain(clobbers).collect(),
            Kind::Other { defs, .. } => defs.iter_mut().collect(),
            _ => Vec::new(),
        }
    }
}

#[derive(Debug, Clone, PartialEq, Eq)]
pub struct Stmt {
    pub address: u64,
    pub marks: u32,
    pub kind: Kind,
}

#[derive(Debug, Clone, PartialEq, Eq)]
pub struct Phi {
    pub def: Value,
    pub dead: bool,
    pub inputs: Vec<u32>,
}

#[derive(Debug, Clone, Default, PartialEq, Eq)]
pub struct Block {
    pub start: u64,
    pub taken: Option<u64>,
    pub fall: Option<u64>,
    pub phis: Vec<Phi>,
    pub stmts: Vec<Stmt>,
}

impl Block {
    pub fn at(start: u64) -> Block {
        Block { start, ..Block::default() }
    }

    /// Adds a statement at the block's start plus the number of statements before it.
    pub fn push(&mut self, marks: u32, kind: Kind) {
        let address = self.start.wrapping_add(self.stmts.len() as u64);
        self.stmts.push(Stmt { address, marks, kind });
    }
}

#[derive(Debug, Clone, Default, PartialEq, Eq)]
pub struct Function {
    pub bits: u32,
    pub returns: bool,
    pub args: Vec<u32>,
    pub blocks: Vec<Block>,
    pub names: BTreeMap<u64, String>,
    /// Text that stands first in the pool, referred to or not.
    pub text: String,
}

impl Function {
    /// The function as the records of a file of edition 1.
    pub fn records(&self) -> Records {
        let mut n = Numbering(Records {
            edition: 1,
            bits: self.bits,
            returns: u32::from(self.returns),
            args: self.args.clone(),
            text: self.text.clone().into_bytes(),
            ..Records::default()
        });
        for block in &self.blocks {
            n.block(block);
        }
        for (address, name) in &self.names {
            let ([low, high], [start, length]) = (split(*address), n.text(name));
            n.0.names.push([low, high, start, length]);
        }
        n.0
    }
}

/// Whether the records keep to every count and to the size of a file.
pub fn fits(records: &Records) -> bool {
    let counts = records.counts();
    let within = SECTIONS.iter().zip(counts).all(|(s, n)| n <= s.most as usize);
    within && size(records) <= FILE_MOST
}

/// The bytes the file will have.
pub fn size(records: &Records) -> usize {
    let bodies = SECTIONS.iter().zip(records.counts()).map(|(s, n)| n * (s.words * 4).max(1));
    crate::records::CONTENTS * 4 + bodies.sum::<usize>()
}

/// Records in the making.
struct Numbering(Records);

impl Numbering {
    /// Start and length of a text: where the pool has it already, else behind the pool.
    fn text(&mut self, text: &str) -> [u32; 2] {
        let (pool, text) = (&mut self.0.text, text.as_bytes());
        let known = if text.is_empty() { Some(0) } else { pool.windows(text.len()).position(|w| w == text) };
        let start = known.unwrap_or(pool.len());
        if known.is_none() {
            pool.extend(text);
        }
        [start as u32, text.len() as u32]
    }

    fn expr(&mut self, e: &Expr) -> u32 {
        let record = match e {
            Expr::Const(c) => {
                let [low, high] = split(*c as u64);
                [tag::CONST, low, high, 0, 0]
            }
            Expr::Use(register, version) => [tag::USE, *register, *version, 0, 0],
            Expr::Bin(op, a, b) => {
                let (a, b) = (self.expr(a), self.expr(b));
                let [start, length] = self.text(op);
                [tag::BIN, start, length, a, b]
            }
            Expr::Un(op, a) => {
                let a = self.expr(a);
                let [start, length] = self.text(op);
                [tag::UN, start, length, a, 0]
            }
            Expr::Load(size, a) => [tag::LOAD, *size, self.expr(a), 0, 0],
            Expr::Opaque(text) => {
                let [start, length] = self.text(text);
                [tag::OPAQUE, start, length, 0, 0]
            }
        };
        self.0.expressions.push(record);
        self.0.expressions.len() as u32 - 1
    }

    fn exprs(&mut self, list: &[Expr]) -> u32 {
        for e in list {
            let item = [self.expr(e), 0];
            self.0.lists.push(item);
        }
        list.len() as u32
    }

    fn values(&mut self, list: &[Value]) -> u32 {
        self.0.lists.extend(list.iter().map(|(register, version)| [*register, *version]));
        list.len() as u32
    }

    /// The kind's number and its seven fields.
    fn kind(&mut self, k: &Kind) -> (u32, [u32; 7]) {
        match k {
            Kind::Assign { def, value } => (kind::ASSIGN, [def.0, def.1, self.expr(value), 0, 0, 0, 0]),
            Kind::Store { size, address, value } => {
                let (address, value) = (self.expr(address), self.expr(value));
                (kind::STORE, [*size, address, value, 0, 0, 0, 0])
            }
            Kind::Call { target, args, ret, clobbers } => {
                let [start, length] = self.text(target);
                let (args, clobbers) = (self.exprs(args), self.values(clobbers));
                let (register, version) = ret.unwrap_or((0, 0));
                (kind::CALL, [start, length, args, u32::from(ret.is_some()), register, version, clobbers])
            }
            Kind::Branch { cond, target, uses } => {
                let [start, length] = cond.as_ref().map_or([0, 0], |c| self.text(c));
                let [low, high] = split(target.unwrap_or(0));
                let (cond, target) = (u32::from(cond.is_some()), u32::from(target.is_some()));
                (kind::BRANCH, [cond, start, length, target, low, high, self.exprs(uses)])
            }
            Kind::Flags { test, a, b } => {
                let (a, b) = (self.expr(a), self.expr(b));
                (kind::FLAGS, [u32::from(*test), a, b, 0, 0, 0, 0])
            }
            Kind::Return { value } => {
                let expr = value.as_ref().map_or(0, |e| self.expr(e));
                (kind::RETURN, [u32::from(value.is_some()), expr, 0, 0, 0, 0, 0])
            }
            Kind::Other { text, uses, defs } => {
                let [start, length] = self.text(text);
                let (uses, defs) = (self.exprs(uses), self.values(defs));
                (kind::OTHER, [start, length, uses, defs, 0, 0, 0])
            }
        }
    }

    fn stmt(&mut self, s: &Stmt) {
        let [low, high] = split(s.address);
        let (number, [a, b, c, d, e, f, g]) = self.kind(&s.kind);
        self.0.statements.push([low, high, s.marks, number, a, b, c, d, e, f, g]);
    }

    fn block(&mut self, b: &Block) {
        let edge = |e: Option<u64>| {
            let [low, high] = split(e.unwrap_or(0));
            [u32::from(e.is_some()), low, high]
        };
        let ([low, high], [ht, tl, th], [hf, fl, fh]) = (split(b.start), edge(b.taken), edge(b.fall));
        let (phis, stmts) = (b.phis.len() as u32, b.stmts.len() as u32);
        self.0.blocks.push([low, high, ht, tl, th, hf, fl, fh, phis, stmts]);
        for p in &b.phis {
            self.0.phis.push([p.def.0, p.def.1, u32::from(p.dead), p.inputs.len() as u32]);
            self.0.inputs.extend(&p.inputs);
        }
        for s in &b.stmts {
            self.stmt(s);
        }
    }
}
