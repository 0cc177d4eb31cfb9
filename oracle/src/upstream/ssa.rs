//! SSA intermediate representation for x86 / x86-64 functions.
//!
//! Each machine instruction is lifted to IR statements over the general-purpose registers
//! (`rax = rcx + 0x10`, `*(u32 *)(rsp + 8) = rdx`, `rax = call f(...)`). The function is then put
//! into SSA form the classic way (Cytron et al.): dominators (Cooper–Harvey–Kennedy), dominance
//! frontiers, phi nodes at the iterated frontier of every register's definitions, and renaming
//! along the dominator tree, so every value has exactly one definition: `rax_3 = phi(rax_1, rax_2)`.
//!
//! On the SSA form three classic passes run:
//! * **constant propagation** — through expressions and phi nodes whose inputs agree;
//! * **copy propagation** — `rax_2 = rcx_1` makes `rax_2` an alias of `rcx_1`;
//! * **dead code** — pure definitions nobody uses are marked dead (iterated).
//!
//! Calls clobber the ABI's volatile registers (each clobber is a new, unknown version), so values
//! are never carried across a call wrongly. Memory is not modelled: loads are opaque values.

#[path = "c.rs"]
pub mod c;
pub use c::{COptions, Dsu, Gen};

/// A register family (`rax` … `r15`), numbered 0..16.
pub type Var = u8;

pub const NAMES64: [&str; 16] = ["rax", "rcx", "rdx", "rbx", "rsp", "rbp", "rsi", "rdi", "r8", "r9", "r10", "r11", "r12", "r13", "r14", "r15"];
pub const NAMES32: [&str; 8] = ["eax", "ecx", "edx", "ebx", "esp", "ebp", "esi", "edi"];
pub const RSP: Var = 4;

#[derive(Debug, Clone, PartialEq)]
pub enum Expr {
    Const(i64),
    /// A register value: (family, SSA version).
    Use(Var, u32),
    Bin(&'static str, Box<Expr>, Box<Expr>),
    Un(&'static str, Box<Expr>),
    Load(u8, Box<Expr>),
    /// A value the IR does not model (`mul` high half, `cpuid`, a clobber, …).
    Opaque(String),
}

#[derive(Debug, Clone, PartialEq)]
pub enum Kind {
    /// `def = expr`
    Assign {
        def: Var,
        ver: u32,
        expr: Expr,
    },
    Store {
        size: u8,
        addr: Expr,
        val: Expr,
    },
    Call {
        target: String,
        args: Vec<Expr>,
        ret: Option<(Var, u32)>,
        clobbers: Vec<(Var, u32)>,
    },
    /// `target`: a direct jump's destination (a jump out of the function is a tail call).
    Branch {
        cond: Option<String>,
        uses: Vec<Expr>,
        target: Option<u64>,
    },
    Return {
        val: Option<Expr>,
    },
    /// `cmp a, b` / `test a, b`: sets the flags a conditional branch reads.
    Flags {
        test: bool,
        a: Expr,
        b: Expr,
    },
    /// Anything else: its text, the registers it reads and the ones it writes (as opaque values).
    Other {
        text: String,
        uses: Vec<Expr>,
        defs: Vec<(Var, u32)>,
    },
}

#[derive(Debug, Clone, PartialEq)]
pub struct Stmt {
    pub address: u64,
    pub kind: Kind,
    pub dead: bool,
    /// The instruction sets the condition flags (the last flag setter feeds a conditional branch).
    pub flags: bool,
    /// The store half of a `push` (32-bit call arguments).
    pub push: bool,
}

#[derive(Debug, Clone, PartialEq)]
pub struct Phi {
    pub var: Var,
    pub ver: u32,
    /// (predecessor block, version flowing in)
    pub args: Vec<(u64, u32)>,
    pub dead: bool,
}

#[derive(Debug, Clone, Default, PartialEq)]
pub struct Block {
    pub start: u64,
    pub phis: Vec<Phi>,
    pub stmts: Vec<Stmt>,
    /// Branch target (taken / unconditional edge) and fall-through successor.
    pub taken: Option<u64>,
    pub fall: Option<u64>,
}

/// A function in SSA form.
#[derive(Debug, Clone, Default, PartialEq)]
pub struct SsaFunction {
    pub blocks: Vec<Block>,
    pub bits: u32,
}

impl Expr {
    pub(crate) fn uses(&self, out: &mut Vec<(Var, u32)>) {
        match self {
            Expr::Use(v, n) => out.push((*v, *n)),
            Expr::Bin(_, a, b) => {
                a.uses(out);
                b.uses(out);
            }
            Expr::Un(_, a) | Expr::Load(_, a) => a.uses(out),
            Expr::Const(_) | Expr::Opaque(_) => {}
        }
    }
}

impl Kind {
    pub(crate) fn exprs<'a>(&'a self, f: &mut dyn FnMut(&'a Expr)) {
        match self {
            Kind::Assign { expr, .. } => f(expr),
            Kind::Store { addr, val, .. } => {
                f(addr);
                f(val);
            }
            Kind::Call { args, .. } => args.iter().for_each(f),
            Kind::Branch { uses, .. } | Kind::Other { uses, .. } => uses.iter().for_each(f),
            Kind::Flags { a, b, .. } => {
                f(a);
                f(b);
            }
            Kind::Return { val } => {
                if let Some(v) = val {
                    f(v)
                }
            }
        }
    }

    pub(crate) fn defs_mut(&mut self, f: &mut dyn FnMut(&mut Var, &mut u32)) {
        match self {
            Kind::Assign { def, ver, .. } => f(def, ver),
            Kind::Call { ret, clobbers, .. } => {
                if let Some((v, n)) = ret {
                    f(v, n);
                }
                for (v, n) in clobbers {
                    f(v, n);
                }
            }
            Kind::Other { defs, .. } => defs.iter_mut().for_each(|(v, n)| f(v, n)),
            _ => {}
        }
    }

    pub(crate) fn uses(&self) -> Vec<(Var, u32)> {
        let mut out = Vec::new();
        self.exprs(&mut |e| e.uses(&mut out));
        out
    }
}
