//! The instructions, lifted as upstream lifts them: operands, arithmetic, moves, calls with pushes or argument registers.

use super::{Lifter, RAX, RBP, RCX, RDX, RSP};
use crate::gen::builder::{bin, load, un, Expr, Kind, Value};
use crate::records::mark;

impl Lifter<'_> {
    fn reg(&mut self) -> u32 {
        self.rng.pick(&self.work)
    }

    pub(super) fn read(&mut self) -> Expr {
        Expr::Use(self.reg(), 0)
    }

    fn number(&mut self) -> i64 {
        match self.rng.below(6) {
            0 => 0,
            1 => self.rng.range(1, 16) as i64,
            2 => -(self.rng.range(1, 16) as i64),
            3 => (1 << self.rng.below(31)) - 1,
            4 => self.rng.word() as u32 as i32 as i64,
            _ => self.rng.below(0x2000) as i64,
        }
    }

    fn width(&mut self) -> u32 {
        let word = self.word() as u32;
        self.rng.pick(&[word, word, 4, 4, 1, 2])
    }

    fn slot(&mut self) -> Expr {
        let d = self.word() * self.rng.range(0, 10) as i64;
        match (self.frame && self.rng.one_in(4), d) {
            (true, _) if self.rng.coin() => bin("-", Expr::Use(RBP, 0), Expr::Const(d + self.word())),
            (true, _) => bin("+", Expr::Use(RBP, 0), Expr::Const(d + 2 * self.word())),
            (false, 0) => Expr::Use(RSP, 0),
            (false, _) => bin("+", Expr::Use(RSP, 0), Expr::Const(d)),
        }
    }

    fn pointer(&mut self) -> Expr {
        let mut e = self.read();
        if self.rng.one_in(3) {
            let scale = self.rng.pick(&[1, 2, 4, 8]);
            let index = self.read();
            let scaled = if scale == 1 { index } else { bin("*", index, Expr::Const(scale)) };
            e = bin("+", e, scaled);
        }
        match self.number() {
            0 => e,
            d => bin(if d < 0 { "-" } else { "+" }, e, Expr::Const(d.abs())),
        }
    }

    fn memory(&mut self) -> Expr {
        match self.rng.below(5) {
            0 | 1 => self.slot(),
            2 | 3 => self.pointer(),
            _ => Expr::Const(self.rng.pick(&self.globals) as i64),
        }
    }

    pub(super) fn loaded(&mut self) -> Expr {
        let size = self.width();
        load(size, self.memory())
    }

    fn operand(&mut self) -> Expr {
        match self.rng.below(8) {
            0..=3 => self.read(),
            4 | 5 => Expr::Const(self.number()),
            6 => self.loaded(),
            _ => Expr::Opaque(self.rng.pick(&["xmm0", "fs", "ah", "?"]).into()),
        }
    }

    fn arithmetic(&mut self) {
        let r = self.reg();
        let me = Expr::Use(r, 0);
        let op = self.rng.pick(&["+", "-", "&", "|", "^", "<<", ">>", ">>s", "*"]);
        let value = match self.rng.below(8) {
            0 => un("-", me),
            1 => un("~", me),
            2 => bin("+", me, Expr::Const(1)),
            3 => bin("-", me, Expr::Const(1)),
            4 => Expr::Const(0),
            _ => bin(op, me, self.operand()),
        };
        self.assign(mark::FLAGS, r, value);
    }

    fn moving(&mut self) {
        let r = self.reg();
        let value = match self.rng.below(8) {
            0 | 1 => self.read(),
            2 => Expr::Const(self.number()),
            3 | 4 => self.loaded(),
            5 => self.slot(),
            6 => self.pointer(),
            // `mov al, …` keeps the rest of the register.
            _ => {
                let low = bin("&", self.read(), Expr::Const(0xFF));
                bin("|", bin("&", Expr::Use(r, 0), Expr::Const(!0xFF)), low)
            }
        };
        self.assign(0, r, value);
    }

    /// A value computed in a few steps and stored: each step is read once, by the next.
    fn compute(&mut self) {
        let r = self.reg();
        let value = self.operand();
        self.assign(0, r, value);
        for _ in 0..self.rng.range(1, 3) {
            let op = self.rng.pick(&["+", "-", "&", "*", "<<"]);
            let value = bin(op, Expr::Use(r, 0), self.operand());
            self.assign(mark::FLAGS, r, value);
        }
        let (size, address) = (self.width(), self.memory());
        self.ins(0, Kind::Store { size, address, value: Expr::Use(r, 0) });
        self.assign(0, r, Expr::Const(0));
    }

    fn store(&mut self) {
        let (size, address, value) = (self.width(), self.memory(), self.operand());
        self.ins(0, Kind::Store { size, address, value });
    }

    fn other(&mut self) {
        let r = self.reg();
        let (text, uses, defs): (&str, &[u32], &[u32]) = match self.rng.below(10) {
            0 => ("cpuid", &[RAX, RCX], &[RAX, 3, RCX, RDX]),
            1 => ("rdtsc", &[], &[RAX, RDX]),
            2 => ("cdq", &[RAX], &[RDX]),
            3 => ("idiv ecx", &[RAX, RDX, RCX], &[RAX, RDX]),
            4 => ("rep movsb", &[6, 7, RCX], &[6, 7, RCX]),
            5 => ("sete al", &[RAX], &[RAX]),
            6 => ("movaps xmm0, xmm1", &[], &[]),
            7 => ("lock xadd [rcx], eax", &[RCX, RAX], &[RAX]),
            8 => ("bsr", &[r], &[r]),
            _ => ("int 0x29", &[RCX], &[]),
        };
        let marks = if matches!(text, "idiv ecx" | "bsr" | "lock xadd [rcx], eax") { mark::FLAGS } else { 0 };
        let uses = uses.iter().map(|r| Expr::Use(*r, 0)).collect();
        let defs = defs.iter().map(|r| (*r, 0)).collect();
        self.ins(marks, Kind::Other { text: text.into(), uses, defs });
    }

    pub(super) fn push(&mut self, value: Expr) {
        let word = self.word();
        self.stmt(0, Kind::Assign { def: (RSP, 0), value: bin("-", Expr::Use(RSP, 0), Expr::Const(word)) });
        self.ins(mark::PUSH, Kind::Store { size: word as u32, address: Expr::Use(RSP, 0), value });
    }

    pub(super) fn pop(&mut self, register: u32) {
        let word = self.word();
        self.stmt(0, Kind::Assign { def: (register, 0), value: load(word as u32, Expr::Use(RSP, 0)) });
        self.assign(0, RSP, bin("+", Expr::Use(RSP, 0), Expr::Const(word)));
    }

    /// A call's target text and the operand an indirect one reads.
    fn callee(&mut self) -> (String, Option<Expr>) {
        let word = self.word() as u32;
        let operand = match self.rng.below(8) {
            0 => load(word, Expr::Const(self.rng.pick(&self.globals) as i64)),
            1 => self.read(),
            2 => load(word, self.pointer()),
            _ => return (format!("sub_{:X}", self.rng.pick(&self.functions)), None),
        };
        (if matches!(operand, Expr::Use(..)) { "[rax]".into() } else { "[*(u64 *)(rax + 0x18)]".into() }, Some(operand))
    }

    fn call(&mut self) {
        let (target, operand) = self.callee();
        let args = operand.into_iter().chain(self.args.iter().map(|r| Expr::Use(*r, 0))).collect();
        let clobbers: Vec<Value> = self.volatile.iter().filter(|r| **r != RAX).map(|r| (*r, 0)).collect();
        self.stmt(0, Kind::Call { target, args, ret: Some((RAX, 0)), clobbers });
    }

    fn call64(&mut self) {
        for k in 0..self.rng.below(self.args.len() + 1) {
            let value = if self.rng.one_in(5) { self.slot() } else { self.operand() };
            self.assign(0, self.args[k], value);
        }
        self.call();
        self.step();
    }

    fn call32(&mut self) {
        let count = self.rng.below(5) as i64;
        for _ in 0..count {
            let value = self.operand();
            self.push(value);
        }
        self.call();
        if count == 0 {
            return self.step();
        }
        // Cleaned up by an instruction of the caller, or by the callee: upstream notes that at the call.
        let up = Kind::Assign { def: (RSP, 0), value: bin("+", Expr::Use(RSP, 0), Expr::Const(4 * count)) };
        if self.rng.coin() {
            self.step();
            self.stmt(mark::FLAGS, up);
        } else {
            self.stmt(0, up);
        }
        self.step();
    }

    pub(super) fn calling(&mut self) {
        if self.bits == 32 {
            self.call32();
        } else {
            self.call64();
        }
        if self.rng.coin() {
            let r = self.reg();
            self.assign(0, r, Expr::Use(RAX, 0));
        }
    }

    /// Sets the flags for a branch, or leaves them to what stands before.
    pub(super) fn compare(&mut self) {
        match self.rng.below(8) {
            0..=2 => {
                let (a, b) = (self.operand(), self.operand());
                self.ins(mark::FLAGS, Kind::Flags { test: false, a, b });
            }
            3 | 4 => {
                let a = self.read();
                self.ins(mark::FLAGS, Kind::Flags { test: true, a: a.clone(), b: a });
            }
            5 => {
                let (a, b) = (self.operand(), self.operand());
                self.ins(mark::FLAGS, Kind::Flags { test: true, a, b });
            }
            6 => self.arithmetic(),
            _ => {}
        }
        if self.rng.one_in(6) {
            self.moving();
        }
    }

    pub(super) fn plain(&mut self) {
        match self.rng.weighted(&[5, 5, 3, 2, 1]) {
            0 => self.arithmetic(),
            1 => self.moving(),
            2 => self.store(),
            3 => self.compute(),
            _ => self.other(),
        }
    }
}
