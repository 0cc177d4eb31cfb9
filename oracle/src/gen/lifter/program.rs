//! The program: ifs, loops and switches around the code, and what every function begins and ends with.

use super::{Around, End, Lifter, RAX, RBP, RSP};
use crate::gen::builder::{bin, load, Expr, Kind};
use crate::records::mark;

/// Each part of the structure says whether control comes out at its end.
impl Lifter<'_> {
    fn sequence(&mut self, around: Around) -> bool {
        for _ in 0..self.rng.range(1, 5) {
            if self.budget == 0 {
                break;
            }
            if !self.item(around) {
                return false;
            }
        }
        true
    }

    fn item(&mut self, around: Around) -> bool {
        let deeper = Around { depth: around.depth + 1, ..around };
        let nested = usize::from(around.depth < 7);
        match self.rng.weighted(&[12, 4, 4 * nested, 3 * nested, 2 * nested, 2 * nested, nested, 2, nested]) {
            0 => self.plain(),
            1 => self.calling(),
            2 => self.if_then(deeper),
            3 => return self.if_else(deeper),
            4 => return self.do_while(deeper),
            5 => self.while_do(deeper),
            6 => return self.switch(deeper),
            7 => return self.leave(around),
            _ => self.rotated(deeper),
        }
        true
    }

    fn if_then(&mut self, inner: Around) {
        let skip = self.label();
        self.compare();
        self.branch(skip);
        self.sequence(inner);
        self.place(skip);
    }

    fn if_else(&mut self, inner: Around) -> bool {
        let (other, end) = (self.label(), self.label());
        self.compare();
        self.branch(other);
        let first = self.sequence(inner);
        if first {
            self.jump(end);
        }
        self.place(other);
        let second = self.sequence(inner);
        if first {
            self.place(end);
        }
        first || second
    }

    fn do_while(&mut self, inner: Around) -> bool {
        let (head, test, exit) = (self.label(), self.label(), self.label());
        self.place(head);
        let out = self.sequence(Around { inside: Some((exit, test)), ..inner });
        let tested = out || self.labels[test].used;
        if tested {
            self.place(test);
            self.compare();
            self.branch(head);
        }
        if self.labels[exit].used {
            self.place(exit);
        }
        tested || self.labels[exit].used
    }

    fn while_do(&mut self, inner: Around) {
        let (head, exit) = (self.label(), self.label());
        self.place(head);
        self.compare();
        self.branch(exit);
        if self.sequence(Around { inside: Some((exit, head)), ..inner }) {
            self.jump(head);
        }
        self.place(exit);
    }

    /// A loop whose test stands at its end and is jumped to first.
    fn rotated(&mut self, inner: Around) {
        let (body, test, exit) = (self.label(), self.label(), self.label());
        self.jump(test);
        self.place(body);
        self.sequence(Around { inside: Some((exit, test)), ..inner });
        self.place(test);
        self.compare();
        self.branch(body);
        self.place(exit);
    }

    fn switch(&mut self, inner: Around) -> bool {
        let end = self.label();
        let cases: Vec<usize> = (0..self.rng.range(2, 4)).map(|_| self.label()).collect();
        let table = load(self.word() as u32, bin("+", bin("*", self.read(), Expr::Const(8)), Expr::Const(0x40_5000)));
        let uses = std::iter::once(table).chain(self.tail_uses()).collect();
        self.ins(0, Kind::Branch { cond: None, target: None, uses });
        self.end(End::Switch(cases.clone()));
        let mut out = true;
        for case in cases {
            self.place(case);
            out = self.sequence(inner);
            if out && self.rng.coin() {
                self.jump(end);
                out = false;
            }
        }
        if self.labels[end].used {
            self.place(end);
        }
        out || self.labels[end].used
    }

    /// Leaves the sequence: break, continue, error exit, each on a condition or always; or returns.
    fn leave(&mut self, around: Around) -> bool {
        let target = match (around.inside, self.rng.below(3)) {
            (Some((exit, _)), 0) => exit,
            (Some((_, next)), 1) => next,
            _ => around.exit,
        };
        if self.rng.coin() {
            self.compare();
            self.branch(target);
            return true;
        }
        if around.depth == 0 || self.rng.coin() {
            return true;
        }
        if self.rng.coin() {
            self.jump(target);
        } else {
            self.epilogue();
        }
        false
    }

    fn prologue(&mut self) {
        if self.frame {
            self.push(Expr::Use(RBP, 0));
            self.assign(0, RBP, Expr::Use(RSP, 0));
        }
        for r in self.saved.clone() {
            self.push(Expr::Use(r, 0));
        }
        if self.room > 0 {
            self.assign(mark::FLAGS, RSP, bin("-", Expr::Use(RSP, 0), Expr::Const(self.room)));
        }
    }

    fn tail_uses(&self) -> Vec<Expr> {
        self.args.iter().chain(std::iter::once(&RAX)).map(|r| Expr::Use(*r, 0)).collect()
    }

    fn epilogue(&mut self) {
        if self.frame && self.rng.one_in(4) {
            self.assign(0, RSP, Expr::Use(RBP, 0));
        } else {
            if self.room > 0 {
                self.assign(mark::FLAGS, RSP, bin("+", Expr::Use(RSP, 0), Expr::Const(self.room)));
            }
            for r in self.saved.clone().into_iter().rev() {
                self.pop(r);
            }
        }
        if self.frame {
            self.pop(RBP);
        }
        self.give_back();
    }

    fn give_back(&mut self) {
        let uses = self.tail_uses();
        match self.rng.below(8) {
            0 => {
                let out = self.rng.pick(&self.functions);
                self.ins(0, Kind::Branch { cond: None, target: Some(out), uses });
                let edge = self.rng.coin().then_some(out);
                self.end(End::Out(edge));
            }
            1 => {
                let operand = if self.rng.coin() { self.loaded() } else { self.read() };
                let uses = std::iter::once(operand).chain(uses).collect();
                self.ins(0, Kind::Branch { cond: None, target: None, uses });
                self.end(End::Stop);
            }
            _ => {
                self.ins(0, Kind::Return { value: Some(Expr::Use(RAX, 0)) });
                self.end(End::Stop);
            }
        }
    }

    pub(super) fn program(&mut self) {
        let exit = self.label();
        self.start_block();
        self.prologue();
        // One sequence alone would leave most functions short of what the budget allows.
        while self.sequence(Around { depth: 0, inside: None, exit }) && self.budget > 0 {}
        if self.labels[exit].used {
            self.place(exit);
        }
        if self.open {
            self.epilogue();
        }
        if self.rng.one_in(50) {
            self.unreachable();
        }
    }

    /// Code behind the end: upstream leaves its versions at 0.
    fn unreachable(&mut self) {
        if self.rng.coin() {
            self.plain();
        }
        self.ins(0, Kind::Return { value: None });
        self.end(End::Stop);
    }
}
