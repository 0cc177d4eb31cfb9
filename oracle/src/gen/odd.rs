//! Profile `odd`: valid files that no lifter would write. Each one is a few short pieces, every piece one of the
//! places where upstream's text does something that a reader would not expect.

use super::builder::{bin, fits, load, un, Block, Expr, Function, Kind, Phi, Value};
use super::rng::Rng;
use super::values::Values;
use super::CONDITIONS;
use crate::records::{mark, Records};

const RSP: u32 = 4;

/// Two-operand operators: printed between blanks and without their last `s`.
#[rustfmt::skip]
pub const OPERATORS: [&str; 30] = [
    "+", "-", "*", "&", "|", "^", "<<", ">>", ">>s", "==", "!=", "<", ">=", ">", "<=", " == ", "&&", "||", "s", "ss", "+s", "(", ")", ")) (",
    "== 1 <", " ", "-s", "a < b", "!= 0) &", "<= ) > (",
];
/// One-operand operators: printed as they are.
pub const PREFIXES: [&str; 13] = ["-", "~", "!", "s", "(", ")", " (", " == ", " < (", ") >= ", "&", "&& ", "not "];
/// Texts of opaques and Others.
#[rustfmt::skip]
pub const TEXTS: [&str; 14] =
    ["", "?", "xmm0", "a && b", "||", "a == b", " (", ") ", "goto", "&", ";", "loc_1000", "cpuid", "}"];
/// Supplied names: labels of this function and of others, signs that negation looks for, a leading `*`.
#[rustfmt::skip]
const NAMES: [&str; 16] = [
    "f", "&&", "a || b", "loc_1000", "loc_1010", "loc_1020", "loc_9999", "*p", "*", "if", "goto", ":", "sub_401000", " ", "operator<", "loc_",
];
/// Addresses around 0x1000, where global names begin, those of blocks, and the ends.
#[rustfmt::skip]
const ADDRESSES: [u64; 12] =
    [0xFFF, 0x1000, 0x1001, 0x1010, 0x2000, 0x40_1000, 0, 1, i64::MAX as u64, 1 << 63, u64::MAX, 0x40_1008];
/// Numbers around those at which something changes.
#[rustfmt::skip]
const NUMBERS: [i64; 24] = [
    0, 1, -1, 8, 9, 10, -8, -9, -10, 0xFFF, 0x1000, -0xFFF, -0x1000, 0x10, -0x10, 0xFFFF_FFFF, 0x8000_0000, -0x8000_0000, i64::MAX,
    i64::MAX - 1, i64::MIN, i64::MIN + 1, 0x2000, 0x40_1000,
];
const SIZES: [u32; 12] = [1, 2, 4, 8, 0, 3, 10, 16, 32, 64, 128, 255];
/// Call targets that are read as an address, or nearly.
#[rustfmt::skip]
const TARGETS: [&str; 22] = [
    "", "sub_", "sub_401000", "sub_sub_401000", "+401000", "sub_+401000", "401000", "sub_FFFFFFFFFFFFFFFF", "sub_10000000000000000", "sub_-1",
    "SUB_401000", "sub_0", "sub_fff", "loc_1000", "*x", "+", "sub_4010G0", "sub_000000000000000000401000", "f", "sub_ 1000", "-401000", "&&",
];
/// Targets of calls through their first argument.
const INDIRECT: [&str; 4] = ["[", "[rax]", "[..", "[sub_401000"];
/// Condition codes that are none.
const CODES: [&str; 10] = ["", "none", "E", "z", "eq", " e", "e ", "&&", "nes", ") ("];

struct Odd<'a> {
    rng: &'a mut Rng,
    values: Values,
    /// Whether stack offsets may come near the ends of 64 bits.
    far: bool,
    starts: Vec<u64>,
    block: Block,
    /// The stack pointer's last version.
    rsp: u32,
    /// Values set to stack addresses, for phis that agree and phis that do not.
    pointers: Vec<Value>,
}

pub fn records(rng: &mut Rng) -> Records {
    // The limits are far away; should a file pass one all the same, another is drawn.
    loop {
        let records = function(rng).records();
        if fits(&records) {
            return records;
        }
    }
}

fn function(rng: &mut Rng) -> Function {
    let bits = rng.pick(&[32, 64]);
    let mut args: Vec<u32> = (0..16).filter(|r| *r != RSP).collect();
    rng.shuffle(&mut args);
    args.truncate(rng.pick(&[0, 1, 2, 3, 6, 15]));
    let count = if rng.one_in(60) { 0 } else { rng.range(1, 7) };
    let starts = starts(rng, count);
    let (down, far) = (rng.one_in(8), rng.one_in(10));
    let values = Values::new(down);
    let mut odd = Odd { values, far, block: Block::default(), rsp: 0, pointers: Vec::new(), starts: starts.clone(), rng };
    let blocks = if odd.rng.one_in(4) {
        odd.conditions()
    } else {
        starts.iter().enumerate().map(|(i, s)| odd.draw(*s, starts.get(i + 1).copied())).collect()
    };
    let returns = odd.rng.coin();
    let mut names = std::collections::BTreeMap::new();
    for address in ADDRESSES.iter().chain(&[0x100, 0x5000]) {
        if odd.rng.one_in(3) {
            names.insert(*address, odd.rng.pick(&NAMES).to_string());
        }
    }
    Function { bits, returns, args, blocks, names, text: String::new() }
}

/// Starts of blocks, all different: the ones the names spell, mixed with others.
fn starts(rng: &mut Rng, count: usize) -> Vec<u64> {
    let mut pool: Vec<u64> = vec![0x1000, 0x1010, 0x1020, 0x1030, 0x1040, 0x1050, 0x1060, 0x1070, 0x1080];
    if rng.one_in(3) {
        pool.extend([0, 1, 0x100, 0xFFF, u64::MAX, 1 << 63, 0x40_1000]);
        rng.shuffle(&mut pool);
    }
    pool.truncate(count);
    pool
}

impl Odd<'_> {
    fn draw(&mut self, start: u64, next: Option<u64>) -> Block {
        self.block = Block::at(start);
        for _ in 0..self.rng.weighted(&[6, 3, 1]) {
            let phi = self.phi();
            self.block.phis.push(phi);
        }
        for _ in 0..self.rng.below(6) {
            self.piece();
        }
        self.block.taken = self.edge(next);
        self.block.fall = self.edge(next);
        std::mem::take(&mut self.block)
    }

    fn edge(&mut self, next: Option<u64>) -> Option<u64> {
        match self.rng.below(8) {
            0..=2 => None,
            3 | 4 => next,
            5 | 6 => Some(self.rng.pick(&self.starts)),
            _ => Some(self.rng.pick(&ADDRESSES)),
        }
    }

    fn marks(&mut self) -> u32 {
        if self.rng.one_in(5) {
            self.rng.below(8) as u32
        } else {
            0
        }
    }

    fn push(&mut self, kind: Kind) {
        let marks = self.marks();
        self.block.push(marks, kind);
    }

    /// Ifs and loops one after the other, each on an odd condition: what negation and stripping have to deal with.
    fn conditions(&mut self) -> Vec<Block> {
        let mut out = Vec::new();
        for (i, start) in self.starts.clone().into_iter().enumerate() {
            self.block = Block::at(start);
            let below = self.starts.get(i + 1).copied();
            let target = below.filter(|_| !self.rng.one_in(3)).or(Some(start));
            let (cond, loops) = (Some(self.condition()), target == Some(start));
            if loops {
                self.filler();
            }
            let mut a = self.expr(2);
            // What stands behind the opening parenthesis is stripped with it.
            if self.rng.one_in(6) {
                a = un(self.rng.pick(&[" (", " ( (", "(", " ( "]), a);
            }
            let setter = Kind::Flags { test: self.rng.one_in(4), a, b: self.expr(2) };
            self.block.push(mark::FLAGS | self.rng.pick(&[0, mark::DEAD]), setter);
            self.block.push(0, Kind::Branch { cond, target, uses: Vec::new() });
            if !loops {
                self.filler();
            }
            out.push(std::mem::take(&mut self.block));
        }
        out
    }

    fn filler(&mut self) {
        let text = self.rng.pick(&TEXTS).into();
        self.block.push(0, Kind::Other { text, uses: Vec::new(), defs: Vec::new() });
    }

    /// A phi of stack addresses: one of them again and again, or several of a register's.
    fn pointer_phi(&mut self, (register, version): Value) -> Phi {
        let mut inputs: Vec<u32> = self.pointers.iter().filter(|p| p.0 == register).map(|p| p.1).collect();
        self.rng.shuffle(&mut inputs);
        if self.rng.coin() {
            inputs = vec![version; 2];
        }
        inputs.truncate(3);
        Phi { def: self.values.fresh(register), dead: self.rng.one_in(4), inputs }
    }

    fn phi(&mut self) -> Phi {
        if !self.pointers.is_empty() && self.rng.one_in(3) {
            let pointer = self.rng.pick(&self.pointers);
            return self.pointer_phi(pointer);
        }
        let stack = self.rng.one_in(4);
        let def = if stack { self.values.fresh(RSP) } else { self.values.define(self.rng) };
        let mut inputs = Vec::new();
        for _ in 0..self.rng.below(4) {
            inputs.push(match self.rng.below(4) {
                0 => 0,
                1 => def.1,
                2 if stack => self.rsp,
                _ => self.rng.pick(&[0, 1, 2, 3, u32::MAX - 1, u32::MAX - 2]),
            });
        }
        if stack {
            self.rsp = def.1;
        }
        Phi { def, dead: self.rng.one_in(4), inputs }
    }

    // Expressions.

    fn number(&mut self) -> i64 {
        self.rng.pick(&NUMBERS)
    }

    fn read(&mut self) -> Expr {
        Expr::of(self.values.read(self.rng))
    }

    /// A stack address: the pointer, or it and a distance, which only in a few files is a far one.
    fn stack(&mut self) -> Expr {
        let base = if self.rng.one_in(4) { self.read() } else { Expr::Use(RSP, self.rng.pick(&[0, self.rsp])) };
        let distance = match (self.far, self.rng.below(4)) {
            (true, _) => self.number(),
            // Of any length that cannot add up to a far one.
            (false, 0) => (self.rng.word() >> self.rng.range(20, 63)) as i64 * self.rng.pick(&[1, -1]),
            (false, _) => self.rng.below(64) as i64 - 24,
        };
        match self.rng.below(5) {
            0 => base,
            1 => bin("-", base, Expr::Const(distance)),
            2 => bin("+s", base, Expr::Const(distance)),
            _ => bin("+", base, Expr::Const(distance)),
        }
    }

    fn expr(&mut self, depth: usize) -> Expr {
        let more = usize::from(depth > 0);
        match self.rng.weighted(&[3, 4, 4 * more, 2 * more, 3 * more, 2, 1]) {
            0 => Expr::Const(self.number()),
            1 => self.read(),
            2 => self.two(depth - 1),
            3 => un(self.rng.pick(&PREFIXES), self.expr(depth - 1)),
            4 => self.loaded(depth - 1),
            5 => self.stack(),
            _ => Expr::Opaque(self.rng.pick(&TEXTS).into()),
        }
    }

    fn two(&mut self, depth: usize) -> Expr {
        let op = self.rng.pick(&OPERATORS);
        let (a, b) = (self.expr(depth), self.expr(depth));
        // Far distances are kept for the files that ask for them.
        match (&a, &b) {
            (Expr::Use(..), Expr::Const(_)) if !self.far => bin(op, a, Expr::Const(self.rng.below(40) as i64)),
            _ => bin(op, a, b),
        }
    }

    fn loaded(&mut self, depth: usize) -> Expr {
        let size = self.rng.pick(&SIZES);
        match self.rng.below(4) {
            0 => load(size, Expr::Const(self.rng.pick(&ADDRESSES) as i64)),
            1 => load(size, self.stack()),
            _ => load(size, self.expr(depth)),
        }
    }

    fn exprs(&mut self, most: usize) -> Vec<Expr> {
        (0..self.rng.below(most + 1)).map(|_| self.expr(2)).collect()
    }

    fn defs(&mut self, most: usize) -> Vec<Value> {
        (0..self.rng.below(most + 1)).map(|_| self.values.loosely(self.rng)).collect()
    }

    // Pieces.

    fn piece(&mut self) {
        match self.rng.below(16) {
            0 => self.chain(),
            1 => self.move_stack(),
            2 => self.save(),
            3 => self.restore(),
            4 | 5 => self.tests(),
            6 => self.call(),
            7 => self.pushes(),
            8 => self.other(),
            9 => self.jump(),
            10 => {
                let value = self.rng.coin().then(|| self.expr(2));
                self.push(Kind::Return { value });
            }
            11 => self.dead(),
            12 => self.two_readers(),
            13 => self.arguments(),
            _ => {
                let (def, value) = (self.values.define(self.rng), self.expr(3));
                self.push(Kind::Assign { def, value });
            }
        }
    }

    /// Any statement at all.
    fn any(&mut self) -> Kind {
        match self.rng.below(7) {
            0 => Kind::Assign { value: self.expr(2), def: self.values.define(self.rng) },
            1 => Kind::Store { size: self.rng.pick(&SIZES), address: self.expr(2), value: self.expr(2) },
            2 => self.calling(),
            3 => self.branch(),
            4 => self.setter(),
            5 => Kind::Return { value: self.rng.coin().then(|| self.expr(1)) },
            _ => Kind::Other { text: self.rng.pick(&TEXTS).into(), uses: self.exprs(2), defs: self.defs(2) },
        }
    }

    fn dead(&mut self) {
        let kind = self.any();
        let marks = self.rng.pick(&[1, 1, 3, 5, 7]);
        self.block.push(marks, kind);
    }

    /// A statement that reads the value: some print it, some swallow it.
    fn reader(&mut self, value: Expr) -> Kind {
        match self.rng.below(9) {
            0 => Kind::Return { value: Some(value) },
            1 => Kind::Store { size: self.rng.pick(&SIZES), address: value, value: self.expr(1) },
            2 => Kind::Store { size: 4, address: self.stack(), value },
            3 => Kind::Call { target: "sub_5000".into(), args: vec![self.expr(1), value], ret: None, clobbers: Vec::new() },
            4 => Kind::Call { target: "[x]".into(), args: vec![value], ret: Some(self.values.loosely(self.rng)), clobbers: Vec::new() },
            5 => Kind::Branch { cond: None, target: None, uses: vec![value] },
            6 => Kind::Flags { test: self.rng.coin(), a: value, b: self.expr(1) },
            7 => Kind::Other { text: "swallows".into(), uses: vec![value], defs: Vec::new() },
            _ => Kind::Assign { def: self.values.define(self.rng), value },
        }
    }

    /// Values each read once by the next: written in place, unless what stands between forbids it.
    fn chain(&mut self) {
        let mut value = self.expr(2);
        for _ in 0..self.rng.range(1, 4) {
            let def = self.values.define(self.rng);
            self.push(Kind::Assign { def, value });
            if self.rng.one_in(3) {
                let kind = self.any();
                self.push(kind);
            }
            value = match self.rng.below(3) {
                0 => Expr::of(def),
                1 => load(4, Expr::of(def)),
                _ => bin(self.rng.pick(&OPERATORS), self.expr(1), Expr::of(def)),
            };
        }
        let kind = self.reader(value);
        self.push(kind);
        if self.rng.one_in(3) {
            self.compare();
        }
    }

    /// A value read twice, by dead statements only, or before it is defined.
    fn two_readers(&mut self) {
        let def = self.values.define(self.rng);
        let marks = [self.marks(), self.rng.pick(&[0, 1, 1, 2, 3])];
        let (first, second) = (self.reader(Expr::of(def)), self.reader(Expr::of(def)));
        let value = self.expr(2);
        if self.rng.coin() {
            self.block.push(marks[0], Kind::Assign { def, value });
            self.block.push(marks[1], first);
            if self.rng.coin() {
                self.block.push(marks[1], second);
            }
        } else {
            self.block.push(marks[1], first);
            self.block.push(marks[0], Kind::Assign { def, value });
        }
    }

    fn move_stack(&mut self) {
        let value = self.stack();
        let def = self.values.fresh(self.rng.pick(&[RSP, RSP, 5, 3, 0]));
        if def.0 == RSP {
            self.rsp = def.1;
        }
        self.pointers.push(def);
        self.push(Kind::Assign { def, value });
    }

    /// A register's entry value stored to the stack or elsewhere: silent for the preserved ones.
    fn save(&mut self) {
        let (register, version) = (self.rng.below(16) as u32, self.rng.pick(&[0, 0, 0, 1]));
        let address = if self.rng.one_in(4) { self.expr(1) } else { self.stack() };
        self.push(Kind::Store { size: 8, address, value: Expr::Use(register, version) });
    }

    fn restore(&mut self) {
        let register = self.rng.pick(&[3, 5, 6, 7, 12, 13, 14, 15, 0, 1]);
        let def = self.values.fresh(register);
        let address = if self.rng.one_in(4) { self.expr(1) } else { self.stack() };
        self.push(Kind::Assign { def, value: load(8, address) });
        if self.rng.one_in(3) {
            let kind = self.reader(Expr::of(def));
            self.push(kind);
        }
    }

    fn condition(&mut self) -> String {
        if self.rng.one_in(10) {
            self.rng.pick(&CODES).into()
        } else {
            self.rng.pick(&CONDITIONS).into()
        }
    }

    fn branch(&mut self) -> Kind {
        let cond = (!self.rng.one_in(3)).then(|| self.condition());
        let target = match self.rng.below(5) {
            0 => None,
            1 => Some(self.rng.pick(&ADDRESSES)),
            _ => Some(self.rng.pick(&self.starts)),
        };
        Kind::Branch { cond, target, uses: self.exprs(2) }
    }

    fn setter(&mut self) -> Kind {
        let a = self.expr(2);
        let b = if self.rng.coin() { a.clone() } else { self.expr(2) };
        match self.rng.below(4) {
            0 => Kind::Assign { value: a, def: self.values.define(self.rng) },
            1 => Kind::Flags { test: true, a, b },
            2 => Kind::Flags { test: false, a, b },
            _ => Kind::Flags { test: false, a, b: Expr::Const(self.number()) },
        }
    }

    fn compare(&mut self) {
        let kind = self.setter();
        let marks = mark::FLAGS | self.rng.pick(&[0, 0, 0, mark::DEAD, mark::PUSH]);
        self.block.push(marks, kind);
    }

    /// Setters and branches in any order: the last setter counts, for every branch of the block.
    fn tests(&mut self) {
        for _ in 0..self.rng.range(1, 4) {
            if self.rng.coin() {
                self.compare();
            }
            let kind = self.branch();
            self.push(kind);
        }
        if self.rng.one_in(4) {
            self.compare();
        }
    }

    fn calling(&mut self) -> Kind {
        let mut args = self.exprs(4);
        let target = match self.rng.below(6) {
            0 | 1 => self.rng.pick(&INDIRECT).to_string(),
            2 | 3 => self.rng.pick(&TARGETS).to_string(),
            _ => self.spelled(),
        };
        if target.starts_with('[') && args.is_empty() {
            args.push(self.loaded(1));
        }
        let ret = self.rng.coin().then(|| self.values.loosely(self.rng));
        Kind::Call { target, args, ret, clobbers: self.defs(3) }
    }

    /// An address that may have a name, as hexadecimal is read.
    fn spelled(&mut self) -> String {
        let a = self.rng.pick(&ADDRESSES);
        match self.rng.below(7) {
            0 => format!("sub_{a:X}"),
            1 => format!("sub_{a:x}"),
            2 => format!("{a:X}"),
            3 => format!("+{a:x}"),
            4 => format!("sub_sub_{a:X}"),
            5 => format!("sub_000{a:x}"),
            _ => format!("sub_+{a:X}"),
        }
    }

    fn call(&mut self) {
        let kind = self.calling();
        let read = match &kind {
            Kind::Call { ret: Some(v), .. } if self.rng.coin() => Some(Expr::of(*v)),
            _ => None,
        };
        self.push(kind);
        if let Some(value) = read {
            let kind = self.reader(value);
            self.push(kind);
        }
    }

    /// Push marks on anything, then a call that takes them, dead or live.
    fn pushes(&mut self) {
        for _ in 0..self.rng.range(1, 3) {
            let kind = if self.rng.coin() { Kind::Store { size: 4, address: self.stack(), value: self.expr(2) } } else { self.any() };
            let marks = mark::PUSH | self.rng.pick(&[0, 0, 0, 1, 2]);
            self.block.push(marks, kind);
        }
        let kind = self.calling();
        let marks = self.rng.pick(&[0, 0, 0, 1, 4]);
        self.block.push(marks, kind);
    }

    /// Registers set for a call, dead and in place too, then the call or a jump out.
    fn arguments(&mut self) {
        for _ in 0..self.rng.range(1, 3) {
            let (def, value) = (self.values.define(self.rng), self.expr(1));
            self.push(Kind::Assign { def, value });
        }
        let kind = match self.rng.below(3) {
            0 => Kind::Branch { cond: None, target: Some(self.rng.pick(&[0x100, 0x5000, 0x40_1000])), uses: self.exprs(6) },
            _ => self.calling(),
        };
        self.push(kind);
    }

    fn other(&mut self) {
        let defs = self.defs(3);
        let text = self.rng.pick(&TEXTS).into();
        let uses = self.exprs(2);
        let read: Vec<Value> = defs.iter().copied().filter(|_| self.rng.coin()).collect();
        self.push(Kind::Other { text, uses, defs });
        for value in read {
            let kind = self.reader(Expr::of(value));
            self.push(kind);
        }
    }

    /// A jump out of the function or through an expression, whose name may spell a label.
    fn jump(&mut self) {
        let target = self.rng.pick(&ADDRESSES);
        let through = load(self.rng.pick(&SIZES), Expr::Const(self.rng.pick(&ADDRESSES) as i64));
        let kind = match self.rng.below(3) {
            0 => Kind::Branch { cond: None, target: Some(target), uses: self.exprs(3) },
            1 => Kind::Branch { cond: None, target: None, uses: vec![through] },
            _ => Kind::Branch { cond: None, target: None, uses: self.exprs(1) },
        };
        self.push(kind);
    }
}
