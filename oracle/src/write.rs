//! The writer: upstream's function as records, or why the file format cannot hold it.

use std::collections::{BTreeSet, HashMap, HashSet};

use crate::offsets::nodes;
use crate::read::Function;
use crate::records::{kind, mark, split, tag, Records, FILE_MOST, SECTIONS};
use crate::upstream::ssa::{Expr, Kind, SsaFunction, Var, NAMES64, RSP};

/// Records of edition 1 that the reader takes for the same function (the blocks phi inputs come from are not
/// kept). An error says what cannot be written.
pub fn write(f: &Function) -> Result<Records, String> {
    // Counted before anything recurses: numbering goes as deep as expressions nest.
    most("expressions", nodes(&f.ssa).len())?;
    check_function(f)?;
    check_definitions(&f.ssa)?;
    let pool = pool(f)?;
    let r = Records { edition: 1, bits: f.ssa.bits, returns: u32::from(f.returns), ..Records::default() };
    let mut w = Writer { r, at: &pool.at };
    w.r.args = f.args.iter().map(|a| u32::from(*a)).collect();
    for b in &f.ssa.blocks {
        let [s0, s1] = split(b.start);
        let (taken, fall) = (option(b.taken), option(b.fall));
        let counts = [b.phis.len(), b.stmts.len()].map(|n| n as u32);
        w.r.blocks.push([s0, s1, taken[0], taken[1], taken[2], fall[0], fall[1], fall[2], counts[0], counts[1]]);
        for p in &b.phis {
            w.r.phis.push([u32::from(p.var), p.ver, u32::from(p.dead), p.args.len() as u32]);
            w.r.inputs.extend(p.args.iter().map(|(_, n)| n));
        }
        for s in &b.stmts {
            let marks = [(s.dead, mark::DEAD), (s.flags, mark::FLAGS), (s.push, mark::PUSH)];
            let marks = marks.iter().filter(|m| m.0).map(|m| m.1).sum();
            let [a0, a1] = split(s.address);
            let (number, f) = w.kind(&s.kind);
            w.r.statements.push([a0, a1, marks, number, f[0], f[1], f[2], f[3], f[4], f[5], f[6]]);
        }
    }
    for (address, name) in &f.names {
        let [a0, a1] = split(*address);
        let [start, length] = w.text(name);
        w.r.names.push([a0, a1, start, length]);
    }
    let r = Records { text: pool.text.into_bytes(), ..w.r };
    for (section, count) in SECTIONS.iter().zip(r.counts()) {
        most(section.name, count)?;
    }
    let size = r.bytes().len();
    match size > FILE_MOST {
        true => Err(format!("a file of {size} bytes, at most {FILE_MOST} are allowed")),
        false => Ok(r),
    }
}

/// Whether a section takes so many records.
fn most(section: &str, count: usize) -> Result<(), String> {
    match SECTIONS.iter().find(|s| s.name == section) {
        Some(s) if count > s.most as usize => Err(format!("{count} {section}, at most {} are allowed", s.most)),
        _ => Ok(()),
    }
}

fn option(v: Option<u64>) -> [u32; 3] {
    let [low, high] = split(v.unwrap_or(0));
    [u32::from(v.is_some()), low, high]
}

fn check_register(v: Var) -> Result<(), String> {
    match v > 15 {
        true => Err(format!("register {v}, the highest is 15")),
        false => Ok(()),
    }
}

fn check_function(f: &Function) -> Result<(), String> {
    if f.ssa.bits != 32 && f.ssa.bits != 64 {
        return Err(format!("{} bits, only 32 and 64 can be written", f.ssa.bits));
    }
    let mut args = HashSet::new();
    for a in &f.args {
        check_register(*a)?;
        if *a == RSP || !args.insert(a) {
            return Err(format!("argument register {}: rsp or repeated", NAMES64[usize::from(*a)]));
        }
    }
    let mut starts = HashSet::new();
    match f.ssa.blocks.iter().find(|b| !starts.insert(b.start)) {
        Some(b) => Err(format!("two blocks start at {:#x}", b.start)),
        None => Ok(()),
    }
}

/// Registers, and that a phi or Assign defines a value of its own that is not the one on entry.
fn check_definitions(f: &SsaFunction) -> Result<(), String> {
    let mut once = HashSet::new();
    let mut define = |v: Var, n: u32| {
        check_register(v)?;
        let name = NAMES64[usize::from(v)];
        if n == 0 {
            return Err(format!("{name}_0 is defined by a phi or Assign: version 0 is the value on entry (upstream leaves it in unreachable blocks; drop those or number their definitions)"));
        }
        match once.insert((v, n)) {
            true => Ok(()),
            false => Err(format!("{name}_{n} is defined twice")),
        }
    };
    for b in &f.blocks {
        b.phis.iter().try_for_each(|p| define(p.var, p.ver))?;
        for s in &b.stmts {
            if let Kind::Assign { def, ver, .. } = &s.kind {
                define(*def, *ver)?;
            }
        }
    }
    for s in f.blocks.iter().flat_map(|b| &b.stmts) {
        let others: Vec<(Var, u32)> = match &s.kind {
            Kind::Call { target, args, ret, clobbers } => {
                if target.starts_with('[') && args.is_empty() {
                    return Err(format!("the indirect call at {:#x} has no argument to call", s.address));
                }
                ret.iter().chain(clobbers).copied().collect()
            }
            Kind::Other { defs, .. } => defs.clone(),
            _ => Vec::new(),
        };
        for d in others {
            check_register(d.0)?;
            if once.contains(&d) {
                return Err(format!("{}_{} is defined twice", NAMES64[usize::from(d.0)], d.1));
            }
        }
    }
    for e in nodes(f) {
        if let Expr::Use(v, _) = e {
            check_register(*v)?;
        }
    }
    Ok(())
}

/// The text section and where each text stands in it.
struct Pool<'a> {
    text: String,
    at: HashMap<&'a str, u32>,
}

/// Longest first, so that what is part of another costs nothing; the text a file came with where that is shorter.
fn pool(f: &Function) -> Result<Pool<'_>, String> {
    let mut texts: BTreeSet<(std::cmp::Reverse<usize>, &str)> = BTreeSet::new();
    for t in all_texts(f)? {
        if let Some(c) = t.chars().find(|c| !(' '..='~').contains(c)) {
            return Err(format!("the character {c:?} in {t:?}: only 0x20 to 0x7E can be written"));
        }
        texts.insert((std::cmp::Reverse(t.len()), t));
    }
    let mut pool = Pool { text: String::new(), at: HashMap::new() };
    for (_, t) in &texts {
        // Past the limit the text is refused, or the file's own taken: no more to be gained by searching.
        if pool.text.len() <= FILE_MOST && !pool.text.contains(t) {
            pool.text.push_str(t);
        }
    }
    if pool.text.len() > f.text.len() && texts.iter().all(|(_, t)| f.text.contains(t)) {
        pool.text.clone_from(&f.text);
    }
    most("text", pool.text.len())?;
    for (_, t) in &texts {
        let at = pool.text.find(t).expect("every text was pooled");
        pool.at.insert(t, at as u32);
    }
    Ok(pool)
}

/// Every text of the function; operators and names are not empty.
fn all_texts(f: &Function) -> Result<Vec<&str>, String> {
    let mut texts = Vec::new();
    for s in f.ssa.blocks.iter().flat_map(|b| &b.stmts) {
        match &s.kind {
            Kind::Call { target: t, .. } | Kind::Branch { cond: Some(t), .. } | Kind::Other { text: t, .. } => texts.push(t.as_str()),
            _ => {}
        }
    }
    for e in nodes(&f.ssa) {
        match e {
            Expr::Bin("", ..) | Expr::Un("", _) => return Err("an operator without text".to_string()),
            Expr::Bin(op, ..) | Expr::Un(op, _) => texts.push(op),
            Expr::Opaque(t) => texts.push(t),
            _ => {}
        }
    }
    for (address, name) in &f.names {
        if name.is_empty() {
            return Err(format!("the name of {address:#x} is empty"));
        }
        texts.push(name);
    }
    Ok(texts)
}

struct Writer<'a> {
    r: Records,
    at: &'a HashMap<&'a str, u32>,
}

impl Writer<'_> {
    fn text(&self, t: &str) -> [u32; 2] {
        [self.at[t], t.len() as u32]
    }

    /// Writes an expression behind its children and answers its number.
    fn expr(&mut self, e: &Expr) -> u32 {
        let row = match e {
            Expr::Const(c) => {
                let [low, high] = split(*c as u64);
                [tag::CONST, low, high, 0, 0]
            }
            Expr::Use(v, n) => [tag::USE, u32::from(*v), *n, 0, 0],
            Expr::Bin(op, a, b) => {
                let [start, length] = self.text(op);
                let left = self.expr(a);
                [tag::BIN, start, length, left, self.expr(b)]
            }
            Expr::Un(op, a) => {
                let [start, length] = self.text(op);
                [tag::UN, start, length, self.expr(a), 0]
            }
            Expr::Load(size, a) => [tag::LOAD, u32::from(*size), self.expr(a), 0, 0],
            Expr::Opaque(t) => {
                let [start, length] = self.text(t);
                [tag::OPAQUE, start, length, 0, 0]
            }
        };
        self.r.expressions.push(row);
        self.r.expressions.len() as u32 - 1
    }

    fn exprs(&mut self, list: &[Expr]) -> u32 {
        for e in list {
            let item = [self.expr(e), 0];
            self.r.lists.push(item);
        }
        list.len() as u32
    }

    fn values(&mut self, list: &[(Var, u32)]) -> u32 {
        self.r.lists.extend(list.iter().map(|(v, n)| [u32::from(*v), *n]));
        list.len() as u32
    }

    /// A kind's number and fields.
    fn kind(&mut self, k: &Kind) -> (u32, [u32; 7]) {
        match k {
            Kind::Assign { def, ver, expr } => (kind::ASSIGN, [u32::from(*def), *ver, self.expr(expr), 0, 0, 0, 0]),
            Kind::Store { size, addr, val } => {
                let addr = self.expr(addr);
                (kind::STORE, [u32::from(*size), addr, self.expr(val), 0, 0, 0, 0])
            }
            Kind::Call { target, args, ret, clobbers } => {
                let [start, length] = self.text(target);
                let (v, n) = ret.unwrap_or((0, 0));
                let args = self.exprs(args);
                (kind::CALL, [start, length, args, u32::from(ret.is_some()), u32::from(v), n, self.values(clobbers)])
            }
            Kind::Branch { cond, uses, target } => {
                let [start, length] = cond.as_ref().map_or([0, 0], |cc| self.text(cc));
                let [has, low, high] = option(*target);
                (kind::BRANCH, [u32::from(cond.is_some()), start, length, has, low, high, self.exprs(uses)])
            }
            Kind::Flags { test, a, b } => {
                let a = self.expr(a);
                (kind::FLAGS, [u32::from(*test), a, self.expr(b), 0, 0, 0, 0])
            }
            Kind::Return { val } => {
                let value = val.as_ref().map_or(0, |v| self.expr(v));
                (kind::RETURN, [u32::from(val.is_some()), value, 0, 0, 0, 0, 0])
            }
            Kind::Other { text, uses, defs } => {
                let [start, length] = self.text(text);
                let uses = self.exprs(uses);
                (kind::OTHER, [start, length, uses, self.values(defs), 0, 0, 0])
            }
        }
    }
}
