//! A file's listing as upstream prints it, its refusal, and the forms in which either is shown.

use std::collections::BTreeSet;
use std::fmt::Write;

use crate::read::{read, Function};
use crate::refusal::Refusal;
use crate::upstream::model::TokenKind;
use crate::upstream::pseudo::PseudoLine;
use crate::upstream::ssa::{COptions, Kind, Var, RSP};
use crate::{offsets, reach};

/// The finished lines and the numbers of regions formed.
#[derive(Debug, Clone, PartialEq, Eq)]
pub struct Listing {
    pub lines: Vec<PseudoLine>,
    pub ifs: usize,
    pub loops: usize,
}

impl Listing {
    /// The lines whose first token is the keyword `if`.
    pub fn tests(&self) -> usize {
        let is_if = |l: &&PseudoLine| l.tokens.first().is_some_and(|t| t.k == TokenKind::Keyword && t.t == "if");
        self.lines.iter().filter(is_if).count()
    }
}

/// One value of the function and what the tables say of it.
#[derive(Debug, Clone, PartialEq, Eq)]
pub struct Row {
    pub value: (Var, u32),
    /// Its offset from the stack pointer on entry.
    pub offset: Option<i64>,
    /// The least value of its class.
    pub root: (Var, u32),
    /// Written in place of its one read.
    pub place: bool,
    pub name: Option<String>,
}

/// The listing of a file, or the first refusal of 2 to 9.
pub fn list(file: &[u8]) -> Result<Listing, Refusal> {
    list_function(&read(file)?)
}

/// The same from check 7 on.
pub fn list_function(f: &Function) -> Result<Listing, Refusal> {
    offsets::check(&f.ssa)?;
    roomy(f, |o| f.ssa.to_c(o)).map(|(lines, ifs, loops)| Listing { lines, ifs, loops })
}

/// The lines as lowering leaves them, before structuring: refusals 2 to 8.
pub fn lowered(file: &[u8]) -> Result<Vec<PseudoLine>, Refusal> {
    let f = read(file)?;
    offsets::check(&f.ssa)?;
    roomy(&f, |o| f.ssa.lower(o, &mut |_, _| {}))
}

/// A row for each value that the file names, by register and version: refusals 2 to 7 (what lowering says is
/// no matter of the tables).
pub fn tables(file: &[u8]) -> Result<Vec<Row>, Refusal> {
    let f = read(file)?;
    offsets::check(&f.ssa)?;
    let all = values(&f);
    Ok(roomy(&f, |o| {
        let mut rows = Vec::new();
        let _ = f.ssa.lower(o, &mut |g, dsu| {
            rows.extend(all.iter().map(|v| Row {
                value: *v,
                offset: if v.0 == RSP { g.rsp.get(&v.1).copied() } else { g.ptr.get(v).copied() },
                root: dsu.find(*v),
                place: g.inline.contains_key(v),
                name: g.names.get(v).cloned(),
            }));
        });
        rows
    }))
}

fn values(f: &Function) -> BTreeSet<(Var, u32)> {
    let mut all: BTreeSet<(Var, u32)> = f.args.iter().map(|a| (*a, 0)).collect();
    for b in &f.ssa.blocks {
        for p in &b.phis {
            all.insert((p.var, p.ver));
            all.extend(p.args.iter().map(|(_, n)| (p.var, *n)));
        }
        for s in &b.stmts {
            all.extend(s.kind.uses());
            match &s.kind {
                Kind::Assign { def, ver, .. } => all.extend([(*def, *ver)]),
                Kind::Call { ret, clobbers, .. } => all.extend(ret.iter().chain(clobbers)),
                Kind::Other { defs, .. } => all.extend(defs),
                _ => {}
            }
        }
    }
    all
}

/// Runs upstream's text with what its caller knows. Rendering recurses, through values written in place too,
/// at most once for each expression: where there are many, on a thread with a stack for the most there can be.
fn roomy<T: Send>(f: &Function, run: impl Fn(&COptions) -> T + Sync) -> T {
    const FEW: usize = 256;
    const STACK: usize = 64 << 20;
    let here = || run(&COptions { returns: f.returns, args: f.args.clone(), names: &|a| f.names.get(&a).cloned() });
    if offsets::nodes(&f.ssa).len() <= FEW {
        return here();
    }
    std::thread::scope(|scope| {
        let there = || (here(), cfg!(feature = "reach").then(reach::table));
        let thread = std::thread::Builder::new().stack_size(STACK).spawn_scoped(scope, there);
        match thread.map(|t| t.join()) {
            Ok(Ok((answer, reached))) => {
                reached.iter().for_each(reach::absorb);
                answer
            }
            Ok(Err(panic)) => std::panic::resume_unwind(panic),
            // No thread to be had.
            Err(_) => here(),
        }
    })
}

/// What `oracle` and the program `listing` may be asked for.
#[derive(Debug, Clone, Copy, PartialEq, Eq)]
pub enum Mode {
    Listing,
    Tokens,
    Lowered,
    Tables,
}

/// What is printed for a file: its listing in the form asked for, or `refused N`.
pub fn answer(file: &[u8], mode: Mode) -> String {
    let shown = match mode {
        Mode::Listing => list(file).map(|l| listing(&l)),
        Mode::Tokens => list(file).map(|l| with_tokens(&l)),
        Mode::Lowered => lowered(file).map(|l| lowered_text(&l)),
        Mode::Tables => tables(file).map(|t| tables_text(&t)),
    };
    shown.unwrap_or_else(|refusal| format!("{refusal}\n"))
}

/// As the program `listing` prints it.
pub fn listing(l: &Listing) -> String {
    let mut out = header(l);
    for x in &l.lines {
        push_line(&mut out, x);
    }
    out
}

/// The listing with the tokens of each line behind it.
pub fn with_tokens(l: &Listing) -> String {
    let mut out = header(l);
    for x in &l.lines {
        push_line(&mut out, x);
        push_tokens(&mut out, x);
    }
    out
}

/// The lowered lines with their tokens, behind the numbers that refusal 8 looks at.
pub fn lowered_text(lines: &[PseudoLine]) -> String {
    let tokens: usize = lines.iter().map(|l| l.tokens.len()).sum();
    let bytes: usize = lines.iter().flat_map(|l| &l.tokens).map(|t| t.t.len()).sum();
    let mut out = format!("lowered lines {} tokens {tokens} bytes {bytes}\n", lines.len());
    for x in lines {
        push_line(&mut out, x);
        push_tokens(&mut out, x);
    }
    out
}

/// A line for each value: register and version, offset, root, in place or not, name.
pub fn tables_text(rows: &[Row]) -> String {
    let mut out = format!("tables values {}\n", rows.len());
    for r in rows {
        let offset = r.offset.map_or("-".to_string(), |x| x.to_string());
        let place = if r.place { "place" } else { "-" };
        let name = r.name.as_deref().unwrap_or("-");
        put(&mut out, format_args!("{}_{} {offset} {}_{} {place} {name}\n", r.value.0, r.value.1, r.root.0, r.root.1));
    }
    out
}

fn header(l: &Listing) -> String {
    format!("ifs {} loops {} lines {} tests {}\n", l.ifs, l.loops, l.lines.len(), l.tests())
}

fn push_line(out: &mut String, l: &PseudoLine) {
    match l.address {
        Some(a) => put(out, format_args!("{a:X} {} ", l.indent)),
        None => put(out, format_args!("- {} ", l.indent)),
    }
    l.tokens.iter().for_each(|t| out.push_str(&t.t));
    out.push('\n');
}

fn push_tokens(out: &mut String, l: &PseudoLine) {
    for t in &l.tokens {
        put(out, format_args!("  {:?} {}\n", t.k, t.t));
    }
}

fn put(out: &mut String, text: std::fmt::Arguments) {
    out.write_fmt(text).expect("a String takes all text");
}
