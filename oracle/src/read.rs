//! The reader: document 01's checks 2 to 6 in their order, each over the whole file before the next begins (D1).

use std::collections::{BTreeMap, HashSet};
use std::ops::Range;
use std::sync::Mutex;

use crate::records::{join, kind, mark, tag, Records, CONTENTS, FILE_MOST, SECTIONS};
use crate::refusal::Refusal;
use crate::upstream::ssa::{Block, Expr, Kind, Phi, SsaFunction, Stmt, Var, RSP};

/// What a file says: upstream's function (its `bits` included) and what upstream's caller knows about it.
#[derive(Debug, Clone, Default, PartialEq)]
pub struct Function {
    pub ssa: SsaFunction,
    pub returns: bool,
    pub args: Vec<Var>,
    pub names: BTreeMap<u64, String>,
    /// The text as the file pools it, or nothing: the writer uses it where pooling anew would be longer.
    pub text: String,
}

/// The function of a file that passes checks 2 to 6.
pub fn read(file: &[u8]) -> Result<Function, Refusal> {
    let r = records(file)?;
    let lists = shape(&r)?;
    references(&r, &lists)?;
    values(&r, &lists)?;
    Ok(build(&r, &lists))
}

/// The records of a file that passes checks 2 and 3 and whose sections adjoin (the first condition of 4).
pub fn records(file: &[u8]) -> Result<Records, Refusal> {
    let word = |i: usize| file.get(4 * i..4 * i + 4).map_or(0, |b| u32::from_le_bytes([b[0], b[1], b[2], b[3]]));
    refuse(2, file.len() < 4 * CONTENTS || word(0) != 1 || word(3) != 0)?;
    let count = |s: usize| word(5 + 2 * s);
    refuse(3, file.len() > FILE_MOST || SECTIONS.iter().enumerate().any(|(s, section)| count(s) > section.most))?;
    // The counts keep to their limits, so the sums below are small.
    let mut at = 4 * CONTENTS;
    let mut parts: [&[u8]; 9] = [&[]; 9];
    for (s, section) in SECTIONS.iter().enumerate() {
        let end = at + count(s) as usize * if section.words == 0 { 1 } else { 4 * section.words };
        refuse(4, word(4 + 2 * s) as usize != at || end > file.len())?;
        parts[s] = &file[at..end];
        at = end;
    }
    refuse(4, at != file.len())?;
    Ok(Records {
        edition: word(0),
        bits: word(1),
        returns: word(2),
        reserved: word(3),
        args: rows(parts[0]).map(|[w]| w).collect(),
        blocks: rows(parts[1]).collect(),
        phis: rows(parts[2]).collect(),
        inputs: rows(parts[3]).map(|[w]| w).collect(),
        statements: rows(parts[4]).collect(),
        lists: rows(parts[5]).collect(),
        expressions: rows(parts[6]).collect(),
        names: rows(parts[7]).collect(),
        text: parts[8].to_vec(),
    })
}

fn rows<const N: usize>(bytes: &[u8]) -> impl Iterator<Item = [u32; N]> + '_ {
    bytes.chunks_exact(4 * N).map(|row| std::array::from_fn(|i| u32::from_le_bytes([row[4 * i], row[4 * i + 1], row[4 * i + 2], row[4 * i + 3]])))
}

fn refuse(number: u8, condition: bool) -> Result<(), Refusal> {
    if condition {
        Err(Refusal(number))
    } else {
        Ok(())
    }
}

/// The part of the lists a statement owns: first expressions, then values.
struct Lists {
    expressions: Range<usize>,
    values: Range<usize>,
}

/// The fields of a statement, behind address, marks and kind.
fn fields(s: &[u32; 11]) -> [u32; 7] {
    std::array::from_fn(|i| s[4 + i])
}

/// A has-word: 0 or 1, and with 0 what it announces is 0.
fn has(word: u32, announced: &[u32]) -> bool {
    word == 1 || word == 0 && zeros(announced)
}

fn zeros(words: &[u32]) -> bool {
    words.iter().all(|w| *w == 0)
}

/// Check 4 behind the sections: owned counts, 0/1 words, sizes, marks, kinds, tags, unused fields. Answers how
/// the statements cut the lists.
fn shape(r: &Records) -> Result<Vec<Lists>, Refusal> {
    let sum = |counts: &mut dyn Iterator<Item = u32>| counts.map(u64::from).sum::<u64>();
    let adds_up = r.returns <= 1
        && sum(&mut r.blocks.iter().map(|b| b[8])) == r.phis.len() as u64
        && sum(&mut r.blocks.iter().map(|b| b[9])) == r.statements.len() as u64
        && sum(&mut r.phis.iter().map(|p| p[3])) == r.inputs.len() as u64
        && r.blocks.iter().all(|b| has(b[2], &b[3..5]) && has(b[5], &b[6..8]))
        && r.phis.iter().all(|p| p[2] <= 1);
    refuse(4, !adds_up)?;
    let sound = |s: &[u32; 11]| {
        let f = fields(s);
        s[2] <= mark::DEAD + mark::FLAGS + mark::PUSH
            && match s[3] {
                kind::ASSIGN => zeros(&f[3..]),
                kind::STORE => f[0] <= 255 && zeros(&f[3..]),
                kind::CALL => has(f[3], &f[4..6]),
                kind::BRANCH => has(f[0], &f[1..3]) && has(f[3], &f[4..6]),
                kind::FLAGS => f[0] <= 1 && zeros(&f[3..]),
                kind::RETURN => has(f[0], &f[1..2]) && zeros(&f[2..]),
                kind::OTHER => zeros(&f[4..]),
                _ => false,
            }
    };
    refuse(4, !r.statements.iter().all(sound))?;
    let sound = |e: &[u32; 5]| match e[0] {
        tag::CONST | tag::USE | tag::OPAQUE => zeros(&e[3..]),
        tag::BIN => true,
        tag::UN => zeros(&e[4..]),
        tag::LOAD => e[1] <= 255 && zeros(&e[3..]),
        _ => false,
    };
    refuse(4, !r.expressions.iter().all(sound))?;
    let mut at = 0u64;
    let mut lists = Vec::with_capacity(r.statements.len());
    for s in &r.statements {
        let f = fields(s);
        let (expressions, values) = match s[3] {
            kind::CALL => (f[2], f[6]),
            kind::BRANCH => (f[6], 0),
            kind::OTHER => (f[2], f[3]),
            _ => (0, 0),
        };
        let middle = at + u64::from(expressions);
        let end = middle + u64::from(values);
        refuse(4, end > r.lists.len() as u64)?;
        lists.push(Lists { expressions: at as usize..middle as usize, values: middle as usize..end as usize });
        at = end;
    }
    refuse(4, at != r.lists.len() as u64)?;
    refuse(4, lists.iter().any(|l| r.lists[l.expressions.clone()].iter().any(|item| item[1] != 0)))?;
    Ok(lists)
}

/// Check 5: text, operators, names, children, and exactly one owner for each expression.
fn references(r: &Records, lists: &[Lists]) -> Result<(), Refusal> {
    refuse(5, !r.text.iter().all(|c| (0x20..=0x7E).contains(c)))?;
    let inside = |start: u32, length: u32| u64::from(start) + u64::from(length) <= r.text.len() as u64;
    refuse(5, !r.names.iter().all(|n| n[3] > 0 && inside(n[2], n[3])))?;
    let mut owners = vec![0u32; r.expressions.len()];
    // An owner may name what stands below `most` only.
    let mut own = |e: u32, most: usize| -> Result<(), Refusal> {
        refuse(5, e as usize >= most)?;
        owners[e as usize] += 1;
        Ok(())
    };
    for (i, e) in r.expressions.iter().enumerate() {
        match e[0] {
            tag::BIN => {
                refuse(5, e[2] == 0 || !inside(e[1], e[2]))?;
                own(e[3], i)?;
                own(e[4], i)?;
            }
            tag::UN => {
                refuse(5, e[2] == 0 || !inside(e[1], e[2]))?;
                own(e[3], i)?;
            }
            tag::LOAD => own(e[2], i)?,
            tag::OPAQUE => refuse(5, !inside(e[1], e[2]))?,
            _ => {}
        }
    }
    for (s, l) in r.statements.iter().zip(lists) {
        let f = fields(s);
        let all = r.expressions.len();
        match s[3] {
            kind::ASSIGN => own(f[2], all)?,
            kind::STORE | kind::FLAGS => {
                own(f[1], all)?;
                own(f[2], all)?;
            }
            kind::CALL | kind::OTHER => refuse(5, !inside(f[0], f[1]))?,
            kind::BRANCH => refuse(5, !inside(f[1], f[2]))?,
            kind::RETURN if f[0] == 1 => own(f[1], all)?,
            _ => {}
        }
        for item in &r.lists[l.expressions.clone()] {
            own(item[0], all)?;
        }
    }
    refuse(5, owners.iter().any(|n| *n != 1))
}

/// Check 6: bits, registers, args, block starts, names, definitions, indirect calls.
fn values(r: &Records, lists: &[Lists]) -> Result<(), Refusal> {
    refuse(6, r.bits != 32 && r.bits != 64)?;
    // Registers are seen below wherever a value is gathered; a value is one number, register high.
    let value = |register: u32, version: u32| u64::from(register) << 32 | u64::from(version);
    let mut phis_and_assigns = Vec::new();
    let mut others = Vec::new();
    for p in &r.phis {
        phis_and_assigns.push(value(p[0], p[1]));
    }
    for (s, l) in r.statements.iter().zip(lists) {
        let f = fields(s);
        match s[3] {
            kind::ASSIGN => phis_and_assigns.push(value(f[0], f[1])),
            kind::CALL => {
                if f[3] == 1 {
                    others.push(value(f[4], f[5]));
                }
                // Text ranges were checked before.
                refuse(6, f[2] == 0 && f[1] > 0 && r.text[f[0] as usize] == b'[')?;
            }
            _ => {}
        }
        others.extend(r.lists[l.values.clone()].iter().map(|v| value(v[0], v[1])));
    }
    let over = |v: &u64| *v >> 32 > 15;
    refuse(6, phis_and_assigns.iter().any(over) || others.iter().any(over))?;
    refuse(6, r.expressions.iter().any(|e| e[0] == tag::USE && e[1] > 15))?;
    refuse(6, r.args.iter().any(|a| *a > 15 || *a == u32::from(RSP)) || repeats(&mut r.args.clone()))?;
    refuse(6, repeats(&mut r.blocks.iter().map(|b| join(b[0], b[1])).collect::<Vec<_>>()))?;
    refuse(6, r.names.windows(2).any(|n| join(n[0][0], n[0][1]) >= join(n[1][0], n[1][1])))?;
    refuse(6, phis_and_assigns.iter().any(|v| *v as u32 == 0) || repeats(&mut phis_and_assigns))?;
    // `repeats` has sorted them.
    refuse(6, others.iter().any(|v| phis_and_assigns.binary_search(v).is_ok()))
}

/// Whether a number stands twice; leaves them sorted.
fn repeats<T: Ord>(numbers: &mut [T]) -> bool {
    numbers.sort_unstable();
    numbers.windows(2).any(|w| w[0] == w[1])
}

/// Upstream's function from records that passed all checks: every index is inside, every expression taken once.
fn build(r: &Records, lists: &[Lists]) -> Function {
    let pool: String = r.text.iter().map(|c| char::from(*c)).collect();
    let text = |start: u32, length: u32| &pool[start as usize..(start + length) as usize];
    let mut made: Vec<Option<Expr>> = Vec::with_capacity(r.expressions.len());
    let take = |made: &mut Vec<Option<Expr>>, e: u32| made[e as usize].take().expect("exactly one owner");
    for e in &r.expressions {
        let one = match e[0] {
            tag::CONST => Expr::Const(join(e[1], e[2]) as i64),
            tag::USE => Expr::Use(e[1] as Var, e[2]),
            tag::BIN => {
                let left = take(&mut made, e[3]);
                Expr::Bin(intern(text(e[1], e[2])), Box::new(left), Box::new(take(&mut made, e[4])))
            }
            tag::UN => Expr::Un(intern(text(e[1], e[2])), Box::new(take(&mut made, e[3]))),
            tag::LOAD => Expr::Load(e[1] as u8, Box::new(take(&mut made, e[2]))),
            _ => Expr::Opaque(text(e[1], e[2]).to_string()),
        };
        made.push(Some(one));
    }
    let mut statements = r.statements.iter().zip(lists).map(|(s, l)| {
        let f = fields(s);
        let mut own = |e: u32| take(&mut made, e);
        let values = r.lists[l.values.clone()].iter().map(|v| (v[0] as Var, v[1])).collect();
        let kind = match s[3] {
            kind::ASSIGN => Kind::Assign { def: f[0] as Var, ver: f[1], expr: own(f[2]) },
            kind::STORE => Kind::Store { size: f[0] as u8, addr: own(f[1]), val: own(f[2]) },
            kind::CALL => Kind::Call {
                target: text(f[0], f[1]).to_string(),
                args: r.lists[l.expressions.clone()].iter().map(|i| own(i[0])).collect(),
                ret: (f[3] == 1).then_some((f[4] as Var, f[5])),
                clobbers: values,
            },
            kind::BRANCH => Kind::Branch {
                cond: (f[0] == 1).then(|| text(f[1], f[2]).to_string()),
                uses: r.lists[l.expressions.clone()].iter().map(|i| own(i[0])).collect(),
                target: (f[3] == 1).then_some(join(f[4], f[5])),
            },
            kind::FLAGS => Kind::Flags { test: f[0] == 1, a: own(f[1]), b: own(f[2]) },
            kind::RETURN => Kind::Return { val: (f[0] == 1).then(|| own(f[1])) },
            _ => Kind::Other {
                text: text(f[0], f[1]).to_string(),
                uses: r.lists[l.expressions.clone()].iter().map(|i| own(i[0])).collect(),
                defs: values,
            },
        };
        let marked = |m: u32| s[2] & m != 0;
        Stmt { address: join(s[0], s[1]), kind, dead: marked(mark::DEAD), flags: marked(mark::FLAGS), push: marked(mark::PUSH) }
    });
    let mut inputs = r.inputs.iter();
    let mut phis = r.phis.iter().map(|p| Phi {
        var: p[0] as Var,
        ver: p[1],
        // The predecessor is not in the file: upstream's printer never looks at it.
        args: inputs.by_ref().take(p[3] as usize).map(|n| (0, *n)).collect(),
        dead: p[2] == 1,
    });
    let blocks = r
        .blocks
        .iter()
        .map(|b| Block {
            start: join(b[0], b[1]),
            phis: phis.by_ref().take(b[8] as usize).collect(),
            stmts: statements.by_ref().take(b[9] as usize).collect(),
            taken: (b[2] == 1).then_some(join(b[3], b[4])),
            fall: (b[5] == 1).then_some(join(b[6], b[7])),
        })
        .collect();
    drop(statements);
    Function {
        ssa: SsaFunction { blocks, bits: r.bits },
        returns: r.returns == 1,
        args: r.args.iter().map(|a| *a as Var).collect(),
        names: r.names.iter().map(|n| (join(n[0], n[1]), text(n[2], n[3]).to_string())).collect(),
        text: pool,
    }
}

/// Upstream's operators are `&'static str`: each distinct spelling is kept for good, once.
pub fn intern(spelling: &str) -> &'static str {
    const USUAL: [&str; 11] = ["+", "-", "*", "&", "|", "^", "<<", ">>", ">>s", "~", "!"];
    static MORE: Mutex<Option<HashSet<&'static str>>> = Mutex::new(None);
    if let Some(usual) = USUAL.iter().find(|u| **u == spelling) {
        return usual;
    }
    let mut more = MORE.lock().unwrap_or_else(|poisoned| poisoned.into_inner());
    let more = more.get_or_insert_with(HashSet::new);
    if let Some(known) = more.get(spelling) {
        return known;
    }
    let kept: &'static str = Box::leak(spelling.into());
    more.insert(kept);
    kept
}
