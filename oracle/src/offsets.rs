//! Check 7: the stack offsets of both closures in whole numbers, and every expression node held against the limit.

use std::collections::HashMap;

use crate::refusal::Refusal;
use crate::upstream::ssa::{Expr, Kind, SsaFunction, Var, RSP};

type Value = (Var, u32);

/// Steps are at most 2^63 and as many as statements, so 128 bits hold every sum.
type Offsets = HashMap<Value, i128>;

/// Refuses with 7 when a node of any expression, dead or never printed, has an offset outside ±(2^63 - 1).
pub fn check(f: &SsaFunction) -> Result<(), Refusal> {
    let known = offsets(f);
    let most = i128::from(i64::MAX);
    let outside = |e: &Expr| address(&known, e).is_some_and(|x| x < -most || x > most);
    match nodes(f).iter().any(|e| outside(e)) {
        true => Err(Refusal(7)),
        false => Ok(()),
    }
}

/// Every expression node of the function; each node of a file stands in exactly one tree.
pub fn nodes(f: &SsaFunction) -> Vec<&Expr> {
    let mut all = Vec::new();
    for s in f.blocks.iter().flat_map(|b| &b.stmts) {
        s.kind.exprs(&mut |e| all.push(e));
    }
    let mut next = 0;
    while next < all.len() {
        match all[next] {
            Expr::Bin(_, a, b) => all.extend([&**a, &**b]),
            Expr::Un(_, a) | Expr::Load(_, a) => all.push(a),
            _ => {}
        }
        next += 1;
    }
    all
}

/// The offset of an address expression as upstream's `stack_off` finds it.
fn address(known: &Offsets, e: &Expr) -> Option<i128> {
    match e {
        Expr::Use(v, n) => known.get(&(*v, *n)).copied(),
        Expr::Bin(op @ ("+" | "-"), a, b) => match (&**a, &**b) {
            (Expr::Use(v, n), Expr::Const(d)) => {
                let base = known.get(&(*v, *n))?;
                Some(if *op == "+" { base + i128::from(*d) } else { base - i128::from(*d) })
            }
            _ => None,
        },
        _ => None,
    }
}

/// A definition that may carry an offset: by its expression, or by inputs that all agree.
enum Source<'a> {
    Assign(&'a Expr),
    Phi(&'a [(u64, u32)]),
}

/// Both closures: rsp's from its own versions alone, then the other registers'.
fn offsets(f: &SsaFunction) -> Offsets {
    let mut sources: Vec<(Value, Source)> = Vec::new();
    for b in &f.blocks {
        sources.extend(b.phis.iter().map(|p| ((p.var, p.ver), Source::Phi(&p.args))));
        for s in &b.stmts {
            if let Kind::Assign { def, ver, expr } = &s.kind {
                sources.push(((*def, *ver), Source::Assign(expr)));
            }
        }
    }
    let (of_rsp, of_others): (Vec<_>, Vec<_>) = sources.into_iter().partition(|((v, _), _)| *v == RSP);
    let mut known = Offsets::from([((RSP, 0), 0)]);
    close(&mut known, of_rsp);
    close(&mut known, of_others);
    known
}

/// Rounds until nothing moves. Each value has one definition, so the order does not matter. While rsp's own
/// closure runs only rsp's values are known, so an rsp taken from another register stays unknown, as upstream has it.
fn close(known: &mut Offsets, mut open: Vec<(Value, Source)>) {
    let mut before = usize::MAX;
    while open.len() < before {
        before = open.len();
        open.retain(|(value, source)| {
            let found = match source {
                Source::Assign(e) => address(known, e),
                Source::Phi(inputs) => {
                    let mut offsets = inputs.iter().map(|(_, n)| known.get(&(value.0, *n)).copied());
                    offsets.next().flatten().filter(|x| offsets.all(|y| y == Some(*x)))
                }
            };
            if let Some(x) = found {
                known.insert(*value, x);
            }
            found.is_none()
        });
    }
}
