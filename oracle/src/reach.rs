//! Which branches of upstream's text a run reaches: counted for each thread when the feature `reach` is on.

use std::cell::RefCell;
use std::collections::BTreeMap;

use crate::upstream::model::{Token, TokenKind};
use crate::upstream::ssa::{Block, Expr, Kind, Stmt, RSP};

/// Counts one passing of a branch; without the feature `reach` nothing is evaluated.
macro_rules! reach {
    ($name:literal) => {
        if cfg!(feature = "reach") {
            $crate::reach::hit($name, "");
        }
    };
    ($prefix:literal, $rest:expr) => {
        if cfg!(feature = "reach") {
            $crate::reach::hit($prefix, $rest);
        }
    };
}

thread_local! {
    static TABLE: RefCell<BTreeMap<&'static str, u64>> = RefCell::new(ALL.iter().map(|n| (*n, 0)).collect());
}

/// Counts the branch named by both parts together. A name that `ALL` lacks is a slip of ours.
pub fn hit(prefix: &str, rest: &str) {
    let name = format!("{prefix}{rest}");
    TABLE.with(|t| match t.borrow_mut().get_mut(name.as_str()) {
        Some(n) => *n += 1,
        None => panic!("reach::ALL lacks {name}"),
    });
}

/// How often this thread reached each branch, those never reached included.
pub fn table() -> BTreeMap<&'static str, u64> {
    TABLE.with(|t| t.borrow().clone())
}

/// Adds another thread's counts to this one's.
pub fn absorb(other: &BTreeMap<&'static str, u64>) {
    TABLE.with(|t| {
        let mut t = t.borrow_mut();
        for (name, n) in other {
            *t.entry(name).or_default() += n;
        }
    });
}

/// An address expression as `stack_off` tells them apart.
pub fn address_name(e: &Expr) -> &'static str {
    match e {
        Expr::Use(RSP, _) => "use.rsp",
        Expr::Use(..) => "use",
        Expr::Bin("+" | "-", a, b) => match (&**a, &**b) {
            (Expr::Use(RSP, _), Expr::Const(_)) => "sum.rsp",
            (Expr::Use(..), Expr::Const(_)) => "sum",
            _ => "sum.other",
        },
        Expr::Bin(..) => "bin",
        _ => "other",
    }
}

pub fn expr_name(e: &Expr) -> &'static str {
    match e {
        Expr::Const(_) => "const",
        Expr::Use(..) => "use",
        Expr::Bin(..) => "bin",
        Expr::Un(..) => "un",
        Expr::Load(..) => "load",
        Expr::Opaque(_) => "opaque",
    }
}

pub fn kind_name(k: &Kind) -> &'static str {
    match k {
        Kind::Assign { .. } => "assign",
        Kind::Store { .. } => "store",
        Kind::Call { .. } => "call",
        Kind::Branch { .. } => "branch",
        Kind::Return { .. } => "return",
        Kind::Flags { .. } => "flags",
        Kind::Other { .. } => "other",
    }
}

/// Why a phi has or lacks a stack offset.
pub fn phi_name(offs: &[Option<i64>]) -> &'static str {
    match offs.first() {
        None => "empty",
        Some(None) => "first.unknown",
        Some(x) if offs.iter().all(|y| y == x) => "agree",
        Some(_) if offs.contains(&None) => "later.unknown",
        Some(_) => "differ",
    }
}

/// Why the first test of the in-place pass passes an Assign over.
pub fn over_name(s: &Stmt, phi: bool, reads: Option<&usize>) -> &'static str {
    match (&s.kind, reads) {
        _ if s.dead => "dead",
        (Kind::Assign { def: RSP, .. }, _) => "rsp",
        _ if phi => "phi",
        (_, None) => "unread",
        _ => "many",
    }
}

/// What an Assign to an argument's register is when it marks it as set.
pub fn set_name(s: &Stmt, place: bool) -> &'static str {
    match (s.dead, place) {
        (true, _) => "dead",
        (_, true) => "place",
        _ => "live",
    }
}

/// The kind of a flag setter.
pub fn setter_name(setter: Option<&Stmt>) -> &'static str {
    match setter.map(|s| &s.kind) {
        None => "none",
        Some(Kind::Flags { test: false, .. }) => "cmp",
        Some(Kind::Flags { a, b, .. }) if a == b => "test.same",
        Some(Kind::Flags { .. }) => "test.differ",
        Some(Kind::Assign { def: RSP, .. }) => "assign.rsp",
        Some(Kind::Assign { .. }) => "assign",
        Some(_) => "other",
    }
}

/// Whether a token has a sign that `negate` could flip, and at which depth.
pub fn sign_name(depth: i32, sign: bool) -> &'static str {
    match (sign, depth) {
        (false, _) => "none",
        (true, 0) => "level",
        _ => "inside",
    }
}

/// Where a conditional branch finds its destination.
pub fn jump_name(b: &Block, target: Option<u64>) -> &'static str {
    match (b.taken, target) {
        (Some(t), Some(own)) if t != own => "taken.not.target",
        (Some(_), _) => "taken",
        (None, Some(_)) => "target",
        (None, None) => "nowhere",
    }
}

/// Where the flag setter stands to the branch.
pub fn place_name(setter: Option<usize>, branch: usize) -> &'static str {
    match setter {
        None => "none",
        Some(s) if s < branch => "before",
        Some(s) if s == branch => "itself",
        Some(_) => "behind",
    }
}

/// What becomes of the fall behind a conditional branch.
pub fn fall_name(b: &Block, next: Option<u64>) -> &'static str {
    match b.fall {
        None => "none",
        fall if fall == next => "next",
        Some(_) => "goto",
    }
}

/// What a supplied name makes of a jump out of the function.
pub fn outward_name(name: Option<String>) -> &'static str {
    match name {
        None => "unnamed",
        Some(n) if n.starts_with("loc_") => "loc",
        Some(n) if n.starts_with('*') => "star",
        Some(_) => "named",
    }
}

/// How a block ends.
pub fn end_name(b: &Block, next: Option<u64>, order: &[u64]) -> &'static str {
    let dead = b.stmts.last().is_some_and(|s| s.dead);
    match (b.stmts.last().map(|s| &s.kind), b.fall.or(b.taken)) {
        (Some(Kind::Branch { .. }), _) if dead => "branch.dead",
        (Some(Kind::Branch { .. }), _) => "branch",
        (Some(Kind::Return { .. }), _) if dead => "return.dead",
        (Some(Kind::Return { .. }), _) => "return",
        (_, None) => "open",
        (_, to) if to == next => "next",
        (_, Some(to)) if order.contains(&to) => "goto",
        _ => "outside",
    }
}

/// What the stripping of a condition's parentheses meets.
pub fn strip_name(cond: &[Token]) -> &'static str {
    match cond {
        [first, ..] if first.t.starts_with(" ( (") => "twice",
        [.., last] if last.k == TokenKind::Punct && last.t == ") " => "whole",
        _ => "part",
    }
}

/// Every name there is, in upstream's order: one never reached stands in the table with 0.
#[rustfmt::skip]
pub const ALL: &[&str] = &[
    "merge.joined",
    "merge.kept",
    "global_name.negative",
    "global_name.low",
    "global_name.high",
    "global_name.supplied",
    "global_name.made",
    "global_name.size.1",
    "global_name.size.2",
    "global_name.size.4",
    "global_name.size.8",
    "global_name.size.other",
    "num.digit.negative",
    "num.digit.positive",
    "num.negative",
    "num.hex",
    "dsu.shorten",
    "dsu.union.joined",
    "dsu.union.same",
    "reg_name.32",
    "reg_name.64in32",
    "reg_name.64",
    "stack_off.use.rsp",
    "stack_off.use",
    "stack_off.sum.rsp",
    "stack_off.sum",
    "stack_off.sum.other",
    "stack_off.bin",
    "stack_off.other",
    "stack_off.base.known",
    "stack_off.base.unknown",
    "stack_off.plus",
    "stack_off.minus",
    "slot.var",
    "slot.arg",
    "expr.full",
    "expr.address",
    "expr.const",
    "expr.use",
    "expr.bin",
    "expr.un",
    "expr.load",
    "expr.opaque",
    "expr.use.place",
    "expr.use.name",
    "expr.use.register",
    "expr.bin.top",
    "expr.bin.inner",
    "expr.load.global",
    "expr.load.slot",
    "expr.load.pointer",
    "condition.setter.none",
    "condition.setter.cmp",
    "condition.setter.test.same",
    "condition.setter.test.differ",
    "condition.setter.assign.rsp",
    "condition.setter.assign",
    "condition.setter.other",
    "condition.mark.none",
    "condition.mark.dead",
    "condition.mark.live",
    "condition.cmp.e",
    "condition.cmp.ne",
    "condition.cmp.l",
    "condition.cmp.ge",
    "condition.cmp.g",
    "condition.cmp.le",
    "condition.cmp.b",
    "condition.cmp.ae",
    "condition.cmp.a",
    "condition.cmp.be",
    "condition.cmp.s",
    "condition.cmp.ns",
    "condition.test.same.e",
    "condition.test.same.ne",
    "condition.test.same.s",
    "condition.test.same.ns",
    "condition.test.same.le",
    "condition.test.same.g",
    "condition.test.differ.e",
    "condition.test.differ.ne",
    "condition.assign.e",
    "condition.assign.ne",
    "condition.assign.s",
    "condition.assign.ns",
    "condition.flags.none",
    "condition.flags.cmp",
    "condition.flags.test.same",
    "condition.flags.test.differ",
    "condition.flags.assign.rsp",
    "condition.flags.assign",
    "condition.flags.other",
    "negate.sign.none",
    "negate.sign.level",
    "negate.sign.inside",
    "negate.and.seen",
    "negate.and.none",
    "negate.or.seen",
    "negate.or.none",
    "negate.signs.none",
    "negate.signs.one",
    "negate.signs.many",
    "negate.flip.==",
    "negate.flip.!=",
    "negate.flip.<",
    "negate.flip.>=",
    "negate.flip.>",
    "negate.flip.<=",
    "negate.wrap",
    "rsp.phi.again",
    "rsp.phi.empty",
    "rsp.phi.first.unknown",
    "rsp.phi.agree",
    "rsp.phi.later.unknown",
    "rsp.phi.differ",
    "rsp.assign.again",
    "rsp.assign.use.rsp",
    "rsp.assign.use",
    "rsp.assign.sum.rsp",
    "rsp.assign.sum",
    "rsp.assign.sum.other",
    "rsp.assign.bin",
    "rsp.assign.other",
    "rsp.assign.known",
    "rsp.assign.unknown",
    "ptr.phi.again",
    "ptr.phi.empty",
    "ptr.phi.first.unknown",
    "ptr.phi.agree",
    "ptr.phi.later.unknown",
    "ptr.phi.differ",
    "ptr.assign.rsp",
    "ptr.assign.again",
    "ptr.assign.known",
    "place.dead",
    "place.rsp",
    "place.phi",
    "place.many",
    "place.unread",
    "place.class",
    "place.elsewhere",
    "place.clobbered",
    "place.taken.load",
    "place.taken",
    "param.read",
    "param.named",
    "param.all",
    "param.implied",
    "name.seen",
    "name.register",
    "name.local.entry",
    "name.local.later",
    "name.over.rsp",
    "name.over.place",
    "name.over.again",
    "read.save",
    "read.class",
    "labels.taken",
    "labels.fall",
    "labels.target.outside",
    "labels.target.dead",
    "labels.target.live",
    "target_name.here",
    "target_name.unnamed",
    "target_name.loc",
    "target_name.star",
    "target_name.named",
    "lower.label.written",
    "lower.label.none",
    "push.marked.assign",
    "push.marked.store",
    "push.marked.call",
    "push.marked.branch",
    "push.marked.return",
    "push.marked.flags",
    "push.marked.other",
    "push.taken.none",
    "push.taken.dead",
    "push.taken.live",
    "lower.dead",
    "lower.kind.assign",
    "lower.kind.store",
    "lower.kind.call",
    "lower.kind.branch",
    "lower.kind.return",
    "lower.kind.flags",
    "lower.kind.other",
    "lower.argument.dead",
    "lower.argument.place",
    "lower.argument.live",
    "lower.assign.dead",
    "lower.assign.rsp",
    "lower.assign.place",
    "lower.assign.restore",
    "lower.assign.named",
    "lower.assign.unnamed",
    "lower.store.pushed",
    "lower.store.save",
    "lower.store.slot",
    "lower.store.pointer",
    "lower.call.ret.none",
    "lower.call.ret.live",
    "lower.call.ret.unread",
    "lower.call.result.named",
    "lower.call.result.unnamed",
    "lower.call.global",
    "lower.call.indirect",
    "lower.call.direct.text",
    "lower.call.direct.named",
    "lower.call.direct.unnamed",
    "lower.call.argument",
    "lower.call.full",
    "lower.call.pushed.dead",
    "lower.call.pushed.live",
    "lower.branch.if.taken",
    "lower.branch.if.taken.not.target",
    "lower.branch.if.target",
    "lower.branch.if.nowhere",
    "lower.branch.setter.none",
    "lower.branch.setter.before",
    "lower.branch.setter.itself",
    "lower.branch.setter.behind",
    "lower.branch.fall.none",
    "lower.branch.fall.next",
    "lower.branch.fall.goto",
    "lower.branch.here.goto",
    "lower.branch.here.next",
    "lower.branch.outward.unnamed",
    "lower.branch.outward.loc",
    "lower.branch.outward.star",
    "lower.branch.tail.argument",
    "lower.branch.tail.returns",
    "lower.branch.tail.void",
    "lower.branch.computed.nothing",
    "lower.branch.computed.value",
    "lower.return.void",
    "lower.return.value",
    "lower.return.bare",
    "lower.other.none",
    "lower.other.one",
    "lower.other.many",
    "lower.end.branch.dead",
    "lower.end.branch",
    "lower.end.return.dead",
    "lower.end.return",
    "lower.end.open",
    "lower.end.next",
    "lower.end.goto",
    "lower.end.outside",
    "lower.close.fall",
    "lower.close.taken",
    "ifs.plain",
    "ifs.left",
    "ifs.adjoining",
    "ifs.nolabel",
    "ifs.entered",
    "ifs.deep",
    "ifs.formed",
    "ifs.strip.twice",
    "ifs.strip.whole",
    "ifs.strip.part",
    "loops.plain",
    "loops.left",
    "loops.back",
    "loops.noback",
    "loops.others",
    "loops.entered",
    "loops.deep",
    "loops.strip.twice",
    "loops.strip.whole",
    "loops.strip.part",
    "loops.formed.empty",
    "loops.formed.body",
    "drop.kept",
    "drop.dropped",
];

#[cfg(test)]
mod tests {
    use super::ALL;

    /// The names upstream's text gives, each with whether something is still added to it.
    fn given() -> Vec<(&'static str, bool)> {
        [include_str!("upstream/c.rs"), include_str!("upstream/pseudo_opt.rs")]
            .iter()
            .flat_map(|text| text.split("reach!(\"").skip(1))
            .map(|rest| rest.split_once('"').expect("a name is a literal"))
            .map(|(name, rest)| (name, rest.starts_with(',')))
            .collect()
    }

    #[test]
    fn all_and_the_text_agree() {
        for (name, open) in given() {
            assert!(ALL.iter().any(|a| if open { a.starts_with(name) } else { *a == name }), "ALL lacks {name}");
        }
        for name in ALL {
            assert!(given().iter().any(|(g, open)| if *open { name.starts_with(g) } else { name == g }), "nothing gives {name}");
        }
        let distinct: std::collections::HashSet<_> = ALL.iter().collect();
        assert_eq!(distinct.len(), ALL.len());
    }
}
