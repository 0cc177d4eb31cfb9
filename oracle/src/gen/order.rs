//! Expressions may stand in any order as long as children are lower: brings them into some such order.

use super::rng::Rng;
use crate::records::{kind, tag, Records};

/// The fields of an expression that name its children.
fn children(record: &mut [u32; 5]) -> Vec<&mut u32> {
    let [tag, _, second, third, fourth] = record;
    match *tag {
        tag::BIN => vec![third, fourth],
        tag::UN => vec![third],
        tag::LOAD => vec![second],
        _ => Vec::new(),
    }
}

/// The fields of a statement that name expressions, and how many list items of expressions and of values it has.
fn parts(record: &mut [u32; 11]) -> (Vec<&mut u32>, usize, usize) {
    let [_, _, _, number, a, b, c, d, _, _, g] = record;
    match *number {
        kind::ASSIGN => (vec![c], 0, 0),
        kind::STORE | kind::FLAGS => (vec![b, c], 0, 0),
        kind::CALL => (Vec::new(), *c as usize, *g as usize),
        kind::BRANCH => (Vec::new(), *g as usize, 0),
        kind::RETURN if *a == 1 => (vec![b], 0, 0),
        kind::OTHER => (Vec::new(), *c as usize, *d as usize),
        _ => (Vec::new(), 0, 0),
    }
}

/// Every field of the records' statements and lists that names an expression.
fn owners(records: &mut Records) -> Vec<&mut u32> {
    let mut out = Vec::new();
    let mut items = records.lists.iter_mut();
    for s in &mut records.statements {
        let (fields, exprs, values) = parts(s);
        out.extend(fields);
        out.extend(items.by_ref().take(exprs).map(|item| &mut item[0]));
        items.by_ref().take(values).for_each(drop);
    }
    out
}

/// Numbers the expressions of a sound file anew, children still lower than their parents.
pub fn renumber(records: &mut Records, rng: &mut Rng) {
    let count = records.expressions.len();
    let mut number = vec![0u32; count];
    let mut ready: Vec<usize> = owners(records).iter().map(|r| **r as usize).collect();
    for next in (0..count as u32).rev() {
        let at = ready.swap_remove(rng.below(ready.len()));
        number[at] = next;
        ready.extend(children(&mut records.expressions[at]).iter().map(|c| **c as usize));
    }
    let mut moved = vec![[0; 5]; count];
    for (at, record) in records.expressions.iter_mut().enumerate() {
        children(record).into_iter().for_each(|c| *c = number[*c as usize]);
        moved[number[at] as usize] = *record;
    }
    records.expressions = moved;
    owners(records).into_iter().for_each(|r| *r = number[*r as usize]);
}
