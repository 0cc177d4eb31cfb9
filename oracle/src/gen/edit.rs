//! Changes to records: a field by its place, and records removed, doubled and exchanged.

use crate::records::Records;

/// Sections of records, by their place among the nine; the ninth is the text.
pub mod section {
    pub const ARGS: usize = 0;
    pub const BLOCKS: usize = 1;
    pub const PHIS: usize = 2;
    pub const INPUTS: usize = 3;
    pub const STATEMENTS: usize = 4;
    pub const LISTS: usize = 5;
    pub const EXPRESSIONS: usize = 6;
    pub const NAMES: usize = 7;
}

/// Field `field` of record `at`, which must be there.
pub fn word(r: &mut Records, section: usize, at: usize, field: usize) -> &mut u32 {
    match section {
        section::ARGS => &mut r.args[at],
        section::BLOCKS => &mut r.blocks[at][field],
        section::PHIS => &mut r.phis[at][field],
        section::INPUTS => &mut r.inputs[at],
        section::STATEMENTS => &mut r.statements[at][field],
        section::LISTS => &mut r.lists[at][field],
        section::EXPRESSIONS => &mut r.expressions[at][field],
        _ => &mut r.names[at][field],
    }
}

#[derive(Clone, Copy)]
pub enum How {
    Remove,
    /// Puts a copy behind the record.
    Double,
    /// Exchanges the record with another.
    Swap(usize),
}

fn change<T: Clone>(list: &mut Vec<T>, at: usize, how: How) {
    match how {
        How::Remove => drop(list.remove(at)),
        How::Double => list.insert(at, list[at].clone()),
        How::Swap(other) => list.swap(at, other),
    }
}

/// Changes record `at`, which must be there; the sections behind move along.
pub fn record(r: &mut Records, section: usize, at: usize, how: How) {
    match section {
        section::ARGS => change(&mut r.args, at, how),
        section::BLOCKS => change(&mut r.blocks, at, how),
        section::PHIS => change(&mut r.phis, at, how),
        section::INPUTS => change(&mut r.inputs, at, how),
        section::STATEMENTS => change(&mut r.statements, at, how),
        section::LISTS => change(&mut r.lists, at, how),
        section::EXPRESSIONS => change(&mut r.expressions, at, how),
        _ => change(&mut r.names, at, how),
    }
}
