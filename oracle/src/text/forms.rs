//! How each record is laid out and written: one table by which the printer, the parser and the checks go.

use super::words::Spelling;
use crate::records::{kind, tag};

/// Numbers of sections, as in `records::SECTIONS`.
pub mod section {
    pub const PHIS: usize = 2;
    pub const INPUTS: usize = 3;
    pub const STATEMENTS: usize = 4;
    pub const LISTS: usize = 5;
}

/// What a list holds, one item for each record of the section it takes from.
#[derive(Clone, Copy, PartialEq, Eq)]
pub enum Of {
    Expr,
    Value,
    Version,
}

impl Of {
    pub fn section(self) -> usize {
        match self {
            Of::Expr | Of::Value => section::LISTS,
            Of::Version => section::INPUTS,
        }
    }
}

/// One part of a record and of its line. Signs and words in it are those of the line.
pub enum Item {
    /// Only written: no word of the record.
    Lit(&'static str),
    /// One word, in decimal.
    Number,
    /// One word, a register.
    Register,
    /// Two words, an address or a constant.
    Wide,
    /// Two words, register and version.
    Value,
    /// One word, the number of an expression.
    Expr,
    /// One word up to 255.
    Size,
    /// Two words, start and length.
    Text(Spelling),
    /// One word, 0 (written as the first) or 1 (written as the second and what follows it, 0 without it).
    Has(&'static str, &'static str, &'static [Item]),
    /// One word, the number of items, between two signs; written with no items too if the last says so.
    List(Of, &'static str, &'static str, bool),
    /// One word, the number of records of a section that follow on lines of their own.
    Owned(usize),
}

use Item::*;

/// Words 1 and 2 of the contents.
pub const FUNCTION: &[Item] = &[Lit("function "), Number, Lit(" bits"), Has("", " returns", &[])];

pub const ARG: &[Item] = &[Register];

pub const BLOCK: &[Item] = &[
    Lit("block "),
    Wide,
    Has("", " taken ", &[Wide]),
    Has("", " fall ", &[Wide]),
    Owned(section::PHIS),
    Owned(section::STATEMENTS),
];

pub const PHI: &[Item] = &[Lit("phi "), Value, Has("", " dead", &[]), List(Of::Version, " (", ")", true)];

pub const INPUT: &[Item] = &[Number];

pub const NAME: &[Item] = &[Lit("name "), Wide, Lit(" "), Text(Spelling::Name)];

pub const LIST_EXPR: &[Item] = &[Expr];
pub const LIST_VALUE: &[Item] = &[Value];

/// The words in front of a statement's fields: address, marks, kind.
pub const STATEMENT_HEAD: usize = 4;

/// Kinds of statements, by number.
pub const KINDS: [(u32, &[Item]); 7] = [
    (kind::ASSIGN, &[Value, Lit(" = "), Expr]),
    (kind::STORE, &[Lit("store "), Size, Lit(" ["), Expr, Lit("] = "), Expr]),
    (
        kind::CALL,
        &[
            Lit("call "),
            Text(Spelling::Quoted),
            List(Of::Expr, "(", ")", true),
            Has("", " ret ", &[Value]),
            List(Of::Value, " clobbers ", "", false),
        ],
    ),
    (
        kind::BRANCH,
        &[
            Has("jump", "branch ", &[Text(Spelling::Condition)]),
            Has("", " to ", &[Wide]),
            List(Of::Expr, " uses ", "", false),
        ],
    ),
    (kind::FLAGS, &[Has("cmp", "test", &[]), Lit("("), Expr, Lit(", "), Expr, Lit(")")]),
    (kind::RETURN, &[Lit("return"), Has("", " ", &[Expr])]),
    (
        kind::OTHER,
        &[
            Lit("other "),
            Text(Spelling::Quoted),
            List(Of::Expr, " uses ", "", false),
            List(Of::Value, " defs ", "", false),
        ],
    ),
];

/// The word in front of an expression's fields: its tag.
pub const EXPRESSION_HEAD: usize = 1;

/// Tags of expressions, by number: layout only, they are written by `expressions`.
pub const TAGS: [(u32, &[Item]); 6] = [
    (tag::CONST, &[Wide]),
    (tag::USE, &[Value]),
    (tag::BIN, &[Text(Spelling::Operator), Expr, Expr]),
    (tag::UN, &[Text(Spelling::Operator), Expr]),
    (tag::LOAD, &[Size, Expr]),
    (tag::OPAQUE, &[Text(Spelling::Quoted)]),
];

/// The form of a kind or tag, if there is such a one.
pub fn form_of(table: &[(u32, &'static [Item])], number: u32) -> Option<&'static [Item]> {
    table.iter().find(|(n, _)| *n == number).map(|(_, form)| *form)
}

/// The words that an item takes of its record.
pub fn width(item: &Item) -> usize {
    match item {
        Lit(_) => 0,
        Number | Register | Expr | Size | List(..) | Owned(_) => 1,
        Wide | Value | Text(_) => 2,
        Has(_, _, of) => 1 + words(of),
    }
}

/// The words that a form takes.
pub fn words(form: &[Item]) -> usize {
    form.iter().map(width).sum()
}

/// An item of a record: the word at which it begins and whether it is there (no 0 in front of it says no).
pub struct Part {
    pub item: &'static Item,
    pub word: usize,
    pub there: bool,
}

/// The parts of a record whose form begins at a word.
pub fn parts(form: &'static [Item], record: &[u32], first: usize) -> Vec<Part> {
    let mut out = Vec::new();
    add_parts(form, record, first, true, &mut out);
    out
}

fn add_parts(form: &'static [Item], record: &[u32], first: usize, there: bool, out: &mut Vec<Part>) {
    let mut word = first;
    for item in form {
        out.push(Part { item, word, there });
        if let Has(_, _, of) = item {
            add_parts(of, record, word + 1, there && record.get(word).is_some_and(|w| *w != 0), out);
        }
        word += width(item);
    }
}
