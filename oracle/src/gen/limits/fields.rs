//! Fields of the contents and of the records: the last value that is allowed and the first that is not.

use super::super::builder::Function;
use super::super::edit::{section, word};
use super::super::rng::Rng;
use super::specimen::{first, function};
use super::{case, Case};
use crate::records::{kind, tag, Records};

use section::{BLOCKS, EXPRESSIONS, LISTS, NAMES, PHIS, STATEMENTS};

pub const CASES: [Case; 15] = [
    case("edition", edition, [0, 2]),
    case("word 3", reserved, [0, 2]),
    case("returns", |rng, past| head(rng, past, |r, v| r.returns = v, &[0, 1], &[2, u32::MAX]), [0, 4]),
    case("bits", |rng, past| head(rng, past, |r, v| r.bits = v, &[32, 64], &[0, 31, 33, 63, 65, 16]), [0, 6]),
    case("offset of a section", offset, [0, 4]),
    case("count of a section", count, [0, 4]),
    case("end of the file", end, [0, 4]),
    case("marks", |rng, past| stmt_field(rng, past, 2, &[7, 0], &[8, u32::MAX]), [0, 4]),
    case("size", size, [0, 4]),
    case("a 0/1 word", flag, [0, 4]),
    case("kind and tag", number, [0, 4]),
    case("unused fields", unused, [0, 4]),
    case("a byte of text", text_byte, [0, 5]),
    case("a range of text", range, [0, 5]),
    case("counts that are right modulo 2^32 only", wrapped, [0, 4]),
];

fn head(rng: &mut Rng, past: bool, set: fn(&mut Records, u32), good: &[u32], bad: &[u32]) -> Vec<u8> {
    let mut r = function().records();
    set(&mut r, rng.pick(if past { bad } else { good }));
    r.bytes()
}

fn edition(rng: &mut Rng, past: bool) -> Vec<u8> {
    head(rng, past, |r, v| r.edition = v, &[1], &[0, 2, 0x0100_0000])
}

fn reserved(rng: &mut Rng, past: bool) -> Vec<u8> {
    head(rng, past, |r, v| r.reserved = v, &[0], &[1, u32::MAX])
}

fn add(file: &mut [u8], at: usize, by: u32) {
    let w = [file[4 * at], file[4 * at + 1], file[4 * at + 2], file[4 * at + 3]];
    file[4 * at..4 * at + 4].copy_from_slice(&u32::from_le_bytes(w).wrapping_add(by).to_le_bytes());
}

/// An empty section has its offset, too.
fn offset(rng: &mut Rng, past: bool) -> Vec<u8> {
    let f = if rng.coin() { function() } else { Function { bits: 64, ..Function::default() } };
    let mut file = f.records().bytes();
    if past {
        add(&mut file, 4 + 2 * rng.below(9), rng.pick(&[1, 4, u32::MAX]));
    }
    file
}

fn count(rng: &mut Rng, past: bool) -> Vec<u8> {
    let mut file = function().records().bytes();
    if past {
        add(&mut file, 5 + 2 * rng.below(9), rng.pick(&[1, u32::MAX]));
    }
    file
}

fn end(rng: &mut Rng, past: bool) -> Vec<u8> {
    let mut file = function().records().bytes();
    match (past, rng.coin()) {
        (true, true) => file.push(b'x'),
        (true, false) => file.truncate(file.len() - 1),
        _ => {}
    }
    file
}

fn set(section: usize, at: usize, field: usize, value: u32) -> Vec<u8> {
    let mut r = function().records();
    *word(&mut r, section, at, field) = value;
    r.bytes()
}

fn stmt_field(rng: &mut Rng, past: bool, field: usize, good: &[u32], bad: &[u32]) -> Vec<u8> {
    let at = rng.below(function().records().statements.len());
    set(STATEMENTS, at, field, rng.pick(if past { bad } else { good }))
}

fn size(rng: &mut Rng, past: bool) -> Vec<u8> {
    let r = function().records();
    let value = if past { rng.pick(&[256, u32::MAX]) } else { 255 };
    if rng.coin() {
        set(EXPRESSIONS, first(&r, EXPRESSIONS, tag::LOAD), 1, value)
    } else {
        set(STATEMENTS, first(&r, STATEMENTS, kind::STORE), 4, value)
    }
}

fn flag(rng: &mut Rng, past: bool) -> Vec<u8> {
    let r = function().records();
    let (section, at, field) = match rng.below(8) {
        0 => (BLOCKS, 0, 2),
        1 => (BLOCKS, 0, 5),
        2 => (PHIS, 0, 2),
        3 => (STATEMENTS, first(&r, STATEMENTS, kind::CALL), 7),
        4 => (STATEMENTS, first(&r, STATEMENTS, kind::BRANCH), 4),
        5 => (STATEMENTS, first(&r, STATEMENTS, kind::BRANCH), 7),
        6 => (STATEMENTS, first(&r, STATEMENTS, kind::FLAGS), 4),
        _ => (STATEMENTS, first(&r, STATEMENTS, kind::RETURN), 4),
    };
    set(section, at, field, if past { rng.pick(&[2, u32::MAX]) } else { 1 })
}

/// No kind is 0 or 8, no tag 0 or 7; at the limit stand all that are.
fn number(rng: &mut Rng, past: bool) -> Vec<u8> {
    let r = function().records();
    match (past, rng.coin()) {
        (false, _) => r.bytes(),
        (true, true) => set(STATEMENTS, rng.below(r.statements.len()), 3, rng.pick(&[0, 8, u32::MAX])),
        (true, false) => set(EXPRESSIONS, rng.below(r.expressions.len()), 0, rng.pick(&[0, 7, u32::MAX])),
    }
}

/// The fields of statement `at` that its kind does not use or whose has-word is 0.
fn idle_fields(r: &Records, at: usize) -> Vec<usize> {
    let s = &r.statements[at];
    let absent = |has: usize, fields: &[usize]| if s[has] == 0 { fields.to_vec() } else { Vec::new() };
    match s[3] {
        kind::ASSIGN | kind::STORE | kind::FLAGS => (7..11).collect(),
        kind::CALL => absent(7, &[8, 9]),
        kind::BRANCH => [absent(4, &[5, 6]), absent(7, &[8, 9])].concat(),
        kind::RETURN => [absent(4, &[5]), (6..11).collect()].concat(),
        _ => (8..11).collect(),
    }
}

/// Every field of the specimen that has to be 0.
fn idle(r: &Records) -> Vec<(usize, usize, usize)> {
    let mut out = vec![(LISTS, 0, 1)];
    for at in 0..r.statements.len() {
        out.extend(idle_fields(r, at).into_iter().map(|f| (STATEMENTS, at, f)));
    }
    for (at, e) in r.expressions.iter().enumerate() {
        let from = match e[0] {
            tag::BIN => 5,
            tag::UN => 4,
            _ => 3,
        };
        out.extend((from..5).map(|f| (EXPRESSIONS, at, f)));
    }
    for (at, b) in r.blocks.iter().enumerate() {
        out.extend([2, 5].into_iter().filter(|has| b[*has] == 0).flat_map(|has| [(BLOCKS, at, has + 1), (BLOCKS, at, has + 2)]));
    }
    out
}

fn unused(rng: &mut Rng, past: bool) -> Vec<u8> {
    let r = function().records();
    let (section, at, field) = rng.pick(&idle(&r));
    set(section, at, field, if past { rng.pick(&[1, 16, u32::MAX]) } else { 0 })
}

fn text_byte(rng: &mut Rng, past: bool) -> Vec<u8> {
    let mut r = function().records();
    let at = rng.below(r.text.len());
    r.text[at] = rng.pick(if past { &[0x1F, 0x7F, 0, 0xFF] } else { &[0x20, 0x7E, 0x21, 0x7D] });
    r.bytes()
}

/// A range that ends where the text ends, or one byte later; one of no bytes there; one whose end wraps; and
/// lengths of 1 and 0 where a text must not be empty.
fn range(rng: &mut Rng, past: bool) -> Vec<u8> {
    let r = function().records();
    let end = r.text.len() as u32;
    let (section, at, start, empty) = match rng.below(6) {
        0 => (STATEMENTS, first(&r, STATEMENTS, kind::OTHER), 4, true),
        1 => (STATEMENTS, first(&r, STATEMENTS, kind::BRANCH), 5, true),
        2 => (EXPRESSIONS, first(&r, EXPRESSIONS, tag::OPAQUE), 1, true),
        3 => (EXPRESSIONS, first(&r, EXPRESSIONS, tag::BIN), 1, false),
        4 => (EXPRESSIONS, first(&r, EXPRESSIONS, tag::UN), 1, false),
        _ => (NAMES, 0, 2, false),
    };
    let range = match (past, rng.below(4), empty) {
        (false, 0, true) => [end, 0],
        (true, 0, true) => [end + 1, 0],
        (false, 1, _) => [0, 1],
        (true, 0 | 1, false) => [0, 0],
        (true, 1, true) => [u32::MAX, 1],
        (false, _, _) => [0, end],
        (true, 2, _) => [1, end],
        (true, _, _) => [end, u32::MAX - end + 1],
    };
    let mut r = r;
    *word(&mut r, section, at, start) = range[0];
    *word(&mut r, section, at, start + 1) = range[1];
    r.bytes()
}

/// Two owners of parts whose counts add up, if at all, only modulo 2^32.
fn wrapped(rng: &mut Rng, past: bool) -> Vec<u8> {
    let mut r = function().records();
    if past {
        let (field, section, one, two) = match rng.below(3) {
            0 => (8, BLOCKS, 0, 1),
            1 => (9, BLOCKS, 0, 2),
            _ => (3, PHIS, 0, 1),
        };
        // Never a number that the second owner has: then parts would only change hands.
        let by: u32 = rng.pick(&[1 << 31, 1 << 30, 50]);
        for (at, by) in [(one, by), (two, by.wrapping_neg())] {
            let w = word(&mut r, section, at, field);
            *w = w.wrapping_add(by);
        }
    }
    r.bytes()
}
