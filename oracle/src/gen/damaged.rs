//! Profile `damaged`: files of the other profiles with one to three places spoilt, so that every check is met
//! from both sides and the order of the checks shows.

use super::edit::{record, section, word, How};
use super::rng::Rng;
use super::{jumps, lifter, limits, odd, random};
use crate::records::{kind, tag, Records, CONTENTS, SECTIONS};

pub fn bytes(rng: &mut Rng) -> Vec<u8> {
    // Files at the limits are bytes already; they are spoilt as such.
    if rng.one_in(40) {
        let seed = rng.word();
        let mut file = limits::bytes(seed);
        spoil_bytes(rng, &mut file);
        return file;
    }
    let mut records = small(rng);
    for _ in 0..rng.weighted(&[2, 12, 3, 1]) {
        spoil(rng, &mut records);
    }
    let mut file = records.bytes();
    if rng.one_in(3) {
        spoil_bytes(rng, &mut file);
    }
    file
}

/// A file of another profile: of a few drawn the smallest, for in a small one each place is met more often.
fn small(rng: &mut Rng) -> Records {
    let mut best = draw(rng);
    for _ in 0..rng.below(3) {
        let next = draw(rng);
        if next.counts().iter().sum::<usize>() < best.counts().iter().sum() {
            best = next;
        }
    }
    best
}

fn draw(rng: &mut Rng) -> Records {
    match rng.below(5) {
        0 => lifter::records(rng, 32),
        1 => lifter::records(rng, 64),
        2 => jumps::records(rng),
        3 => odd::records(rng),
        _ => random::records(rng),
    }
}

/// A value to put in place of `old`, where `limit` is the first that is too large.
fn value(rng: &mut Rng, old: u32, limit: u32) -> u32 {
    match rng.below(11) {
        0 => 0,
        1 => 1,
        2 => old.wrapping_add(1),
        3 => old.wrapping_sub(1),
        4 => limit.wrapping_sub(1),
        5 => limit,
        6 => limit.wrapping_add(1),
        7 => u32::MAX,
        8 => 1 << 31,
        9 => rng.below(16) as u32,
        _ => rng.word() as u32,
    }
}

fn spoil(rng: &mut Rng, r: &mut Records) {
    match rng.below(16) {
        0..=4 => field(rng, r),
        5 => head(rng, r),
        6 | 7 => records(rng, r),
        8 => owned(rng, r),
        9 => text(rng, r),
        10 => definition(rng, r),
        11 => start(rng, r),
        12 => name(rng, r),
        13 => child(rng, r),
        14 => arguments(rng, r),
        _ => range(rng, r),
    }
}

/// A section that has records, and one of them.
fn place(rng: &mut Rng, r: &Records) -> Option<(usize, usize)> {
    let counts = r.counts();
    let filled: Vec<usize> = (section::ARGS..=section::NAMES).filter(|s| counts[*s] > 0).collect();
    if filled.is_empty() {
        return None;
    }
    let s = rng.pick(&filled);
    Some((s, rng.below(counts[s])))
}

/// Any field of any record.
fn field(rng: &mut Rng, r: &mut Records) {
    let Some((s, at)) = place(rng, r) else { return };
    // The limits that fields have: registers, expressions, text.
    let limit = rng.pick(&[16, r.expressions.len() as u32, r.text.len() as u32, 256, 8, 2]);
    let w = word(r, s, at, rng.below(SECTIONS[s].words));
    *w = value(rng, *w, limit);
}

fn head(rng: &mut Rng, r: &mut Records) {
    let (w, limit) = match rng.below(4) {
        0 => (&mut r.edition, 2),
        1 => (&mut r.bits, 65),
        2 => (&mut r.returns, 2),
        _ => (&mut r.reserved, 1),
    };
    *w = value(rng, *w, limit);
}

/// A record too few, too many or exchanged, with everything behind it in its place.
fn records(rng: &mut Rng, r: &mut Records) {
    let Some((s, at)) = place(rng, r) else { return };
    let other = rng.below(r.counts()[s]);
    record(r, s, at, rng.pick(&[How::Remove, How::Double, How::Swap(other)]));
}

/// A count by which an owner takes its parts; often another owner's count moves the other way.
fn owned(rng: &mut Rng, r: &mut Records) {
    let mut counts: Vec<&mut u32> = Vec::new();
    match rng.below(4) {
        0 => counts.extend(r.blocks.iter_mut().map(|b| &mut b[8])),
        1 => counts.extend(r.blocks.iter_mut().map(|b| &mut b[9])),
        2 => counts.extend(r.phis.iter_mut().map(|p| &mut p[3])),
        _ => {
            for s in &mut r.statements {
                match s[3] {
                    kind::CALL => counts.push(&mut s[rng.pick(&[6, 10])]),
                    kind::BRANCH => counts.push(&mut s[10]),
                    kind::OTHER => counts.push(&mut s[rng.pick(&[6, 7])]),
                    _ => {}
                }
            }
        }
    }
    if counts.is_empty() {
        return;
    }
    let (one, two) = (rng.below(counts.len()), rng.below(counts.len()));
    // Also by so much that the sum is right modulo 2^32 only.
    let by = rng.pick(&[1, 1, 2, u32::MAX, 1 << 31]);
    *counts[one] = counts[one].wrapping_add(by);
    if rng.coin() {
        *counts[two] = counts[two].wrapping_sub(by);
    }
}

fn text(rng: &mut Rng, r: &mut Records) {
    if r.text.is_empty() {
        return;
    }
    let at = rng.below(r.text.len());
    r.text[at] = rng.pick(&[0x1F, 0x7F, 0, 0x80, 0xFF, b'\n', 0x20, 0x7E, b'[', b's']);
}

/// The words of a value somewhere: register and version.
fn values(r: &mut Records) -> Vec<[&mut u32; 2]> {
    let mut out: Vec<[&mut u32; 2]> = Vec::new();
    for [register, version, ..] in &mut r.phis {
        out.push([register, version]);
    }
    for s in &mut r.statements {
        let [_, _, _, number, a, b, _, d, e, f, _] = s;
        match *number {
            kind::ASSIGN => out.push([a, b]),
            kind::CALL if *d == 1 => out.push([e, f]),
            _ => {}
        }
    }
    for [register, version] in &mut r.lists {
        out.push([register, version]);
    }
    out
}

/// A value defined twice, or of version 0, or of no register.
fn definition(rng: &mut Rng, r: &mut Records) {
    let mut all = values(r);
    if all.is_empty() {
        return;
    }
    let (one, two) = (rng.below(all.len()), rng.below(all.len()));
    match rng.below(4) {
        0 => *all[one][1] = 0,
        1 => *all[one][0] = rng.pick(&[15, 16, 4]),
        _ => {
            let copy = [*all[two][0], *all[two][1]];
            (*all[one][0], *all[one][1]) = (copy[0], copy[1]);
        }
    }
}

/// A block's start equal to another's, or nearly.
fn start(rng: &mut Rng, r: &mut Records) {
    if r.blocks.is_empty() {
        return;
    }
    let (one, two) = (rng.below(r.blocks.len()), rng.below(r.blocks.len()));
    r.blocks[one][0] = r.blocks[two][0];
    r.blocks[one][1] = if rng.coin() { r.blocks[two][1] } else { rng.pick(&[0, 1, u32::MAX]) };
}

/// Names out of order, equal, in order by one word only, or empty.
fn name(rng: &mut Rng, r: &mut Records) {
    if r.names.is_empty() {
        return;
    }
    let (one, two) = (rng.below(r.names.len()), rng.below(r.names.len()));
    match rng.below(4) {
        0 => (r.names[one][0], r.names[one][1]) = (r.names[two][0], r.names[two][1]),
        1 => r.names[one].swap(0, 1),
        2 => r.names.swap(one, two),
        _ => r.names[one][3] = 0,
    }
}

/// A child that is its parent, above it, another's or none.
fn child(rng: &mut Rng, r: &mut Records) {
    let count = r.expressions.len();
    let parents: Vec<usize> = (0..count).filter(|e| matches!(r.expressions[*e][0], tag::BIN | tag::UN | tag::LOAD)).collect();
    if parents.is_empty() {
        return;
    }
    let parent = rng.pick(&parents);
    let fields: &[usize] = match r.expressions[parent][0] {
        tag::BIN => &[3, 4],
        tag::UN => &[3],
        _ => &[2],
    };
    let to = [parent, parent + 1, parent.saturating_sub(1), count, count - 1, rng.below(count)];
    r.expressions[parent][rng.pick(fields)] = rng.pick(&to) as u32;
}

/// Argument registers repeated, the stack pointer among them, or more than there are registers.
fn arguments(rng: &mut Rng, r: &mut Records) {
    match rng.below(3) {
        0 => r.args.push(rng.below(17) as u32),
        1 => r.args = (0..rng.range(14, 18) as u32).collect(),
        _ => {
            // An indirect call that lost its operand.
            let calls: Vec<usize> = (0..r.statements.len()).filter(|s| r.statements[*s][3] == kind::CALL).collect();
            if let (false, Some(at)) = (calls.is_empty(), r.text.iter().position(|b| *b == b'[')) {
                let call = rng.pick(&calls);
                (r.statements[call][4], r.statements[call][5]) = (at as u32, 1);
            }
        }
    }
}

/// A range of text that ends at the end, behind it, or nowhere near.
fn range(rng: &mut Rng, r: &mut Records) {
    let end = r.text.len() as u32;
    let mut ranges: Vec<[&mut u32; 2]> = Vec::new();
    for s in &mut r.statements {
        let [_, _, _, number, a, b, c, ..] = s;
        match *number {
            kind::CALL | kind::OTHER => ranges.push([a, b]),
            kind::BRANCH if *a == 1 => ranges.push([b, c]),
            _ => {}
        }
    }
    for [tag, a, b, ..] in &mut r.expressions {
        if matches!(*tag, tag::BIN | tag::UN | tag::OPAQUE) {
            ranges.push([a, b]);
        }
    }
    for [_, _, start, length] in &mut r.names {
        ranges.push([start, length]);
    }
    if ranges.is_empty() {
        return;
    }
    let at = rng.below(ranges.len());
    let [start, length] = &mut ranges[at];
    match rng.below(6) {
        0 => (**start, **length) = (end, 0),
        1 => (**start, **length) = (end + 1, 0),
        2 => **length = end.wrapping_sub(**start),
        3 => **length = end.wrapping_sub(**start).wrapping_add(1),
        4 => **length = 0u32.wrapping_sub(**start),
        _ => (**start, **length) = (u32::MAX, 1),
    }
}

/// Damage that a file may take as mere bytes.
fn spoil_bytes(rng: &mut Rng, file: &mut Vec<u8>) {
    match rng.below(6) {
        0 | 1 => contents(rng, file),
        2 => {
            let cut = if rng.coin() { rng.range(1, 8) } else { rng.below(file.len() + 1) };
            file.truncate(file.len().saturating_sub(cut));
        }
        3 => {
            let more = if rng.one_in(8) { rng.below(70_000) } else { rng.range(1, 8) };
            let filler = rng.pick(&[0, b'a', 0xFF]);
            file.resize(file.len() + more, filler);
        }
        4 => file.truncate(rng.range(80, 96)),
        _ => {
            for _ in 0..rng.range(1, 3) {
                let at = rng.below(file.len());
                if let Some(b) = file.get_mut(at) {
                    *b ^= 1 << rng.below(8);
                }
            }
        }
    }
}

/// One word of the table of contents.
fn contents(rng: &mut Rng, file: &mut [u8]) {
    let at = rng.below(CONTENTS);
    let limit = match at.checked_sub(4) {
        Some(k) if k % 2 == 1 => SECTIONS[k / 2].most + 1,
        Some(_) => 88,
        None => 2,
    };
    if let Some(bytes) = file.get_mut(4 * at..4 * at + 4) {
        let old = u32::from_le_bytes([bytes[0], bytes[1], bytes[2], bytes[3]]);
        let step = rng.pick(&[4, 8, 16, 20, 40, 44]);
        let new = if rng.one_in(4) { old.wrapping_add(step) } else { value(rng, old, limit) };
        bytes.copy_from_slice(&new.to_le_bytes());
    }
}
