//! Profile `limits`: files at every limit of document 01 and one past it. The seed says which limit and which
//! side, and draws the rest: seeds 0 to twice the number of cases meet each pair.

mod counts;
mod fields;
mod order;
mod rules;
mod sizes;
mod specimen;
mod towers;

use super::rng::Rng;

/// One limit: what it is, the file at it (`false`) or past it (`true`), and what document 01 answers to the two:
/// 0 for accepted, else the refusal.
pub struct Case {
    about: &'static str,
    make: fn(&mut Rng, bool) -> Vec<u8>,
    answers: [u8; 2],
}

const fn case(about: &'static str, make: fn(&mut Rng, bool) -> Vec<u8>, answers: [u8; 2]) -> Case {
    Case { about, make, answers }
}

/// The parts of the list, in the order of the checks; last what has two faults.
const PARTS: [&[Case]; 6] = [&counts::CASES, &fields::CASES, &rules::CASES, &sizes::CASES, &towers::CASES, &order::CASES];

fn cases() -> impl Iterator<Item = &'static Case> {
    PARTS.into_iter().flatten()
}

/// How many limits there are.
pub fn count() -> u64 {
    cases().count() as u64
}

/// The case of a seed and whether the file is past the limit.
fn drawn(seed: u64) -> (&'static Case, bool) {
    let at = (seed % count()) as usize;
    let case = cases().nth(at).unwrap_or(&PARTS[0][0]);
    (case, seed / count() % 2 == 1)
}

/// What the file of a seed is there for.
pub fn about(seed: u64) -> String {
    let (case, past) = drawn(seed);
    format!("{}, {}", case.about, if past { "one past" } else { "at the limit" })
}

/// What document 01 answers to the file of a seed: 0 for accepted, else the refusal.
pub fn answer(seed: u64) -> u8 {
    let (case, past) = drawn(seed);
    case.answers[usize::from(past)]
}

pub fn bytes(seed: u64) -> Vec<u8> {
    let (case, past) = drawn(seed);
    (case.make)(&mut Rng::new(seed), past)
}
