//! Function files by seed: the same profile and seed give the same bytes on every machine.

pub mod builder;
mod damaged;
mod edit;
mod jumps;
mod lifter;
mod limits;
mod odd;
mod order;
mod random;
pub mod rng;
mod ssa;
mod values;

use rng::Rng;

/// Intel's condition codes, as the lifter spells them.
pub const CONDITIONS: [&str; 16] = ["o", "no", "b", "ae", "e", "ne", "be", "a", "s", "ns", "p", "np", "l", "ge", "le", "g"];

/// A family of files.
#[derive(Debug, Clone, Copy, PartialEq, Eq)]
pub enum Profile {
    Lifter32,
    Lifter64,
    Jumps,
    Odd,
    Random,
    Damaged,
    Limits,
}

impl Profile {
    pub const ALL: [Profile; 7] =
        [Profile::Lifter32, Profile::Lifter64, Profile::Jumps, Profile::Odd, Profile::Random, Profile::Damaged, Profile::Limits];

    pub fn name(self) -> &'static str {
        match self {
            Profile::Lifter32 => "lifter32",
            Profile::Lifter64 => "lifter64",
            Profile::Jumps => "jumps",
            Profile::Odd => "odd",
            Profile::Random => "random",
            Profile::Damaged => "damaged",
            Profile::Limits => "limits",
        }
    }

    /// The profile of a name.
    pub fn named(name: &str) -> Option<Profile> {
        Profile::ALL.into_iter().find(|p| p.name() == name)
    }
}

/// The file of a profile and a seed.
pub fn file(profile: Profile, seed: u64) -> Vec<u8> {
    // One seed gives unlike files in unlike profiles.
    let mut rng = Rng::new(seed ^ (profile as u64 + 1) << 56);
    let records = match profile {
        Profile::Lifter32 => lifter::records(&mut rng, 32),
        Profile::Lifter64 => lifter::records(&mut rng, 64),
        Profile::Jumps => jumps::records(&mut rng),
        Profile::Odd => odd::records(&mut rng),
        Profile::Random => random::records(&mut rng),
        Profile::Damaged => return damaged::bytes(&mut rng),
        Profile::Limits => return limits::bytes(seed),
    };
    records.bytes()
}

/// The seeds of profile `limits` up to this one meet every limit on both sides.
pub fn limits() -> u64 {
    2 * limits::count()
}

/// What a file of profile `limits` is there for.
pub fn about_limit(seed: u64) -> String {
    limits::about(seed)
}

/// What document 01 answers to a file of profile `limits`: 0 for accepted, else the refusal.
pub fn answer_at_limit(seed: u64) -> u8 {
    limits::answer(seed)
}
