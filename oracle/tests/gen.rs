//! What the generator promises: files of all profiles but two pass checks 2 to 6, and those at the limits get the
//! answers of document 01.

use oracle::gen::{about_limit, answer_at_limit, file, limits, Profile};
use oracle::list::list;
use oracle::read::read;
use oracle::refusal::Refusal;

const COUNT: u64 = 400;

#[test]
fn sound_profiles_pass_checks_2_to_6() {
    for profile in [Profile::Jumps, Profile::Odd, Profile::Random] {
        for seed in 0..COUNT {
            assert!(read(&file(profile, seed)).is_ok(), "{} {seed}", profile.name());
        }
    }
}

#[test]
fn lifted_functions_pass_unless_a_part_is_unreachable() {
    for profile in [Profile::Lifter32, Profile::Lifter64] {
        let answers: Vec<_> = (0..COUNT).map(|seed| read(&file(profile, seed)).map(drop)).collect();
        assert!(answers.iter().all(|a| matches!(a, Ok(()) | Err(Refusal(6)))), "{}", profile.name());
        assert!(answers.iter().filter(|a| a.is_ok()).count() * 20 > answers.len() * 19, "{}", profile.name());
    }
}

#[test]
fn limits_get_the_answers_of_document_01() {
    for seed in 0..3 * limits() {
        let answer = list(&file(Profile::Limits, seed)).map_or_else(|refusal| refusal.0, |_| 0);
        assert_eq!(answer, answer_at_limit(seed), "{seed}: {}", about_limit(seed));
    }
}

#[test]
fn a_seed_gives_one_file() {
    for profile in Profile::ALL {
        assert_eq!(Profile::named(profile.name()), Some(profile));
        assert!((0..20).all(|seed| file(profile, seed) == file(profile, seed)), "{}", profile.name());
        assert!((0..20).any(|seed| file(profile, seed) != file(profile, seed + 1)), "{}", profile.name());
    }
}
