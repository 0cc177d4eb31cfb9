//! Times, and the file that took longest.

use std::time::{Duration, Instant};

use oracle::gen::Profile;

/// What a call gives, and how long it took.
pub fn timed<T>(run: impl FnOnce() -> T) -> (T, Duration) {
    let start = Instant::now();
    let answer = run();
    (answer, start.elapsed())
}

/// The time of a call, the least of some turns: what other programs took in between does not count.
pub fn least<T>(turns: u32, mut run: impl FnMut() -> T) -> Duration {
    (0..turns).map(|_| timed(&mut run).1).min().unwrap_or_default()
}

/// The file that took us longest: our time, upstream's, which file it is and its bytes.
#[derive(Debug, Clone, Copy, Default, PartialEq, Eq, PartialOrd, Ord)]
pub struct Longest {
    pub ours: Duration,
    pub upstream: Duration,
    pub profile: &'static str,
    pub seed: u64,
    pub bytes: usize,
}

impl Longest {
    const TURNS: u32 = 9;

    /// Looks again at a file that seems to have taken longer than all before it.
    pub fn consider<A, B>(&mut self, first: Duration, (profile, seed): (Profile, u64), bytes: &[u8], ours: impl FnMut() -> A, theirs: impl FnMut() -> B) {
        if first <= self.ours {
            return;
        }
        let (ours, upstream) = (least(Self::TURNS, ours), least(Self::TURNS, theirs));
        *self = (*self).max(Longest { ours, upstream, profile: profile.name(), seed, bytes: bytes.len() });
    }
}

impl std::fmt::Display for Longest {
    fn fmt(&self, f: &mut std::fmt::Formatter) -> std::fmt::Result {
        let Longest { profile, seed, bytes, .. } = self;
        write!(f, "{profile} {seed} ({bytes} bytes), ours {:.3} ms, upstream {:.3} ms", millis(self.ours), millis(self.upstream))
    }
}

pub fn millis(d: Duration) -> f64 {
    d.as_secs_f64() * 1e3
}
