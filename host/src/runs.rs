//! What the comparisons over generated files share: their arguments, the way through the files, and how they end.

use std::panic::{catch_unwind, AssertUnwindSafe};
use std::process::ExitCode;
use std::sync::atomic::{AtomicBool, AtomicU64, Ordering};
use std::thread;

use oracle::gen::{file, Profile};

/// The exit code and what is said.
pub type Failure = (u8, String);

/// The files that `PROFILE|all SEED COUNT` asks for.
struct Files {
    profiles: Vec<Profile>,
    seed: u64,
    count: u64,
}

impl Files {
    fn asked(name: &str) -> Result<Files, Failure> {
        let usage = format!("usage: {name} PROFILE|all SEED COUNT");
        let args: Vec<String> = std::env::args().skip(1).collect();
        let [profile, seed, count] = args.as_slice() else { return Err((2, usage)) };
        let number = |s: &String| s.parse::<u64>().map_err(|e| (2, format!("{s}: {e}")));
        let (seed, count) = (number(seed)?, number(count)?);
        let profiles: Vec<Profile> = Profile::ALL.iter().copied().filter(|p| profile == "all" || p.name() == profile).collect();
        match profiles.is_empty() {
            true => Err((2, format!("no profile {profile}; {usage}"))),
            false => Ok(Files { profiles, seed, count }),
        }
    }

    /// The file of a number, profile by profile.
    fn at(&self, n: u64) -> Option<(Profile, u64)> {
        let profile = self.profiles.get(n.checked_div(self.count)? as usize)?;
        Some((*profile, self.seed.wrapping_add(n % self.count)))
    }
}

/// A difference: the file's profile and seed, and what is said.
type Difference = (Profile, u64, String);

/// A panic on either side is a difference.
fn caught((p, s): (Profile, u64), one: impl FnOnce() -> Result<(), String>) -> Result<(), Difference> {
    let answer = catch_unwind(AssertUnwindSafe(one)).unwrap_or_else(|_| Err("a panic, told above".into()));
    answer.map_err(|message| (p, s, message))
}

/// Says what differs, and keeps the file.
fn told((profile, seed, message): Difference) -> Failure {
    let path = std::env::current_dir().unwrap_or_default().join("difference.bin");
    let kept = match std::fs::write(&path, file(profile, seed)) {
        Ok(()) => format!("the file is {}", path.display()),
        Err(e) => format!("the file could not be kept in {}: {e}", path.display()),
    };
    (1, format!("{} {seed}: {message}\n{kept}", profile.name()))
}

/// Reads `PROFILE|all SEED COUNT` and calls `one` for each file; a difference is told with its profile and seed, its file kept.
pub fn through(name: &str, mut one: impl FnMut(Profile, u64) -> Result<(), String>) -> Result<(), Failure> {
    let files = Files::asked(name)?;
    (0..).map_while(|n| files.at(n)).try_for_each(|f| caught(f, || one(f.0, f.1))).map_err(told)
}

/// The stack of a thread that lists: rendering goes as deep as expressions nest.
const STACK: usize = 64 << 20;

/// The same on all cores, each with a `T` of its own, which are the answer. All end soon after a difference.
pub fn on_all_cores<T: Default + Send>(
    name: &str,
    one: impl Fn(&mut T, Profile, u64) -> Result<(), String> + Sync,
) -> Result<Vec<T>, Failure> {
    let files = Files::asked(name)?;
    let (next, stop) = (AtomicU64::new(0), AtomicBool::new(false));
    let core = || {
        let mut own = T::default();
        while !stop.load(Ordering::Relaxed) {
            let Some(f) = files.at(next.fetch_add(1, Ordering::Relaxed)) else { break };
            let answer = caught(f, || one(&mut own, f.0, f.1));
            stop.fetch_or(answer.is_err(), Ordering::Relaxed);
            answer?;
        }
        Ok(own)
    };
    let cores = thread::available_parallelism().map_or(1, |n| n.get());
    thread::scope(|scope| {
        let start = |_| thread::Builder::new().stack_size(STACK).spawn_scoped(scope, core).map_err(|e| (2, format!("no thread: {e}")));
        let threads = (0..cores).map(start).collect::<Result<Vec<_>, Failure>>()?;
        let joined = threads.into_iter().map(|t| t.join().unwrap_or_else(|panic| std::panic::resume_unwind(panic)));
        joined.collect::<Result<Vec<T>, Difference>>().map_err(told)
    })
}

/// Prints the report, or the failure to standard error.
pub fn ended(name: &str, run: Result<String, Failure>) -> ExitCode {
    match run {
        Ok(line) => {
            println!("{line}");
            ExitCode::SUCCESS
        }
        Err((code, message)) => {
            eprintln!("{name}: {message}");
            ExitCode::from(code)
        }
    }
}
