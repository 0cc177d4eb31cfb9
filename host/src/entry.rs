//! The printer's entry as it is, on buffers that stay between calls.

use crate::sheet::Sheet;
use crate::tables::Tables;
use crate::Refusal;

/// What the printer answers: 0 and the counts of the listing, or a refusal and zeros.
#[repr(C)]
#[derive(Debug, Clone, Copy, PartialEq, Eq)]
pub struct Answer {
    pub number: u32,
    pub lines: usize,
    pub tokens: usize,
    pub bytes: usize,
    pub ifs: usize,
    pub loops: usize,
    pub tests: usize,
}

impl Answer {
    pub fn refusal(self) -> Result<(), Refusal> {
        Refusal::answered(self.number)
    }
}

with_tables!(declare {
    /// `lister::sorkhelaw_list`: nothing is asked of what stands in the buffers.
    fn sorkhelaw_list(lent low) -> Answer
});

/// Files of up to so many bytes have under 420 expressions, each of which takes some kilobyte of stack; the deepest files found take 2.2 MB.
const SHALLOW: usize = 8_192;
const STACK: usize = 8 << 20;

/// What the printer works on: the tables, and the lines before structuring. Zeros after each call of `sorkhelaw_list`.
pub struct Scratch {
    pub low: Sheet,
    pub tables: Tables,
}

impl Default for Scratch {
    fn default() -> Self {
        Scratch { low: Sheet::lowered(), tables: Tables::default() }
    }
}

/// All that is lent: the listing's buffers and the scratch.
pub struct Buffers {
    pub lent: Sheet,
    pub scratch: Scratch,
}

impl Default for Buffers {
    fn default() -> Self {
        Buffers { lent: Sheet::lent(), scratch: Scratch::default() }
    }
}

impl Buffers {
    /// The listing of a file into `lent`. Rendering goes as deep as expressions nest: a file that may hold many is listed on a thread
    /// with a stack for the most there can be.
    pub fn run(&mut self, file: &[u8]) -> Answer {
        if file.len() <= SHALLOW {
            return self.run_here(file);
        }
        std::thread::scope(|scope| {
            let thread = std::thread::Builder::new().stack_size(STACK).spawn_scoped(scope, || self.run_here(file));
            thread.expect("a thread to list on").join().expect("the printer does not panic")
        })
    }

    fn run_here(&mut self, file: &[u8]) -> Answer {
        let Buffers { lent, scratch: Scratch { low, tables } } = self;
        // The contract asks nothing of the slices; all are Rust's own, and none overlaps another.
        unsafe { with_tables!(call { sorkhelaw_list(file, lent, low; tables) }) }
    }

    pub fn clear(&mut self) {
        self.lent.clear();
        self.scratch.low.clear();
        self.scratch.tables.clear();
    }

    /// Spoils every buffer with numbers of every size, others for each seed.
    pub fn spoil(&mut self, seed: u64) {
        let with = seed.wrapping_mul(0x9E37_79B9_7F4A_7C15) >> (seed % 64);
        self.lent.spoil(with);
        self.scratch.low.spoil(with.rotate_left(8));
        self.scratch.tables.spoil(with.rotate_left(16));
    }
}

impl Scratch {
    pub fn is_clean(&self) -> bool {
        self.low.is_clean() && self.tables.is_clean()
    }
}

#[cfg(test)]
mod tests {
    use super::*;

    /// Refused with 1, and zeros everywhere, where one buffer is a number short or a number long.
    macro_rules! wrong_length {
        ($($buffer:ident).+) => {
            for longer in [false, true] {
                let mut all = Buffers::default();
                all.spoil(7);
                let length = all.$($buffer).+.len();
                all.$($buffer).+.resize(if longer { length + 1 } else { length - 1 }, 1);
                let refused = Answer { number: 1, lines: 0, tokens: 0, bytes: 0, ifs: 0, loops: 0, tests: 0 };
                assert_eq!(all.run(&[]), refused, "{}", stringify!($($buffer).+));
                assert!(all.lent.is_clean() && all.scratch.is_clean(), "{}", stringify!($($buffer).+));
            }
        };
    }

    macro_rules! wrong_tables {
        ({} $($table:ident: $number:ty = $count:expr, $handed:expr;)*) => {
            $(wrong_length!(scratch.tables.$table);)*
        };
    }

    #[test]
    fn every_length_is_looked_at() {
        wrong_length!(lent.lines);
        wrong_length!(lent.tokens);
        wrong_length!(lent.text);
        wrong_length!(scratch.low.lines);
        wrong_length!(scratch.low.tokens);
        wrong_length!(scratch.low.text);
        with_tables!(wrong_tables {});
    }
}
