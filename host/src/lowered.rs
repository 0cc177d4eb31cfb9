//! Lowering by itself: a file in, its lines before structuring out.

use crate::entry::Scratch;
use crate::{Line, Refusal};

/// What lowering answers: 0 and the count of lines, or a refusal of 1 to 8 and 0.
#[repr(C)]
#[derive(Debug, Clone, Copy, PartialEq, Eq)]
pub struct Lowered {
    pub number: u32,
    pub lines: usize,
}

with_tables!(declare {
    /// `lowered::sorkhelaw_lowered`: nothing is asked of what stands in the buffers; what is not `ready` is refused with 1.
    fn sorkhelaw_lowered(low; ready: bool) -> Lowered
});

impl Scratch {
    /// The lowered lines of a file into `low`.
    pub fn lower(&mut self, file: &[u8]) -> Lowered {
        self.lower_if(file, true)
    }

    fn lower_if(&mut self, file: &[u8], ready: bool) -> Lowered {
        let Scratch { low, tables } = self;
        // The contract asks nothing of the slices; all are Rust's own, and none overlaps another.
        unsafe { with_tables!(call { sorkhelaw_lowered(file, low; tables; ready) }) }
    }

    /// The lines that stand in `low`, or what is wrong with them.
    pub fn lowered(&self, answer: Lowered) -> Result<Result<Vec<Line>, Refusal>, String> {
        if !self.tables.is_clean() {
            return Err("a table is not zeros".into());
        }
        if answer.number > 8 {
            return Err(format!("{} is no refusal of lowering", answer.number));
        }
        if let Err(refusal) = Refusal::answered(answer.number) {
            let clean = answer.lines == 0 && self.low.is_clean();
            return if clean { Ok(Err(refusal)) } else { Err(format!("{refusal} with lines left behind")) };
        }
        let lines = self.low.read(answer.lines)?;
        match self.low.ends_with(&lines) {
            true => Ok(Ok(lines)),
            false => Err("no zeros behind the lines".into()),
        }
    }
}

#[cfg(test)]
mod tests {
    use super::*;
    use crate::entry::Buffers;

    #[test]
    fn what_is_not_ready_is_refused() {
        let mut all = Buffers::default();
        all.spoil(7);
        let file = oracle::gen::file(oracle::gen::Profile::Lifter64, 1);
        assert_eq!(all.scratch.lower_if(&file, false), Lowered { number: 1, lines: 0 });
        assert!(all.scratch.is_clean());
        assert_eq!(all.scratch.lower_if(&file, true).number, 0);
    }
}
