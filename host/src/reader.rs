//! The reader by itself: checks 2 to 6 of a function file.

use crate::Refusal;

/// The scratch of the reader: a number for each expression that a file may have.
const OWNERS: usize = 2_048;

extern "C" {
    /// `file::sorkhelaw_check`: each slice is a pointer and a length.
    fn sorkhelaw_check(file: *const u8, file_len: usize, owners: *mut u32, owners_len: usize) -> u32;
}

/// The scratch, kept between calls. It is zeros after each.
pub struct Reader {
    owners: Vec<u32>,
}

impl Default for Reader {
    fn default() -> Self {
        Reader { owners: vec![0; OWNERS] }
    }
}

impl Reader {
    /// The first refusal of 2 to 6 that a file gets, if any.
    pub fn check(&mut self, file: &[u8]) -> Result<(), Refusal> {
        // The contract asks nothing of the slices, and both are Rust's own.
        Refusal::answered(unsafe { sorkhelaw_check(file.as_ptr(), file.len(), self.owners.as_mut_ptr(), self.owners.len()) })
    }

    /// Whether the scratch is zeros.
    pub fn is_clean(&self) -> bool {
        self.owners.iter().all(|n| *n == 0)
    }

    /// Spoils the scratch, to see that a check does not depend on it.
    pub fn spoil(&mut self, with: u32) {
        self.owners.fill(with);
    }
}
