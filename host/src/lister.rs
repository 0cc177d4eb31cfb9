//! The printer as a Rust program uses it.

use crate::entry::Buffers;
use crate::{Listing, Refusal};

/// The printer with its buffers (some 750 KB), kept between calls. No file has to do with the one before it.
#[derive(Default)]
pub struct Lister {
    buffers: Buffers,
}

impl Lister {
    /// The listing of a function file, or the first refusal that it gets.
    pub fn list(&mut self, file: &[u8]) -> Result<Listing, Refusal> {
        let answer = self.buffers.run(file);
        answer.refusal()?;
        // The contract says that there are lines.
        let lines = self.buffers.lent.read(answer.lines).unwrap_or_else(|wrong| panic!("the printer left no listing: {wrong}"));
        Ok(Listing { lines, ifs: answer.ifs, loops: answer.loops, tests: answer.tests })
    }
}

/// The listing of one file; for many, a [`Lister`] keeps its buffers.
pub fn list(file: &[u8]) -> Result<Listing, Refusal> {
    Lister::default().list(file)
}
