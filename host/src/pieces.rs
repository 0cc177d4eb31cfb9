//! The exported pieces of the printer, each by itself, for comparisons with the Rust.

extern "C" {
    fn sorkhelaw_write(dst: *mut u8, len: usize, file: *const u8, file_len: usize, which: u32, a: u64, b: u32, c: u32) -> u64;
}

/// A writer with its operands.
#[derive(Debug, Clone, Copy, PartialEq, Eq)]
pub enum Writer<'a> {
    Num(i64),
    Slot(i64),
    Label(u64),
    Outward(u64),
    Pointer(u8),
    Register { bits: u32, number: u32 },
    /// A global of a function file.
    Global { file: &'a [u8], address: u64, size: u8 },
}

/// The text section's place in the contents of edition 1.
const TEXT: u32 = 8;

impl Writer<'_> {
    /// How many bytes were written at the beginning of `dst`, or none where they do not fit.
    pub fn write(self, dst: &mut [u8]) -> Option<usize> {
        let (which, a, b, c) = self.numbers();
        let file: &[u8] = if let Writer::Global { file, .. } = self { file } else { &[] };
        // The contract asks nothing of the slices, and both are Rust's own.
        let wrote = unsafe { sorkhelaw_write(dst.as_mut_ptr(), dst.len(), file.as_ptr(), file.len(), which, a, b, c) };
        (wrote != u64::MAX).then_some(wrote as usize)
    }

    /// The writer's number, and its operands as `probe::piece_of` reads them.
    fn numbers(self) -> (u32, u64, u32, u32) {
        match self {
            Writer::Num(v) => (0, v as u64, 0, 0),
            Writer::Slot(off) => (1, (off as u64).wrapping_add(1 << 63), 0, 0),
            Writer::Label(a) => (2, a, 0, 0),
            Writer::Outward(a) => (3, a, 0, 0),
            Writer::Pointer(size) => (4, 0, size.into(), 0),
            Writer::Register { bits, number } => (5, 0, bits, number),
            Writer::Global { address, size, .. } => (6, address, TEXT, size.into()),
        }
    }
}
