//! Pseudocode: a lightweight lifter from x86 / x86-64 to readable C-like text.
//!
//! This is deliberately simple — it is not a full decompiler. Each instruction
//! is translated to a statement, flags are folded into the conditional jump that
//! consumes them, calls receive arguments from the calling convention, strings
//! and names are inlined, and two structuring passes recover `if { }` regions
//! and `do { } while` loops. Anything else falls back to labels and `goto`.

use super::model::Token;

#[derive(Debug, Clone, PartialEq, Eq)]
pub struct PseudoLine {
    /// Instruction address this line came from (for listing sync).
    pub address: Option<u64>,
    pub indent: u8,
    pub tokens: Vec<Token>,
}
