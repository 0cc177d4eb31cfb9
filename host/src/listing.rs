//! A listing as Rust has it, and as document 01's program prints it.

use std::fmt;

/// The lines of a function, and what the printer reports of them.
#[derive(Debug, Clone, PartialEq, Eq)]
pub struct Listing {
    pub lines: Vec<Line>,
    /// How many ifs were formed.
    pub ifs: usize,
    /// How many loops were formed.
    pub loops: usize,
    /// How many lines begin with the keyword `if`, those of a goto among them.
    pub tests: usize,
}

/// One line.
#[derive(Debug, Clone, PartialEq, Eq)]
pub struct Line {
    /// The instruction that the line came from; closing braces and the like have none.
    pub address: Option<u64>,
    /// How many steps the line stands inwards: labels at 0, a function's statements at 1.
    pub indent: u8,
    pub tokens: Vec<Token>,
}

/// A part of a line; its texts one after another are the line.
#[derive(Debug, Clone, PartialEq, Eq)]
pub struct Token {
    pub kind: Kind,
    pub text: String,
}

/// What a token is, for colouring.
#[derive(Debug, Clone, Copy, PartialEq, Eq, Hash)]
pub enum Kind {
    Text,
    Register,
    Number,
    Keyword,
    Symbol,
    Address,
    Punct,
}

impl Kind {
    /// The kind that the printer has under a number.
    pub(crate) fn numbered(n: u64) -> Option<Kind> {
        use Kind::*;
        [Text, Register, Number, Keyword, Symbol, Address, Punct].get(usize::try_from(n).ok()?).copied()
    }
}

impl Line {
    /// The bytes of the line's texts.
    pub fn bytes(&self) -> usize {
        self.tokens.iter().map(|t| t.text.len()).sum()
    }
}

impl fmt::Display for Line {
    fn fmt(&self, f: &mut fmt::Formatter) -> fmt::Result {
        match self.address {
            Some(a) => write!(f, "{a:X} {} ", self.indent)?,
            None => write!(f, "- {} ", self.indent)?,
        }
        self.tokens.iter().try_for_each(|t| f.write_str(&t.text))
    }
}

impl fmt::Display for Listing {
    fn fmt(&self, f: &mut fmt::Formatter) -> fmt::Result {
        writeln!(f, "ifs {} loops {} lines {} tests {}", self.ifs, self.loops, self.lines.len(), self.tests)?;
        self.lines.iter().try_for_each(|l| writeln!(f, "{l}"))
    }
}
