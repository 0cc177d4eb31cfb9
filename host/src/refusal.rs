//! Why a file is not listed.

use std::fmt;

/// The number of a refusal, 1 to 9: the first of document 01's conditions that a file meets.
#[derive(Debug, Clone, Copy, PartialEq, Eq, PartialOrd, Ord, Hash)]
pub struct Refusal(u8);

impl Refusal {
    /// The refusal that the printer answered, none with 0.
    pub(crate) fn answered(number: u32) -> Result<(), Refusal> {
        match number {
            0 => Ok(()),
            1..=9 => Err(Refusal(number as u8)),
            _ => panic!("the printer answered {number}, which is no refusal"),
        }
    }

    pub fn number(self) -> u8 {
        self.0
    }

    /// What to look at in a file that was refused so.
    pub fn about(self) -> &'static str {
        match self.0 {
            1 => "a lent buffer is not of its length (a Lister's always are)",
            2 => "no function file: under 88 bytes, an edition other than 1, or a fourth word other than 0",
            3 => "too large: over 65,536 bytes, or a section with more records than its limit",
            4 => "the shape: sections that do not adjoin, owned counts that do not add up, or a word out of place",
            5 => "a reference: a text, an operator, a child, an owner or an index that is wrong",
            6 => "the function: bits, registers, args, block starts, names, or a value defined twice or as version 0 \
                  (leave unreachable blocks out)",
            7 => "a stack address outside plus or minus (2^63 - 1)",
            8 => "too long: over 768 lines, 6,144 tokens or 32,768 bytes before structuring",
            _ => "too deep: a line inside more than 254 open braces",
        }
    }
}

impl fmt::Display for Refusal {
    fn fmt(&self, f: &mut fmt::Formatter) -> fmt::Result {
        write!(f, "refused {}", self.0)
    }
}

impl std::error::Error for Refusal {}
