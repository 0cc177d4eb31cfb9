//! The numbers of document 01's table "When nothing is printed".

use std::fmt;

/// Why a file is not listed. The oracle gives 2 to 9 (1 is about lent buffers, which it has none of).
#[derive(Debug, Clone, Copy, PartialEq, Eq, PartialOrd, Ord, Hash)]
pub struct Refusal(pub u8);

impl fmt::Display for Refusal {
    fn fmt(&self, f: &mut fmt::Formatter) -> fmt::Result {
        write!(f, "refused {}", self.0)
    }
}

impl std::error::Error for Refusal {}
