//! Upstream's text (UPSTREAM.md says what differs and why), and the counted rooms it is given for its vectors.

pub mod model;
pub mod pseudo;
pub mod pseudo_opt;
pub mod ssa;

use crate::refusal::Refusal;
use model::Token;
use pseudo::PseudoLine;

/// The tokens of one rendering. All of them end in one line, so past the bytes of a whole
/// lowering refusal 8 is certain, and rendering stops. An empty token never comes twice without
/// an operator between, so the bytes bound the tokens too.
#[derive(Default)]
pub struct Tokens {
    tokens: Vec<Token>,
    bytes: usize,
}

impl Tokens {
    pub fn push(&mut self, t: Token) {
        self.bytes += t.t.len();
        self.tokens.push(t);
    }

    pub fn bytes(&self) -> usize {
        self.bytes
    }

    pub fn full(&self) -> bool {
        self.bytes > Lines::BYTES
    }
}

impl IntoIterator for Tokens {
    type Item = Token;
    type IntoIter = std::vec::IntoIter<Token>;

    fn into_iter(self) -> Self::IntoIter {
        self.tokens.into_iter()
    }
}

/// The lines lowering writes, counted against refusal 8 (merged tokens, empty ones too).
#[derive(Default)]
pub struct Lines {
    lines: Vec<PseudoLine>,
    tokens: usize,
    bytes: usize,
}

impl Lines {
    pub const LINES: usize = 768;
    pub const TOKENS: usize = 6_144;
    pub const BYTES: usize = 32_768;

    pub fn push(&mut self, l: PseudoLine) {
        self.tokens += l.tokens.len();
        self.bytes += l.tokens.iter().map(|t| t.t.len()).sum::<usize>();
        self.lines.push(l);
    }

    /// The counts only grow, so a limit passed early is passed at the end.
    pub fn check(&self) -> Result<(), Refusal> {
        if self.lines.len() > Self::LINES || self.tokens > Self::TOKENS || self.bytes > Self::BYTES {
            return Err(Refusal(8));
        }
        Ok(())
    }

    pub fn finish(self) -> Result<Vec<PseudoLine>, Refusal> {
        self.check()?;
        Ok(self.lines)
    }
}
