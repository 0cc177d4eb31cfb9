//! Lines as the printer has them in its buffers: five numbers a line, one a token, and the text.

use crate::{Kind, Line, Token};

/// The numbers of a line: whether it has an address, the address, its indent, the end of its tokens, 0.
pub const ROW: usize = 5;

/// What lowering may write, in lines, tokens and bytes; and the lines that a caller lends.
pub const LINES: usize = 768;
const TOKENS: usize = 6_144;
const BYTES: usize = 32_768;
pub const LENT_LINES: usize = 1_536;

/// Buffers of fixed lengths.
pub struct Sheet {
    pub lines: Vec<u64>,
    pub tokens: Vec<u64>,
    pub text: Vec<u8>,
}

impl Sheet {
    /// The buffers that a caller lends for a listing, zeros.
    pub fn lent() -> Sheet {
        Sheet::new(LENT_LINES)
    }

    /// The buffers that lowering writes, zeros.
    pub fn lowered() -> Sheet {
        Sheet::new(LINES)
    }

    fn new(lines: usize) -> Sheet {
        Sheet { lines: vec![0; ROW * lines], tokens: vec![0; TOKENS], text: vec![0; BYTES] }
    }

    pub fn clear(&mut self) {
        self.lines.fill(0);
        self.tokens.fill(0);
        self.text.fill(0);
    }

    /// Spoils the buffers, as `Tables::spoil` does.
    pub fn spoil(&mut self, with: u64) {
        let number = |i: usize| i as u64 ^ with;
        self.lines.iter_mut().enumerate().for_each(|(i, n)| *n = number(i) | 1);
        self.tokens.iter_mut().enumerate().for_each(|(i, n)| *n = number(i) | 1);
        self.text.iter_mut().enumerate().for_each(|(i, b)| *b = number(i) as u8 | 1);
    }

    /// The first n lines, or what is in their place that is no line.
    pub fn read(&self, n: usize) -> Result<Vec<Line>, String> {
        let rows = n.checked_mul(ROW).and_then(|end| self.lines.get(..end)).ok_or_else(|| format!("there is no room for {n} lines"))?;
        let (mut token, mut from) = (0, 0);
        let mut all = Vec::with_capacity(n);
        for row in rows.chunks(ROW) {
            let wrong = || format!("line {} is {row:?}", all.len());
            let (address, indent, last) = match *row {
                [0, 0, indent, last, 0] if last >= token => (None, indent, last),
                [1, address, indent, last, 0] if last >= token => (Some(address), indent, last),
                _ => return Err(wrong()),
            };
            let indent = u8::try_from(indent).map_err(|_| wrong())?;
            let mut tokens = Vec::new();
            while token < last {
                tokens.push(self.token(token as usize, from)?);
                (token, from) = (token + 1, self.tokens[token as usize] / 8);
            }
            all.push(Line { address, indent, tokens });
        }
        Ok(all)
    }

    /// A token whose text begins at `from`.
    fn token(&self, at: usize, from: u64) -> Result<Token, String> {
        let number = *self.tokens.get(at).ok_or_else(|| format!("there is no token {at}"))?;
        let kind = Kind::numbered(number % 8).ok_or_else(|| format!("token {at} is of kind {}", number % 8))?;
        let (from, end) = (from as usize, (number / 8) as usize);
        let text = self.text.get(from..end).ok_or_else(|| format!("the text of token {at} goes from {from} to {end}"))?;
        let text = String::from_utf8(text.to_vec()).map_err(|e| format!("the text of token {at}: {e}"))?;
        Ok(Token { kind, text })
    }

    /// Whether zeros are all that stands behind these lines.
    pub fn ends_with(&self, lines: &[Line]) -> bool {
        let (tokens, bytes) = (lines.iter().map(|l| l.tokens.len()).sum(), lines.iter().map(Line::bytes).sum());
        let rest = |all: &[u64], from: usize| all.get(from..).is_some_and(zeros);
        rest(&self.lines, ROW * lines.len()) && rest(&self.tokens, tokens) && self.text.get(bytes..).is_some_and(zeros)
    }

    pub fn is_clean(&self) -> bool {
        zeros(&self.lines) && zeros(&self.tokens) && zeros(&self.text)
    }
}

/// Whether all numbers are 0, looked at many at a time.
pub fn zeros<T: Copy + Default + PartialEq + std::ops::BitOr<Output = T>>(numbers: &[T]) -> bool {
    numbers.iter().fold(T::default(), |all, n| all | *n) == T::default()
}
