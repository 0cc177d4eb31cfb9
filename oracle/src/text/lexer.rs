//! Lines cut into tokens, each with its column.

use std::fmt;

use super::words;

/// What is wrong with a text and where: line and column (in characters) count from 1.
#[derive(Debug, Clone, PartialEq, Eq)]
pub struct Error {
    pub line: usize,
    pub column: usize,
    pub message: String,
}

impl fmt::Display for Error {
    fn fmt(&self, f: &mut fmt::Formatter) -> fmt::Result {
        write!(f, "line {}, column {}: {}", self.line, self.column, self.message)
    }
}

impl std::error::Error for Error {}

#[derive(Debug, Clone, PartialEq, Eq)]
pub enum Token {
    Number { negative: bool, magnitude: u64 },
    Word(String),
    Quoted(Vec<u8>),
    /// Signs of a bare operator, `s` behind them included.
    Operator(String),
    /// One of `( ) [ ] , . @ #`.
    Sign(char),
}

impl fmt::Display for Token {
    fn fmt(&self, f: &mut fmt::Formatter) -> fmt::Result {
        match self {
            Token::Number { negative, magnitude } => write!(f, "{}{magnitude:#x}", if *negative { "-" } else { "" }),
            Token::Word(w) | Token::Operator(w) => f.write_str(w),
            Token::Quoted(t) => f.write_str(&words::quote(t)),
            Token::Sign(c) => write!(f, "{c}"),
        }
    }
}

/// The tokens of a line with their columns; on failure the column and what is wrong.
pub fn tokens(line: &str) -> Result<Vec<(usize, Token)>, (usize, String)> {
    let mut cutter = Cutter { chars: line.chars().collect(), at: 0 };
    let mut out = Vec::new();
    loop {
        while cutter.peek(0).is_some_and(char::is_whitespace) {
            cutter.at += 1;
        }
        let column = cutter.at + 1;
        match cutter.token()? {
            Some(token) => out.push((column, token)),
            None => return Ok(out),
        }
    }
}

struct Cutter {
    chars: Vec<char>,
    at: usize,
}

fn in_word(c: char) -> bool {
    c.is_ascii_alphanumeric() || c == '_'
}

impl Cutter {
    fn peek(&self, ahead: usize) -> Option<char> {
        self.chars.get(self.at + ahead).copied()
    }

    fn run(&mut self, of: impl Fn(char) -> bool) -> String {
        let run: String = self.chars[self.at..].iter().take_while(|c| of(**c)).collect();
        self.at += run.chars().count();
        run
    }

    fn token(&mut self) -> Result<Option<Token>, (usize, String)> {
        let Some(c) = self.peek(0) else { return Ok(None) };
        let column = self.at + 1;
        Ok(Some(match c {
            '"' => self.quoted()?,
            '(' | ')' | '[' | ']' | ',' | '.' | '@' | '#' => {
                self.at += 1;
                Token::Sign(c)
            }
            '-' if self.peek(1).is_some_and(|d| d.is_ascii_digit()) => {
                self.at += 1;
                self.number(true, column)?
            }
            '0'..='9' => self.number(false, column)?,
            c if in_word(c) => Token::Word(self.run(in_word)),
            c if words::is_sign(c) => {
                let mut signs = self.run(words::is_sign);
                let letters = self.chars[self.at..].iter().take_while(|c| **c == 's').count();
                if !self.peek(letters).is_some_and(in_word) {
                    signs.push_str(&self.run(|c| c == 's'));
                }
                Token::Operator(signs)
            }
            _ => return Err((column, format!("{c:?} begins nothing"))),
        }))
    }

    fn number(&mut self, negative: bool, column: usize) -> Result<Token, (usize, String)> {
        let digits = self.run(in_word);
        let magnitude = match digits.strip_prefix("0x") {
            Some(hex) if hex.bytes().all(|b| b.is_ascii_hexdigit()) => u64::from_str_radix(hex, 16).ok(),
            Some(_) => None,
            None => digits.parse().ok(),
        };
        match magnitude {
            Some(m) if !negative || m <= 1 << 63 => Ok(Token::Number { negative, magnitude: m }),
            Some(_) => Err((column, "number below -2^63".into())),
            None => Err((column, format!("{digits:?} is no number of 64 bits"))),
        }
    }

    fn quoted(&mut self) -> Result<Token, (usize, String)> {
        let open = self.at + 1;
        let mut text = Vec::new();
        loop {
            self.at += 1;
            let column = self.at + 1;
            match self.peek(0) {
                None => return Err((open, "the quote is not closed on its line".into())),
                Some('"') => break,
                Some('\\') => {
                    self.at += 1;
                    match self.peek(0) {
                        Some(c @ ('"' | '\\')) => text.push(c as u8),
                        Some('x') => {
                            let digit = |c: Option<char>| c.and_then(|c| c.to_digit(16));
                            let (Some(high), Some(low)) = (digit(self.peek(1)), digit(self.peek(2))) else {
                                return Err((column, "\\x needs two hex digits".into()));
                            };
                            text.push((16 * high + low) as u8);
                            self.at += 2;
                        }
                        _ => return Err((column, "only \\\", \\\\ and \\xNN are known".into())),
                    }
                }
                Some(c @ ' '..='~') => text.push(c as u8),
                Some(c) => return Err((column, format!("{c:?} in a text; write its bytes as \\xNN"))),
            }
        }
        self.at += 1;
        Ok(Token::Quoted(text))
    }
}
