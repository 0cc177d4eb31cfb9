//! Where texts stand in a file's text section: what goes without saying, and the section that mentions give.

use std::collections::HashMap;

use super::lexer::Error;
use super::words;

/// Where the next text is taken to stand unless `@` says otherwise: a text mentioned before where it
/// stood last, a new one behind the last new one.
#[derive(Default)]
pub struct Places {
    end: u64,
    last: HashMap<Vec<u8>, u64>,
}

impl Places {
    pub fn expected(&self, text: &[u8]) -> u64 {
        self.last.get(text).copied().unwrap_or(self.end)
    }

    pub fn stands(&mut self, text: &[u8], start: u64) {
        if self.last.get(text) != Some(&start) {
            self.last.insert(text.to_vec(), start);
            self.end = start.saturating_add(text.len() as u64);
        }
    }
}

/// A text that was mentioned: its bytes, where they stand in the section and where in our text they are mentioned.
pub struct Mention {
    pub bytes: Vec<u8>,
    pub start: u64,
    pub line: usize,
    pub column: usize,
}

/// The text that all mentions together give: without gaps, and the same where they overlap.
pub fn pooled(mentions: &mut [Mention]) -> Result<Vec<u8>, Error> {
    mentions.sort_by_key(|m| m.start);
    let mut text: Vec<u8> = Vec::new();
    for m in mentions.iter() {
        let error = |message: String| Err(Error { line: m.line, column: m.column, message });
        let start = m.start as usize;
        if start > text.len() {
            return error(format!("the text stands at byte {start}, and nothing says what stands at byte {}", text.len()));
        }
        let shared = m.bytes.len().min(text.len() - start);
        if let Some(i) = (0..shared).find(|i| text[start + i] != m.bytes[*i]) {
            let (there, here) = (words::quote(&text[start + i..=start + i]), words::quote(&m.bytes[i..=i]));
            return error(format!("byte {} of the pool is {there} elsewhere and {here} here", start + i));
        }
        text.extend(&m.bytes[shared..]);
    }
    Ok(text)
}
