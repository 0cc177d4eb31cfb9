//! The structuring passes by themselves: lowered lines in, finished lines out.

use oracle::upstream::pseudo::PseudoLine;

use crate::entry::Answer;
use crate::sheet::{zeros, Sheet, LENT_LINES, LINES, ROW};
use crate::{Line, Refusal};

extern "C" {
    /// `probe::sorkhelaw_structure`: each slice is a pointer and a length.
    fn sorkhelaw_structure(
        lines: *mut u64,
        lines_len: usize,
        tokens: *mut u64,
        tokens_len: usize,
        text: *mut u8,
        text_len: usize,
        rows: *mut u64,
        rows_len: usize,
        spans: *mut u64,
        spans_len: usize,
        counts: *mut u64,
        counts_len: usize,
        from: *const u64,
        from_len: usize,
        lowered: *const u64,
        lowered_len: usize,
        source: *const u8,
        source_len: usize,
        n: usize,
    ) -> u32;
}

/// The buffers of the passes, kept between calls.
pub struct Passes {
    lowered: Sheet,
    lent: Sheet,
    rows: Vec<u64>,
    spans: Vec<u64>,
    count: usize,
}

impl Default for Passes {
    fn default() -> Self {
        Passes {
            lowered: Sheet::lowered(),
            lent: Sheet::lent(),
            rows: vec![0; LENT_LINES],
            spans: vec![0; LINES + 1],
            count: 0,
        }
    }
}

impl Passes {
    /// Lays lowered lines into the buffers, and clears the lent ones; false where there is no room.
    pub fn lay(&mut self, low: &[PseudoLine]) -> bool {
        self.lent.clear();
        self.count = low.len();
        fill(&mut self.lowered, low)
    }

    /// The passes over the lines that were laid in, or refusal 9.
    pub fn run(&mut self) -> Result<Answer, Refusal> {
        let mut counts = [0; 6];
        // The slices are Rust's own, and the lines that were laid in are lowered ones.
        let answer = unsafe {
            sorkhelaw_structure(
                self.lent.lines.as_mut_ptr(),
                self.lent.lines.len(),
                self.lent.tokens.as_mut_ptr(),
                self.lent.tokens.len(),
                self.lent.text.as_mut_ptr(),
                self.lent.text.len(),
                self.rows.as_mut_ptr(),
                self.rows.len(),
                self.spans.as_mut_ptr(),
                self.spans.len(),
                counts.as_mut_ptr(),
                counts.len(),
                self.lowered.lines.as_ptr(),
                self.lowered.lines.len(),
                self.lowered.tokens.as_ptr(),
                self.lowered.tokens.len(),
                self.lowered.text.as_ptr(),
                self.lowered.text.len(),
                self.count,
            )
        };
        Refusal::answered(answer)?;
        let [lines, tokens, bytes, ifs, loops, tests] = counts.map(|n| n as usize);
        Ok(Answer { number: 0, lines, tokens, bytes, ifs, loops, tests })
    }

    /// The finished lines, if the buffers hold lines and zeros behind them.
    pub fn finished(&self, c: Answer) -> Result<Vec<Line>, String> {
        let lines = self.lent.read(c.lines)?;
        let counted = (lines.iter().map(|l| l.tokens.len()).sum(), lines.iter().map(Line::bytes).sum());
        match self.lent.ends_with(&lines) && (c.tokens, c.bytes) == counted {
            true => Ok(lines),
            false => Err("no zeros behind the lines, or other counts".into()),
        }
    }

    /// Whether both tables of the passes are zeros, and after a refusal the lent buffers too.
    pub fn is_clean(&self, refused: bool) -> bool {
        zeros(&self.rows) && zeros(&self.spans) && (!refused || self.lent.is_clean())
    }
}

/// These lines, and zeros behind them; false where there is no room.
fn fill(sheet: &mut Sheet, lines: &[PseudoLine]) -> bool {
    sheet.clear();
    let (mut token, mut end) = (0, 0);
    for (i, l) in lines.iter().enumerate() {
        for t in &l.tokens {
            let Some(place) = sheet.text.get_mut(end..end + t.t.len()) else { return false };
            place.copy_from_slice(t.t.as_bytes());
            end += t.t.len();
            let Some(place) = sheet.tokens.get_mut(token) else { return false };
            // Upstream declares the kinds in the order of our numbers.
            *place = 8 * end as u64 + t.k as u64;
            token += 1;
        }
        let Some(row) = sheet.lines.get_mut(ROW * i..ROW * (i + 1)) else { return false };
        row.copy_from_slice(&[l.address.is_some().into(), l.address.unwrap_or(0), l.indent.into(), token as u64, 0]);
    }
    true
}
