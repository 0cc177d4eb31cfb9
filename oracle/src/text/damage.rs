//! A lenient reading of function files: as many records as there are, and what checks 2 to 6 find, with its place.
//!
//! Each check runs over the whole file before the next, so the first finding's number is the refusal.
//! Where the contents do not place the records (under 88 bytes, sections not adjoining, a file too long),
//! the records are not judged.

use std::fmt;

use super::checks::Table;
use crate::records::{Records, CONTENTS, FILE_MOST, SECTIONS};

/// One finding: the number of the refusal it leads to, its place and what is wrong there.
#[derive(Debug, Clone, PartialEq, Eq)]
pub struct Damage {
    pub refusal: u8,
    /// `file`, or a section (or `contents`), a record's number and `word` with its number in the record.
    pub place: String,
    pub what: String,
}

impl fmt::Display for Damage {
    fn fmt(&self, f: &mut fmt::Formatter) -> fmt::Result {
        write!(f, "damage {} {}: {}", self.refusal, self.place, self.what)
    }
}

pub struct Reading {
    pub records: Records,
    /// There are enough bytes for the words that the head line shows.
    pub headed: bool,
    pub damage: Vec<Damage>,
}

fn word(file: &[u8], at: u64) -> Option<u32> {
    let at = usize::try_from(at).ok()?;
    let bytes = file.get(at..)?.get(..4)?;
    Some(u32::from_le_bytes([bytes[0], bytes[1], bytes[2], bytes[3]]))
}

/// The whole records of a section that stand in the file.
fn rows<const N: usize>(file: &[u8], (offset, count): (u64, u64)) -> Vec<[u32; N]> {
    let size = 4 * N as u64;
    let fit = (file.len() as u64).saturating_sub(offset) / size;
    let cell = |row: u64, i: usize| word(file, offset + row * size + 4 * i as u64).unwrap_or(0);
    (0..count.min(fit)).map(|row| std::array::from_fn(|i| cell(row, i))).collect()
}

/// Reads what there is and notes what checks 2 to 6 find.
pub fn read(file: &[u8]) -> Reading {
    let head = |i: usize| word(file, 4 * i as u64).unwrap_or(0);
    let mut records = Records { edition: head(0), bits: head(1), returns: head(2), reserved: head(3), ..Records::default() };
    let mut notes = Notes::default();
    let headed = file.len() >= 12;
    if file.len() < 4 * CONTENTS {
        notes.add(2, "file".into(), format!("{} bytes, under {}", file.len(), 4 * CONTENTS));
        return Reading { records, headed, damage: notes.found };
    }
    if records.edition != 1 {
        notes.at(2, "contents", None, 0, format!("edition {}, not 1", records.edition));
    }
    if records.reserved != 0 {
        notes.at(2, "contents", None, 3, format!("{}, not 0", records.reserved));
    }
    let spans: [(u64, u64); 9] = std::array::from_fn(|s| (u64::from(head(4 + 2 * s)), u64::from(head(5 + 2 * s))));
    if file.len() > FILE_MOST {
        notes.add(3, "file".into(), format!("{} bytes, over {FILE_MOST}; what is behind is not shown", file.len()));
    }
    for (s, section) in SECTIONS.iter().enumerate() {
        let count = spans[s].1;
        if count > u64::from(section.most) {
            notes.at(3, "contents", None, 5 + 2 * s, format!("{count} {}, over {}", section.name, section.most));
        }
    }
    let placed = check_sections(file, &spans, &mut notes) && file.len() <= FILE_MOST;
    if records.returns > 1 {
        notes.at(4, "contents", None, 2, format!("returns {}, neither 0 nor 1", records.returns));
    }

    let seen = &file[..file.len().min(FILE_MOST)];
    records.args = rows::<1>(seen, spans[0]).into_iter().flatten().collect();
    records.blocks = rows(seen, spans[1]);
    records.phis = rows(seen, spans[2]);
    records.inputs = rows::<1>(seen, spans[3]).into_iter().flatten().collect();
    records.statements = rows(seen, spans[4]);
    records.lists = rows(seen, spans[5]);
    records.expressions = rows(seen, spans[6]);
    records.names = rows(seen, spans[7]);
    let start = (spans[8].0 as usize).min(seen.len());
    records.text = seen[start..start.saturating_add(spans[8].1 as usize).min(seen.len())].to_vec();
    if placed {
        let table = Table::new(&records);
        table.check_words(&mut notes);
        table.check_references(&mut notes);
        table.check_meaning(&mut notes);
    }
    Reading { records, headed, damage: notes.found }
}

/// Check 4 on the contents: each section where the one before ends, the last one at the end of the file.
fn check_sections(file: &[u8], spans: &[(u64, u64); 9], notes: &mut Notes) -> bool {
    let mut at = 4 * CONTENTS as u64;
    let before = notes.found.len();
    for (s, section) in SECTIONS.iter().enumerate() {
        let (offset, count) = spans[s];
        if offset != at {
            notes.at(4, "contents", None, 4 + 2 * s, format!("{} at byte {offset}, not {at}", section.name));
        }
        at = offset + count * if section.words == 0 { 1 } else { 4 * section.words as u64 };
    }
    if at != file.len() as u64 {
        notes.at(4, "contents", None, 21, format!("the text ends at byte {at}, the file at {}", file.len()));
    }
    notes.found.len() == before
}

/// Findings so far.
#[derive(Default)]
pub struct Notes {
    found: Vec<Damage>,
}

impl Notes {
    pub fn add(&mut self, refusal: u8, place: String, what: String) {
        self.found.push(Damage { refusal, place, what });
    }

    pub fn at(&mut self, refusal: u8, section: &str, record: Option<usize>, word: usize, what: String) {
        let record = record.map_or(String::new(), |r| format!(" {r}"));
        self.add(refusal, format!("{section}{record} word {word}"), what);
    }
}
