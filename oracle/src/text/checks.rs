//! Checks 4 to 6 on the records, by the table of forms.

use std::collections::HashMap;

use super::damage::Notes;
use super::forms::{self, parts, Item, Of, Part, EXPRESSION_HEAD, KINDS, STATEMENT_HEAD, TAGS};
use super::words::{self, Spelling};
use crate::records::{join, kind, Records, SECTIONS};

/// A record with its form, none if its kind or tag is unknown or nobody owns it.
struct Row<'a> {
    section: &'static str,
    record: usize,
    words: &'a [u32],
    /// The words in front of the form.
    head: usize,
    form: Option<&'static [Item]>,
    parts: Vec<Part>,
}

impl Row<'_> {
    fn note(&self, notes: &mut Notes, refusal: u8, word: usize, what: String) {
        notes.at(refusal, self.section, Some(self.record), word, what);
    }

    fn wide(&self, word: usize) -> u64 {
        match self.words.get(word..word + 2) {
            Some(w) => join(w[0], w[1]),
            None => 0,
        }
    }

    fn there(&self) -> impl Iterator<Item = &Part> {
        self.parts.iter().filter(|p| p.there)
    }

    fn is(&self, section: &str) -> bool {
        self.section == section
    }

    fn is_kind(&self, kind: u32) -> bool {
        self.is("statements") && self.words.get(3) == Some(&kind)
    }
}

/// All records in the order of the file.
pub struct Table<'a> {
    records: &'a Records,
    rows: Vec<Row<'a>>,
}

impl<'a> Table<'a> {
    pub fn new(records: &'a Records) -> Self {
        let mut table = Table { records, rows: Vec::new() };
        table.add(0, &records.args, 1, |_| (0, Some(forms::ARG)));
        table.add(1, records.blocks.as_flattened(), 10, |_| (0, Some(forms::BLOCK)));
        table.add(2, records.phis.as_flattened(), 4, |_| (0, Some(forms::PHI)));
        table.add(3, &records.inputs, 1, |_| (0, Some(forms::INPUT)));
        table.add(4, records.statements.as_flattened(), 11, |w| (STATEMENT_HEAD, forms::form_of(&KINDS, w[3])));
        let mut items = table.list_forms().into_iter();
        table.add(5, records.lists.as_flattened(), 2, |_| (0, items.next()));
        table.add(6, records.expressions.as_flattened(), 5, |w| (EXPRESSION_HEAD, forms::form_of(&TAGS, w[0])));
        table.add(7, records.names.as_flattened(), 4, |_| (0, Some(forms::NAME)));
        table
    }

    fn add(
        &mut self,
        section: usize,
        words: &'a [u32],
        width: usize,
        mut form: impl FnMut(&[u32]) -> (usize, Option<&'static [Item]>),
    ) {
        for (record, words) in words.chunks_exact(width).enumerate() {
            let (head, form) = form(words);
            let parts = form.map_or_else(Vec::new, |f| parts(f, words, head));
            self.rows.push(Row { section: SECTIONS[section].name, record, words, head, form, parts });
        }
    }

    /// The forms of the list items that statements own, as far as there are items.
    fn list_forms(&self) -> Vec<&'static [Item]> {
        let mut out = Vec::new();
        for row in &self.rows {
            for p in row.there() {
                let form = match p.item {
                    Item::List(Of::Expr, ..) => forms::LIST_EXPR,
                    Item::List(Of::Value, ..) => forms::LIST_VALUE,
                    _ => continue,
                };
                let left = self.records.lists.len() - out.len();
                out.extend(std::iter::repeat_n(form, left.min(row.words[p.word] as usize)));
            }
        }
        out
    }

    /// Check 4 on the records: words out of place, then the owned counts.
    pub fn check_words(&self, notes: &mut Notes) {
        for row in &self.rows {
            if row.is("statements") && row.words[2] > 7 {
                row.note(notes, 4, 2, format!("marks {}, over 7", row.words[2]));
            }
            if row.form.is_none() && !row.is("lists") {
                let (what, word) = if row.is("statements") { ("kind", 3) } else { ("tag", 0) };
                row.note(notes, 4, word, format!("no {what} {}", row.words[word]));
                continue;
            }
            for p in &row.parts {
                let w = row.words[p.word];
                match p.item {
                    Item::Has(..) if w > 1 => row.note(notes, 4, p.word, format!("{w}, neither 0 nor 1")),
                    Item::Size if w > 255 => row.note(notes, 4, p.word, format!("size {w}, over 255")),
                    Item::Has(..) | Item::Lit(_) => {}
                    item if !p.there => {
                        for i in (p.word..p.word + forms::width(item)).filter(|i| row.words[*i] != 0) {
                            row.note(notes, 4, i, format!("{} in an absent field", row.words[i]));
                        }
                    }
                    _ => {}
                }
            }
            let used = row.head + row.form.map_or(row.words.len(), forms::words);
            for i in (used..row.words.len()).filter(|i| row.words[*i] != 0) {
                row.note(notes, 4, i, format!("{} in an unused field", row.words[i]));
            }
        }
        for section in [forms::section::PHIS, forms::section::STATEMENTS, forms::section::INPUTS, forms::section::LISTS] {
            self.check_owned(section, notes);
        }
    }

    fn check_owned(&self, section: usize, notes: &mut Notes) {
        let name = SECTIONS[section].name;
        let count = self.records.counts()[section] as u64;
        let mut left = count;
        for row in &self.rows {
            for p in row.there() {
                let owned = match p.item {
                    Item::Owned(s) if *s == section => u64::from(row.words[p.word]),
                    Item::List(of, ..) if of.section() == section => u64::from(row.words[p.word]),
                    _ => continue,
                };
                if owned > left {
                    row.note(notes, 4, p.word, format!("{owned} {name}, {left} left"));
                }
                left = left.saturating_sub(owned);
            }
        }
        if left > 0 {
            notes.add(4, format!("{name} {}", count - left), format!("owned by no record, as all behind it ({left})"));
        }
    }

    /// Check 5: texts, then children and owners of expressions.
    pub fn check_references(&self, notes: &mut Notes) {
        let text = &self.records.text;
        let odd = |b: &u8| !(0x20..=0x7e).contains(b);
        let mut at = 0;
        while let Some(i) = text[at..].iter().position(odd) {
            let run = text[at + i..].iter().take_while(|b| odd(b)).count();
            let more = if run > 1 { format!(", as the {} behind it", run - 1) } else { String::new() };
            notes.add(5, format!("text {}", at + i), format!("byte {:#04x} outside 0x20 to 0x7e{more}", text[at + i]));
            at += i + run;
        }
        let count = self.records.expressions.len();
        let mut owner: Vec<Option<String>> = vec![None; count];
        for row in &self.rows {
            for p in row.there() {
                let w = row.words[p.word];
                match p.item {
                    Item::Text(spelling) => self.check_text(row, p.word, *spelling, notes),
                    Item::Expr if w as usize >= count => {
                        row.note(notes, 5, p.word, format!("expression {w} of {count}"));
                    }
                    Item::Expr => {
                        if row.is("expressions") && w as usize >= row.record {
                            row.note(notes, 5, p.word, format!("child {w} is not lower"));
                        }
                        let owner = &mut owner[w as usize];
                        if let Some(first) = owner {
                            row.note(notes, 5, p.word, format!("expression {w} is owned by {first} already"));
                        } else {
                            *owner = Some(format!("{} {}", row.section, row.record));
                        }
                    }
                    _ => {}
                }
            }
        }
        for (e, _) in owner.iter().enumerate().filter(|(_, o)| o.is_none()) {
            notes.add(5, format!("expressions {e}"), "owned by no record".into());
        }
    }

    fn check_text(&self, row: &Row, word: usize, spelling: Spelling, notes: &mut Notes) {
        let (start, length) = (u64::from(row.words[word]), u64::from(row.words[word + 1]));
        let all = self.records.text.len() as u64;
        if start + length > all {
            row.note(notes, 5, word, format!("bytes {start} to {} of {all}", start + length));
        }
        if length == 0 && matches!(spelling, Spelling::Name | Spelling::Operator) {
            row.note(notes, 5, word + 1, "length 0".into());
        }
    }

    /// Check 6: bits, registers, args, block starts, names, definitions, computed calls.
    pub fn check_meaning(&self, notes: &mut Notes) {
        if ![32, 64].contains(&self.records.bits) {
            notes.at(6, "contents", None, 1, format!("bits {}, neither 32 nor 64", self.records.bits));
        }
        let mut args: HashMap<u32, usize> = HashMap::new();
        let mut starts: HashMap<u64, usize> = HashMap::new();
        let mut name = None;
        for row in &self.rows {
            for p in row.there().filter(|p| matches!(p.item, Item::Register | Item::Value)) {
                if row.words[p.word] > 15 {
                    row.note(notes, 6, p.word, format!("register {}, over 15", row.words[p.word]));
                }
            }
            if row.is("args") {
                let arg = row.words[0];
                if arg == 4 {
                    row.note(notes, 6, 0, "register 4".into());
                }
                if let Some(first) = args.get(&arg) {
                    row.note(notes, 6, 0, format!("register {arg} as args {first}"));
                }
                args.entry(arg).or_insert(row.record);
            } else if row.is("blocks") {
                let start = row.wide(0);
                if let Some(first) = starts.get(&start) {
                    row.note(notes, 6, 0, format!("start {start:#x} as blocks {first}"));
                }
                starts.entry(start).or_insert(row.record);
            } else if row.is("names") {
                let address = row.wide(0);
                if name.is_some_and(|before| before >= address) {
                    row.note(notes, 6, 0, format!("address {address:#x} is not above the one before"));
                }
                name = Some(address);
            } else if row.is_kind(kind::CALL) && row.words[6] == 0 && self.text(row.words[4], row.words[5]).starts_with(b"[") {
                row.note(notes, 6, 6, "target starts with [ and there are no args".into());
            }
        }
        self.check_definitions(notes);
    }

    fn text(&self, start: u32, length: u32) -> &[u8] {
        let rest = self.records.text.get(start as usize..).unwrap_or(&[]);
        rest.get(..length as usize).unwrap_or(&[])
    }

    /// Phis and Assigns define no version 0, and nothing that is defined elsewhere too.
    fn check_definitions(&self, notes: &mut Notes) {
        let definitions = || {
            self.rows
                .iter()
                .filter(|row| !row.is("expressions"))
                .flat_map(|row| row.there().filter(|p| matches!(p.item, Item::Value)).map(move |p| (row, p.word)))
        };
        let mut by: HashMap<(u32, u32), Vec<&Row>> = HashMap::new();
        for (row, word) in definitions() {
            by.entry((row.words[word], row.words[word + 1])).or_default().push(row);
        }
        for (row, word) in definitions().filter(|(row, _)| row.is("phis") || row.is_kind(kind::ASSIGN)) {
            let (register, version) = (row.words[word], row.words[word + 1]);
            let value = format!("{}.{version}", words::register(self.records.bits, register));
            if version == 0 {
                row.note(notes, 6, word + 1, format!("{value} defined, version 0"));
            }
            let other = by.get(&(register, version)).and_then(|all| all.iter().find(|o| !std::ptr::eq(**o, row)));
            if let Some(other) = other {
                row.note(notes, 6, word, format!("{value} is defined by {} {} too", other.section, other.record));
            }
        }
    }
}
