//! The printer: the lines of a function file in the order of its records.

use super::damage::Reading;
use super::forms::{self, Item, Of, KINDS, STATEMENT_HEAD};
use super::pool::Places;
use super::words::{self, Spelling, MARKS};
use crate::records::{join, Records};

/// The text of a reading: its damage first, then the records.
pub fn print(reading: &Reading) -> String {
    let mut printer = Printer::new(&reading.records);
    for damage in &reading.damage {
        printer.out.push_str(&format!("{damage}\n"));
    }
    if reading.headed {
        printer.function();
    }
    printer.out
}

pub struct Printer<'a> {
    pub records: &'a Records,
    pub out: String,
    /// Expressions written so far, and the number that the next one has unless `#` says otherwise.
    pub written: Vec<bool>,
    pub next: u64,
    places: Places,
    /// The bytes of the text that something mentions.
    mentioned: Vec<bool>,
    /// Inputs and list items written so far.
    inputs: usize,
    lists: usize,
    address_width: usize,
    marks_width: usize,
}

impl<'a> Printer<'a> {
    fn new(records: &'a Records) -> Self {
        let longest = |f: fn(&[u32; 11]) -> String| records.statements.iter().map(|s| f(s).len()).max().unwrap_or(0);
        Printer {
            records,
            out: String::new(),
            written: vec![false; records.expressions.len()],
            next: 0,
            places: Places::default(),
            mentioned: vec![false; records.text.len()],
            inputs: 0,
            lists: 0,
            address_width: longest(address),
            marks_width: longest(marks),
        }
    }

    fn function(&mut self) {
        let r = self.records;
        self.form(forms::FUNCTION, &[r.bits, r.returns]);
        self.out.push('\n');
        if !r.args.is_empty() {
            let args: Vec<String> = r.args.iter().map(|a| words::register(r.bits, *a)).collect();
            self.out.push_str(&format!("args {}\n", args.join(" ")));
        }
        let (mut phis, mut statements) = (r.phis.iter(), r.statements.iter());
        for block in &r.blocks {
            self.line("", forms::BLOCK, block);
            phis.by_ref().take(block[8] as usize).for_each(|phi| self.line("  ", forms::PHI, phi));
            statements.by_ref().take(block[9] as usize).for_each(|s| self.statement("  ", s));
        }
        phis.for_each(|phi| self.line("? ", forms::PHI, phi));
        statements.for_each(|s| self.statement("? ", s));
        self.rest();
        for name in &r.names {
            self.line("", forms::NAME, name);
        }
        self.unmentioned();
    }

    fn line(&mut self, lead: &str, form: &[Item], record: &[u32]) {
        self.out.push_str(lead);
        self.form(form, record);
        self.out.push('\n');
    }

    fn statement(&mut self, lead: &str, s: &[u32; 11]) {
        self.out.push_str(&format!("{lead}{:<1$}", address(s), self.address_width));
        if self.marks_width > 0 {
            self.out.push_str(&format!(" {:<1$}", marks(s), self.marks_width));
        }
        self.out.push_str("  ");
        match forms::form_of(&KINDS, s[3]) {
            Some(form) => self.form(form, &s[STATEMENT_HEAD..]),
            None => self.out.push_str(&format!("?kind {:?}", &s[3..])),
        }
        self.out.push('\n');
    }

    /// Writes a record's words by its form.
    fn form(&mut self, form: &[Item], mut words: &[u32]) {
        for item in form {
            let (here, rest) = words.split_at(forms::width(item).min(words.len()));
            words = rest;
            match (item, here) {
                (Item::Lit(s), _) => self.out.push_str(s),
                (Item::Number | Item::Size, [n]) => self.out.push_str(&n.to_string()),
                (Item::Register, [r]) => self.out.push_str(&words::register(self.records.bits, *r)),
                (Item::Wide, [low, high]) => self.out.push_str(&format!("{:#x}", join(*low, *high))),
                (Item::Value, [r, v]) => self.value(*r, *v),
                (Item::Expr, [e]) => self.expression(*e),
                (Item::Text(spelling), [start, length]) => self.text(*spelling, *start, *length),
                (Item::Has(no, _, _), [0, ..]) => self.out.push_str(no),
                (Item::Has(_, yes, of), [_, fields @ ..]) => {
                    self.out.push_str(yes);
                    self.form(of, fields);
                }
                (Item::List(_, _, _, false), [0]) => {}
                (Item::List(of, open, close, _), [count]) => {
                    self.out.push_str(open);
                    self.list(*of, *count);
                    self.out.push_str(close);
                }
                _ => {}
            }
        }
    }

    fn list(&mut self, of: Of, count: u32) {
        for i in 0..count {
            if i > 0 {
                self.out.push_str(", ");
            }
            let items = (self.records.lists.get(self.lists), self.records.inputs.get(self.inputs));
            match (of, items) {
                (Of::Expr, (Some([e, _]), _)) => {
                    self.lists += 1;
                    self.expression(*e);
                }
                (Of::Value, (Some([r, v]), _)) => {
                    self.lists += 1;
                    self.value(*r, *v);
                }
                (Of::Version, (_, Some(v))) => {
                    self.inputs += 1;
                    self.out.push_str(&v.to_string());
                }
                _ => {
                    self.out.push('?');
                    break;
                }
            }
        }
    }

    pub fn value(&mut self, register: u32, version: u32) {
        self.out.push_str(&format!("{}.{version}", words::register(self.records.bits, register)));
    }

    /// Mentions a text, with `@` and its start where that is not the expected one.
    pub fn text(&mut self, spelling: Spelling, start: u32, length: u32) {
        let (from, to) = (start as usize, start as usize + length as usize);
        let Some(text) = self.records.text.get(from..to) else {
            self.out.push_str(&format!("?@{start}+{length}"));
            return;
        };
        self.mentioned[from..to].fill(true);
        self.out.push_str(&words::spell(spelling, text));
        if self.places.expected(text) != u64::from(start) {
            self.out.push_str(&format!("@{start}"));
        }
        self.places.stands(text, u64::from(start));
    }

    /// What a damaged file has beyond what its owners take.
    fn rest(&mut self) {
        for (i, input) in self.records.inputs.iter().enumerate().skip(self.inputs) {
            self.out.push_str(&format!("? input {i} {input}\n"));
        }
        for (i, item) in self.records.lists.iter().enumerate().skip(self.lists) {
            self.out.push_str(&format!("? list {i} {item:?}\n"));
        }
        for e in (0..self.records.expressions.len()).rev() {
            if !self.written[e] {
                self.out.push_str(&format!("? expression {e} "));
                self.expression(e as u32);
                self.out.push('\n');
            }
        }
    }

    /// The runs of the text that nothing mentions.
    fn unmentioned(&mut self) {
        let mut at = 0;
        while let Some(i) = self.mentioned[at..].iter().position(|m| !m) {
            let run = self.mentioned[at + i..].iter().take_while(|m| !**m).count();
            self.out.push_str("text ");
            self.text(Spelling::Quoted, (at + i) as u32, run as u32);
            self.out.push('\n');
            at += i + run;
        }
    }
}

fn address(s: &[u32; 11]) -> String {
    format!("{:#x}", join(s[0], s[1]))
}

fn marks(s: &[u32; 11]) -> String {
    let words: Vec<&str> = MARKS.iter().enumerate().filter(|(bit, _)| s[2] >> bit & 1 == 1).map(|(_, w)| *w).collect();
    words.join(" ")
}
