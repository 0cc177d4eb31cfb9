//! The text form of function files: `show` prints a file for people, `make` builds a file from that text.
//!
//! `make` of `show` is the file, byte for byte, for every file that checks 2 to 5 accept; `show` of
//! `make` is the text, for text as `show` writes it. The grammar is in docs/TEXT-FORM.md.

mod checks;
mod damage;
mod expressions;
mod forms;
mod lexer;
mod make;
mod pool;
mod show;
mod words;

pub use damage::Damage;
pub use lexer::Error;

use crate::records::Records;

/// The text of a function file; of a damaged one, the damage and as much as can be read.
pub fn show(file: &[u8]) -> String {
    let reading = damage::read(file);
    show::print(&reading)
}

/// The records that a text states. What the text can say is not judged: sizes, limits and empty names are free.
pub fn make(text: &str) -> Result<Records, Error> {
    make::records(text)
}

/// What checks 2 to 6 find in a file, in the order of the checks: the first one's number is the refusal.
pub fn damage(file: &[u8]) -> Vec<Damage> {
    damage::read(file).damage
}
