//! Upstream's lines as ours, and the first difference between the two.

use oracle::list::Listing;
use oracle::upstream::model;
use oracle::upstream::pseudo::PseudoLine;

use crate::entry::Answer;
use crate::{Kind, Line, Token};

impl From<&model::Token> for Token {
    fn from(t: &model::Token) -> Token {
        // Upstream declares the kinds in the order of our numbers; the last it never prints.
        let kind = Kind::numbered(t.k as u64).unwrap_or_else(|| panic!("upstream printed a {:?}", t.k));
        Token { kind, text: t.t.clone() }
    }
}

impl From<&PseudoLine> for Line {
    fn from(l: &PseudoLine) -> Line {
        Line { address: l.address, indent: l.indent, tokens: l.tokens.iter().map(Token::from).collect() }
    }
}

/// The answer that goes with upstream's listing.
pub fn counted(l: &Listing) -> Answer {
    let tokens = || l.lines.iter().flat_map(|x| &x.tokens);
    let (lines, bytes) = (l.lines.len(), tokens().map(|t| t.t.len()).sum());
    Answer { number: 0, lines, tokens: tokens().count(), bytes, ifs: l.ifs, loops: l.loops, tests: l.tests() }
}

/// The first line that differs from upstream's, if any: both of them.
pub fn differing(ours: &[Line], theirs: &[PseudoLine]) -> Result<(), String> {
    let theirs: Vec<Line> = theirs.iter().map(Line::from).collect();
    let Some(at) = (0..ours.len().max(theirs.len())).find(|i| ours.get(*i) != theirs.get(*i)) else { return Ok(()) };
    Err(format!("line {at}\n  ours     {}\n  upstream {}", shown(ours.get(at)), shown(theirs.get(at))))
}

fn shown(line: Option<&Line>) -> String {
    let kinds = |l: &Line| l.tokens.iter().map(|t| format!("{:?} {:?}", t.kind, t.text)).collect::<Vec<_>>().join(", ");
    line.map_or("none".into(), |l| format!("{l}   [{}]", kinds(l)))
}
