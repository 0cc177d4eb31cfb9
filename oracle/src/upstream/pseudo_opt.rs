//! Clean-up passes over lifted pseudocode lines:
//!
//! * **expression propagation** — `edx = 0x80000000; … CreateFileW(rcx, rdx, …)`
//!   becomes `CreateFileW(L"a.txt", GENERIC_READ, …)` when the register is used
//!   exactly once and is dead afterwards;
//! * **dead call results** — `rax = CloseHandle(rcx);` → `CloseHandle(rcx);`;
//! * **symbolic arguments** — numbers passed to known APIs become constants.
//!
//! The passes work on the token lines and are deliberately conservative: any
//! label, loop or backward jump on the way stops a rewrite.

use super::model::{Token, TokenKind};
use super::pseudo::PseudoLine;

pub(crate) fn is_label(l: &PseudoLine) -> bool {
    l.tokens.len() == 2 && l.tokens[1].t == ":" && l.tokens[0].k == TokenKind::Symbol
}

/// Re-merges adjacent punctuation so lines stay compact after edits.
pub(crate) fn merge(v: Vec<Token>) -> Vec<Token> {
    let mut out: Vec<Token> = Vec::with_capacity(v.len());
    for t in v {
        if let Some(last) = out.last_mut() {
            if last.k == t.k && matches!(t.k, TokenKind::Punct | TokenKind::Text) {
                reach!("merge.joined");
                last.t.push_str(&t.t);
                continue;
            }
        }
        reach!("merge.kept");
        out.push(t);
    }
    out
}
