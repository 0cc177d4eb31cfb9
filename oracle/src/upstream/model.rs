//! Serializable data model shared by every Paranoia front-end
//! (desktop app, CLI, WebAssembly build).

/// Token classes used by the UI for syntax highlighting.
#[derive(Debug, Clone, Copy, PartialEq, Eq)]
pub enum TokenKind {
    Text,
    Register,
    Number,
    Keyword,
    Symbol,
    Address,
    Punct,
    Prefix,
}

#[derive(Debug, Clone, PartialEq, Eq)]
pub struct Token {
    pub t: String,
    pub k: TokenKind,
}
