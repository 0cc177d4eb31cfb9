//! Spellings that the printer and the parser share: registers, numbers and texts.

const NAMES64: [&str; 8] = ["rax", "rcx", "rdx", "rbx", "rsp", "rbp", "rsi", "rdi"];
const NAMES32: [&str; 8] = ["eax", "ecx", "edx", "ebx", "esp", "ebp", "esi", "edi"];

/// The marks of a statement, by bit.
pub const MARKS: [&str; 3] = ["dead", "flags", "push"];

/// Words that may follow a condition, so that a condition of that spelling is quoted.
const AFTER_CONDITION: [&str; 2] = ["to", "uses"];

/// How a text is spelled where it stands in a record.
#[derive(Clone, Copy, PartialEq, Eq)]
pub enum Spelling {
    /// In quotes.
    Quoted,
    /// In quotes, and never empty in a sound file.
    Name,
    /// A bare word where it is one.
    Condition,
    /// Bare signs (`+`, `>>s`) where it is that; never empty in a sound file.
    Operator,
}

/// A register's name: upstream's for the first eight, `r` and the number for the rest, over 15 too.
pub fn register(bits: u32, register: u32) -> String {
    let names = if bits == 32 { &NAMES32 } else { &NAMES64 };
    match names.get(register as usize) {
        Some(name) => (*name).to_string(),
        None => format!("r{register}"),
    }
}

/// The register of a name, of either width.
pub fn register_number(word: &str) -> Option<u32> {
    if let Some(i) = [&NAMES64, &NAMES32].iter().find_map(|names| names.iter().position(|n| *n == word)) {
        return Some(i as u32);
    }
    let digits = word.strip_prefix('r')?;
    let number: u32 = digits.parse().ok()?;
    (number >= 8 && number.to_string() == digits).then_some(number)
}

/// A constant: signed, in decimal up to 9, else in hex, as upstream prints numbers. All 64 bits are kept.
pub fn constant(bits: u64) -> String {
    let v = bits as i64;
    match v {
        -9..=9 => v.to_string(),
        i64::MIN..=-10 => format!("-{:#x}", v.unsigned_abs()),
        10..=i64::MAX => format!("{v:#x}"),
    }
}

/// Signs of which a bare operator is made; any number of `s` may follow.
pub fn is_sign(c: char) -> bool {
    "+-*/%&|^<>=!~".contains(c)
}

/// A text as it is spelled: bare where its place allows that, else in quotes.
pub fn spell(spelling: Spelling, text: &[u8]) -> String {
    let plain = match spelling {
        Spelling::Quoted | Spelling::Name => None,
        Spelling::Condition => std::str::from_utf8(text)
            .ok()
            .filter(|t| !t.is_empty() && t.bytes().all(|b| b.is_ascii_lowercase()) && is_condition(t)),
        Spelling::Operator => std::str::from_utf8(text).ok().filter(|t| {
            let signs = t.trim_end_matches('s');
            !signs.is_empty() && signs.chars().all(is_sign)
        }),
    };
    plain.map_or_else(|| quote(text), str::to_string)
}

/// Whether a bare word can be a condition.
pub fn is_condition(word: &str) -> bool {
    !AFTER_CONDITION.contains(&word)
}

/// A text in quotes: `\"` and `\\`, and `\xNN` for bytes outside 0x20 to 0x7E.
pub fn quote(text: &[u8]) -> String {
    let mut out = String::with_capacity(text.len() + 2);
    out.push('"');
    for &b in text {
        match b {
            b'"' | b'\\' => out.extend(['\\', char::from(b)]),
            0x20..=0x7e => out.push(char::from(b)),
            _ => out.push_str(&format!("\\x{b:02x}")),
        }
    }
    out.push('"');
    out
}
