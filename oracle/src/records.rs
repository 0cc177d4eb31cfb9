//! The function file as records: the words of its table of contents and of each section, nothing judged.

/// Words of the table of contents: edition, bits, returns, 0, then offset and count of nine sections.
pub const CONTENTS: usize = 22;
/// Most bytes of a file.
pub const FILE_MOST: usize = 65_536;

/// One section: its name, the words of a record (0: bytes) and the most records it may have.
pub struct Section {
    pub name: &'static str,
    pub words: usize,
    pub most: u32,
}

const fn section(name: &'static str, words: usize, most: u32) -> Section {
    Section { name, words, most }
}

/// The sections in the order in which they stand in the file.
pub const SECTIONS: [Section; 9] = [
    section("args", 1, 16),
    section("blocks", 10, 320),
    section("phis", 4, 512),
    section("inputs", 1, 2_048),
    section("statements", 11, 1_024),
    section("lists", 2, 2_048),
    section("expressions", 5, 2_048),
    section("names", 4, 512),
    section("text", 0, 16_384),
];

/// Kinds of statements (word 3 of a statement).
pub mod kind {
    pub const ASSIGN: u32 = 1;
    pub const STORE: u32 = 2;
    pub const CALL: u32 = 3;
    pub const BRANCH: u32 = 4;
    pub const FLAGS: u32 = 5;
    pub const RETURN: u32 = 6;
    pub const OTHER: u32 = 7;
}

/// Tags of expressions (word 0 of an expression).
pub mod tag {
    pub const CONST: u32 = 1;
    pub const USE: u32 = 2;
    pub const BIN: u32 = 3;
    pub const UN: u32 = 4;
    pub const LOAD: u32 = 5;
    pub const OPAQUE: u32 = 6;
}

/// Marks of a statement (word 2).
pub mod mark {
    pub const DEAD: u32 = 1;
    pub const FLAGS: u32 = 2;
    pub const PUSH: u32 = 4;
}

/// The records of a function file. A 64-bit number is its low word, then its high word.
#[derive(Debug, Clone, Default, PartialEq, Eq)]
pub struct Records {
    pub edition: u32,
    pub bits: u32,
    pub returns: u32,
    /// The fourth word of the contents, 0 in a sound file.
    pub reserved: u32,
    /// A register each.
    pub args: Vec<u32>,
    /// start (2), has taken, taken (2), has fall, fall (2), phis, statements.
    pub blocks: Vec<[u32; 10]>,
    /// register, version, dead, inputs.
    pub phis: Vec<[u32; 4]>,
    /// A version each.
    pub inputs: Vec<u32>,
    /// address (2), marks, kind, seven fields.
    pub statements: Vec<[u32; 11]>,
    /// expression and 0, or register and version.
    pub lists: Vec<[u32; 2]>,
    /// tag, four fields.
    pub expressions: Vec<[u32; 5]>,
    /// address (2), text start, length.
    pub names: Vec<[u32; 4]>,
    pub text: Vec<u8>,
}

impl Records {
    /// The counts of the sections, in their order.
    pub fn counts(&self) -> [usize; 9] {
        [
            self.args.len(),
            self.blocks.len(),
            self.phis.len(),
            self.inputs.len(),
            self.statements.len(),
            self.lists.len(),
            self.expressions.len(),
            self.names.len(),
            self.text.len(),
        ]
    }

    /// The file: contents, then the sections one behind the other.
    pub fn bytes(&self) -> Vec<u8> {
        let mut words: Vec<u32> = vec![self.edition, self.bits, self.returns, self.reserved];
        let mut at = CONTENTS * 4;
        for (s, n) in SECTIONS.iter().zip(self.counts()) {
            words.extend([at as u32, n as u32]);
            at += n * s.words * 4;
        }
        words.extend(&self.args);
        words.extend(self.blocks.iter().flatten());
        words.extend(self.phis.iter().flatten());
        words.extend(&self.inputs);
        words.extend(self.statements.iter().flatten());
        words.extend(self.lists.iter().flatten());
        words.extend(self.expressions.iter().flatten());
        words.extend(self.names.iter().flatten());
        let mut out: Vec<u8> = words.iter().flat_map(|w| w.to_le_bytes()).collect();
        out.extend(&self.text);
        out
    }
}

/// A 64-bit number as its two words.
pub fn split(v: u64) -> [u32; 2] {
    [v as u32, (v >> 32) as u32]
}

/// The 64-bit number of two words.
pub fn join(low: u32, high: u32) -> u64 {
    u64::from(low) | u64::from(high) << 32
}
