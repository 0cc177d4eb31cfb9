//! The text form against random function files, sound and damaged, and against the samples.

use oracle::list::{answer, list, Mode};
use oracle::read::read;
use oracle::records::{kind, mark, split, tag, Records, FILE_MOST, SECTIONS};
use oracle::text::{damage, make, show};

/// Numbers that look random and are the same in every run (xorshift64*).
struct Rng(u64);

impl Rng {
    fn next(&mut self) -> u64 {
        self.0 ^= self.0 >> 12;
        self.0 ^= self.0 << 25;
        self.0 ^= self.0 >> 27;
        self.0.wrapping_mul(0x2545_f491_4f6c_dd1d)
    }

    fn below(&mut self, n: usize) -> usize {
        (self.next() >> 33) as usize % n.max(1)
    }

    fn chance(&mut self, one_in: usize) -> bool {
        self.below(one_in) == 0
    }

    fn pick<'a, T: ?Sized>(&mut self, from: &[&'a T]) -> &'a T {
        from[self.below(from.len())]
    }
}

/// How a file is laid out.
#[derive(Clone, Copy, PartialEq, Eq)]
enum Layout {
    /// Texts once each in order of mention, expressions numbered children first.
    Canonical,
    /// Texts anywhere, overlapping, repeated, with bytes that nobody mentions; any order of expressions.
    Odd,
}

const TEXTS: [&str; 22] = [
    "", "e", "ne", "le", "to", "uses", "sub_401000", "[rax]", "a b", " ", "\"", "\\", "\\x41", "(", "()", ")]", "load", "rax.0", "0x10",
    "# no comment", "@7#8", "return x; // y",
];
const OPERATORS: [&str; 14] = ["+", "-", "*", "&", ">>s", "<<", "=", "-8", "s", "a b", "(", "\"", "ss", "+@1"];

/// A file in the making: expressions and texts in reading order, text fields holding the number of a mention.
struct Draft {
    records: Records,
    mentions: Vec<Vec<u8>>,
    sane: bool,
}

impl Draft {
    fn text(&mut self, rng: &mut Rng, from: &[&str]) -> [u32; 2] {
        let mut text = rng.pick(from).as_bytes().to_vec();
        if rng.chance(6) {
            text.extend((0..rng.below(9)).map(|_| 0x20 + rng.below(0x5f) as u8));
        }
        self.mentions.push(text);
        [self.mentions.len() as u32 - 1, 0]
    }

    fn register(&self, rng: &mut Rng) -> u32 {
        if self.sane || !rng.chance(20) { rng.below(16) as u32 } else { rng.next() as u32 }
    }

    fn value(&self, rng: &mut Rng) -> [u32; 2] {
        [self.register(rng), if rng.chance(30) { rng.next() as u32 } else { rng.below(5) as u32 }]
    }

    fn wide(&self, rng: &mut Rng) -> [u32; 2] {
        split(match rng.below(6) {
            0 => rng.next(),
            1 => (rng.below(40) as u64).wrapping_sub(20),
            2 => 1 << 63,
            3 => 0x1000 + rng.below(0x100) as u64,
            _ => 0x1000 + 4 * rng.below(8) as u64,
        })
    }

    /// An expression; parts first, then itself: its number.
    fn expression(&mut self, rng: &mut Rng, depth: usize) -> u32 {
        let leaf = depth == 0 || rng.chance(3);
        let record = match if leaf { rng.below(3) } else { 3 + rng.below(4) } {
            0 => {
                let [low, high] = self.wide(rng);
                [tag::CONST, low, high, 0, 0]
            }
            1 => {
                let [register, version] = self.value(rng);
                [tag::USE, register, version, 0, 0]
            }
            2 => {
                let [start, length] = self.text(rng, &TEXTS);
                [tag::OPAQUE, start, length, 0, 0]
            }
            3 => {
                let [start, length] = self.text(rng, &OPERATORS);
                [tag::UN, start, length, self.expression(rng, depth - 1), 0]
            }
            4 => [tag::LOAD, rng.below(256) as u32, self.expression(rng, depth - 1), 0, 0],
            _ => {
                let left = self.expression(rng, depth - 1);
                let [start, length] = self.text(rng, &OPERATORS);
                [tag::BIN, start, length, left, self.expression(rng, depth - 1)]
            }
        };
        self.records.expressions.push(record);
        self.records.expressions.len() as u32 - 1
    }

    fn expressions(&mut self, rng: &mut Rng) -> u32 {
        let count = rng.below(4) as u32;
        for _ in 0..count {
            let item = [self.expression(rng, 2), 0];
            self.records.lists.push(item);
        }
        count
    }

    fn values(&mut self, rng: &mut Rng) -> u32 {
        let count = rng.below(3) as u32;
        for _ in 0..count {
            let item = self.value(rng);
            self.records.lists.push(item);
        }
        count
    }

    fn statement(&mut self, rng: &mut Rng) {
        let kind = 1 + rng.below(7) as u32;
        let has = rng.below(2) as u32;
        let mut fields: Vec<u32> = Vec::new();
        match kind {
            kind::ASSIGN => {
                fields.extend(self.value(rng));
                fields.push(self.expression(rng, 4));
            }
            kind::STORE => {
                fields.push(rng.below(256) as u32);
                fields.push(self.expression(rng, 3));
                fields.push(self.expression(rng, 3));
            }
            kind::CALL => {
                fields.extend(self.text(rng, &TEXTS));
                fields.push(self.expressions(rng));
                fields.push(has);
                fields.extend(if has == 1 { self.value(rng) } else { [0, 0] });
                fields.push(self.values(rng));
            }
            kind::BRANCH => {
                fields.push(has);
                fields.extend(if has == 1 { self.text(rng, &TEXTS) } else { [0, 0] });
                let target = rng.below(2) as u32;
                fields.push(target);
                fields.extend(if target == 1 { self.wide(rng) } else { [0, 0] });
                fields.push(self.expressions(rng));
            }
            kind::FLAGS => {
                fields.push(has);
                fields.push(self.expression(rng, 3));
                fields.push(self.expression(rng, 3));
            }
            kind::RETURN => {
                fields.push(has);
                fields.push(if has == 1 { self.expression(rng, 4) } else { 0 });
            }
            _ => {
                fields.extend(self.text(rng, &TEXTS));
                fields.push(self.expressions(rng));
                fields.push(self.values(rng));
            }
        }
        let [low, high] = self.wide(rng);
        let marks = if rng.chance(2) { rng.below(8) as u32 } else { 0 };
        let mut statement = [low, high, marks, kind, 0, 0, 0, 0, 0, 0, 0];
        statement[4..4 + fields.len()].copy_from_slice(&fields);
        self.records.statements.push(statement);
    }

    fn block(&mut self, rng: &mut Rng) {
        let [low, high] = self.wide(rng);
        let mut block = [low, high, rng.below(2) as u32, 0, 0, rng.below(2) as u32, 0, 0, rng.below(3) as u32, rng.below(6) as u32];
        for at in [2, 5] {
            if block[at] == 1 {
                block[at + 1..at + 3].copy_from_slice(&self.wide(rng));
            }
        }
        for _ in 0..block[8] {
            let [register, version] = self.value(rng);
            let inputs = rng.below(4);
            self.records.inputs.extend((0..inputs).map(|_| rng.below(6) as u32));
            self.records.phis.push([register, version, rng.below(2) as u32, inputs as u32]);
        }
        for _ in 0..block[9] {
            self.statement(rng);
        }
        self.records.blocks.push(block);
    }
}

/// The words of a record that hold a text's start, and those that hold an expression's number.
fn statement_words(s: &[u32; 11]) -> (Option<usize>, &'static [usize]) {
    match s[3] {
        kind::ASSIGN => (None, &[6]),
        kind::STORE | kind::FLAGS => (None, &[5, 6]),
        kind::BRANCH if s[4] == 1 => (Some(5), &[]),
        kind::RETURN if s[4] == 1 => (None, &[5]),
        kind::CALL | kind::OTHER => (Some(4), &[]),
        _ => (None, &[]),
    }
}

fn expression_words(e: &[u32; 5]) -> (Option<usize>, &'static [usize]) {
    match e[0] {
        tag::BIN => (Some(1), &[3, 4]),
        tag::UN => (Some(1), &[3]),
        tag::LOAD => (None, &[2]),
        tag::OPAQUE => (Some(1), &[]),
        _ => (None, &[]),
    }
}

/// Where each mention stands, and the pool.
fn pool(rng: &mut Rng, mentions: &[Vec<u8>], layout: Layout) -> (Vec<u32>, Vec<u8>) {
    let junk = |rng: &mut Rng, pool: &mut Vec<u8>| pool.extend((0..rng.below(6)).map(|_| 0x20 + rng.below(0x5f) as u8));
    let mut pool: Vec<u8> = Vec::new();
    let mut starts = vec![0; mentions.len()];
    let mut order: Vec<usize> = (0..mentions.len()).collect();
    if layout == Layout::Odd && rng.chance(2) {
        order.sort_by_cached_key(|_| rng.next());
    }
    let (share, gaps) = (rng.below(4), rng.chance(2));
    let mut seen: Vec<(&[u8], usize)> = Vec::new();
    for m in order {
        let text = mentions[m].as_slice();
        let start = match layout {
            Layout::Canonical => seen.iter().find(|(t, _)| *t == text).map(|(_, s)| *s),
            Layout::Odd if share == 0 => None,
            Layout::Odd => {
                let all: Vec<usize> = (0..pool.len() + 1).filter(|s| pool[*s..].starts_with(text)).collect();
                (!all.is_empty() && !rng.chance(4)).then(|| all[rng.below(all.len())])
            }
        };
        if layout == Layout::Odd && gaps && rng.chance(4) {
            junk(rng, &mut pool);
        }
        let start = start.unwrap_or_else(|| {
            pool.extend(text);
            pool.len() - text.len()
        });
        starts[m] = start as u32;
        seen.push((text, start));
    }
    if layout == Layout::Odd && gaps {
        junk(rng, &mut pool);
    }
    (starts, pool)
}

/// New numbers for the expressions, every part below its whole.
fn numbers(rng: &mut Rng, expressions: &[[u32; 5]], layout: Layout) -> Vec<u32> {
    let mut new: Vec<Option<u32>> = vec![None; expressions.len()];
    let any_order = layout == Layout::Odd && rng.chance(2);
    for n in 0..expressions.len() {
        let ready: Vec<usize> = (0..expressions.len())
            .filter(|e| new[*e].is_none() && expression_words(&expressions[*e]).1.iter().all(|w| new[expressions[*e][*w] as usize].is_some()))
            .collect();
        let next = if any_order && !rng.chance(3) { ready[rng.below(ready.len())] } else { ready[0] };
        new[next] = Some(n as u32);
    }
    new.into_iter().flatten().collect()
}

/// A random file that checks 2 to 5 accept; with `sane`, registers and bits as check 6 wants them.
fn random(rng: &mut Rng, layout: Layout, sane: bool) -> Records {
    let bits = if sane { [32, 64][rng.below(2)] } else { rng.next() as u32 };
    let mut draft = Draft {
        records: Records { edition: 1, bits, returns: rng.below(2) as u32, ..Records::default() },
        mentions: Vec::new(),
        sane,
    };
    for _ in 0..rng.below(4) {
        let arg = draft.register(rng);
        draft.records.args.push(arg);
    }
    for _ in 0..rng.below(5) {
        draft.block(rng);
    }
    for _ in 0..rng.below(4) {
        let [low, high] = draft.wide(rng);
        let [start, length] = draft.text(rng, &TEXTS[1..]);
        draft.records.names.push([low, high, start, length]);
    }
    let Draft { mut records, mentions, .. } = draft;
    let (starts, text) = pool(rng, &mentions, layout);
    let new = numbers(rng, &records.expressions, layout);
    let fix = |record: &mut [u32], (text, parts): (Option<usize>, &[usize])| {
        if let Some(at) = text {
            let mention = record[at] as usize;
            (record[at], record[at + 1]) = (starts[mention], mentions[mention].len() as u32);
        }
        parts.iter().for_each(|at| record[*at] = new[record[*at] as usize]);
    };
    let mut at = 0;
    for s in &mut records.statements {
        let (expressions, values) = match s[3] {
            kind::CALL => (s[6], s[10]),
            kind::BRANCH => (s[10], 0),
            kind::OTHER => (s[6], s[7]),
            _ => (0, 0),
        };
        let items = &mut records.lists[at..at + expressions as usize];
        items.iter_mut().for_each(|item| item[0] = new[item[0] as usize]);
        at += (expressions + values) as usize;
        let words = statement_words(s);
        fix(s, words);
    }
    let mut expressions = vec![[0; 5]; records.expressions.len()];
    for (i, mut e) in records.expressions.into_iter().enumerate() {
        let words = expression_words(&e);
        fix(&mut e, words);
        expressions[new[i] as usize] = e;
    }
    records.expressions = expressions;
    records.names.iter_mut().for_each(|n| fix(n, (Some(2), &[])));
    records.text = text;
    records
}

/// Whether checks 2 to 5 accept a file, by what `damage` says.
fn is_sound(file: &[u8]) -> bool {
    damage(file).first().is_none_or(|d| d.refusal == 6)
}

fn assert_round_trip(file: &[u8]) {
    let text = show(file);
    match make(&text) {
        Ok(records) => assert!(records.bytes() == file, "another file comes of\n{text}"),
        Err(e) => panic!("{e} in\n{text}"),
    }
}

#[test]
fn sound_files_come_back() {
    let mut rng = Rng(1);
    let mut annotated = [0, 0];
    for i in 0..2_500 {
        let file = random(&mut rng, Layout::Odd, i % 2 == 0).bytes();
        assert!(is_sound(&file), "{}", show(&file));
        assert_round_trip(&file);
        let text = show(&file);
        annotated[0] += usize::from(text.contains("\"@"));
        annotated[1] += usize::from(text.contains("\ntext "));
    }
    assert!(annotated.iter().all(|n| *n > 250), "{annotated:?}");
}

/// The text without what stands in quotes and without damage.
fn outside_quotes(text: &str) -> String {
    let mut out = String::new();
    for line in text.lines().filter(|l| !l.starts_with("damage 6 ")) {
        let (mut quoted, mut escaped) = (false, false);
        for c in line.chars() {
            match c {
                '\\' if quoted && !escaped => escaped = true,
                '"' if !escaped => quoted = !quoted,
                _ => {
                    escaped = false;
                    if !quoted {
                        out.push(c);
                    }
                }
            }
        }
        out.push('\n');
    }
    out
}

#[test]
fn canonical_files_need_no_numbers() {
    let mut rng = Rng(2);
    for i in 0..2_000 {
        let file = random(&mut rng, Layout::Canonical, i % 2 == 0).bytes();
        assert_round_trip(&file);
        let text = show(&file);
        let plain = outside_quotes(&text);
        assert!(!plain.contains(['@', '#']) && !plain.contains("\ntext "), "{text}");
        assert_eq!(make(&text).map(|r| show(&r.bytes())), Ok(text));
    }
}

fn spoil(rng: &mut Rng, file: &mut Vec<u8>) {
    let words = [0, 1, 2, 3, 4, 7, 8, 16, 255, 256, 0x7fff_ffff, 0xffff_ffff];
    let word = rng.below(file.len() / 4) * 4;
    match rng.below(10) {
        0 if !file.is_empty() => {
            let at = rng.below(file.len());
            file[at] = rng.next() as u8;
        }
        1 => file.truncate(rng.below(file.len() + 1)),
        2 => file.extend((0..rng.below(9)).map(|_| rng.next() as u8)),
        3 if word + 4 <= file.len() => drop(file.drain(word..word + 4)),
        4 if word + 4 <= file.len() && file.len() >= 88 => {
            let from = rng.below(file.len() / 4) * 4;
            file.copy_within(from..from + 4, word);
        }
        5 if file.len() >= 88 => {
            let at = rng.below(22) * 4;
            file[at..at + 4].copy_from_slice(&(rng.below(300) as u32).to_le_bytes());
        }
        6 if word + 4 <= file.len() => {
            let value = u32::from_le_bytes([file[word], file[word + 1], file[word + 2], file[word + 3]]);
            let value = if rng.chance(2) { value.wrapping_add(1) } else { value.wrapping_sub(1) };
            file[word..word + 4].copy_from_slice(&value.to_le_bytes());
        }
        _ if word + 4 <= file.len() => {
            file[word..word + 4].copy_from_slice(&u32::to_le_bytes(words[rng.below(words.len())]));
        }
        _ => {}
    }
}

/// Refusals rise from the reader's, places are named, the lines stand first; a sound file comes back.
fn assert_damage_shown(file: &[u8]) {
    let text = show(file);
    let found = damage(file);
    assert_eq!(found.first().map(|d| d.refusal), read(file).err().map(|r| r.0), "{text}");
    assert!(found.windows(2).all(|w| w[0].refusal <= w[1].refusal));
    for (d, line) in found.iter().zip(text.lines()) {
        assert_eq!(line, d.to_string());
        let section = d.place.split(' ').next().unwrap_or("");
        assert!(["file", "contents"].contains(&section) || SECTIONS.iter().any(|s| s.name == section), "{line}");
        assert!((2..=6).contains(&d.refusal) && !d.what.is_empty() && !line.contains('\n'), "{line}");
    }
    assert_eq!(text.lines().filter(|l| l.starts_with("damage ")).count(), found.len());
    if is_sound(file) {
        assert_round_trip(file);
    } else {
        assert_eq!(make(&text).map_err(|e| e.line), Err(1), "{text}");
    }
}

#[test]
fn damage_is_shown_with_its_place() {
    let mut rng = Rng(3);
    let mut refused = [0; 7];
    for i in 0..6_000 {
        let layout = if i % 2 == 0 { Layout::Odd } else { Layout::Canonical };
        let mut file = random(&mut rng, layout, true).bytes();
        for _ in 0..1 + rng.below(3) {
            spoil(&mut rng, &mut file);
        }
        assert_damage_shown(&file);
        refused[damage(&file).first().map_or(0, |d| usize::from(d.refusal))] += 1;
    }
    assert!([0, 2, 3, 4, 5, 6].iter().all(|n| refused[*n] > 50), "{refused:?}");
}

#[test]
fn any_bytes_are_shown() {
    let mut rng = Rng(4);
    for _ in 0..2_000 {
        let small = rng.chance(2);
        let mut file: Vec<u8> = (0..rng.below(800)).map(|_| if small { rng.below(4) as u8 } else { rng.next() as u8 }).collect();
        // Half of them with sections that adjoin.
        if file.len() >= 88 && rng.chance(2) {
            let mut words: Vec<u32> = vec![1, 64, 1, 0];
            let mut at = 88;
            for s in &SECTIONS[..8] {
                let count = rng.below(4).min((file.len() - at) / (4 * s.words));
                words.extend([at as u32, count as u32]);
                at += 4 * s.words * count;
            }
            words.extend([at as u32, (file.len() - at) as u32]);
            words.iter().enumerate().for_each(|(i, w)| file[4 * i..4 * i + 4].copy_from_slice(&w.to_le_bytes()));
        }
        assert_damage_shown(&file);
    }
    assert_damage_shown(&vec![1; FILE_MOST + 1]);
    assert_damage_shown(&vec![0; 3 * FILE_MOST]);
}

/// What each damage line says, for one damage each.
#[test]
fn damage_names_the_word() {
    let text = "function 64 bits returns\nargs rdi\nblock 0x1000 fall 0x1008\n  phi rax.1 (0)\n  0x1000  rcx.1 = rax.1 + 8\n  \
        0x1004  call \"f\"(rcx.1) ret rax.2\nblock 0x1008\n  0x1008  return\nname 0x1 \"x\"\n";
    let sound = make(text).expect("sound");
    let said = |change: &dyn Fn(&mut Records)| {
        let mut records = sound.clone();
        change(&mut records);
        damage(&records.bytes()).first().map(ToString::to_string).unwrap_or_default()
    };
    assert_eq!(said(&|_| {}), "");
    assert_eq!(said(&|r| r.edition = 7), "damage 2 contents word 0: edition 7, not 1");
    assert_eq!(said(&|r| r.reserved = 5), "damage 2 contents word 3: 5, not 0");
    assert_eq!(said(&|r| r.args = (0..17).collect()), "damage 3 contents word 5: 17 args, over 16");
    assert_eq!(said(&|r| r.returns = 2), "damage 4 contents word 2: returns 2, neither 0 nor 1");
    assert_eq!(said(&|r| r.blocks[0][3] = 9), "damage 4 blocks 0 word 3: 9 in an absent field");
    assert_eq!(said(&|r| r.blocks[0][5] = 2), "damage 4 blocks 0 word 5: 2, neither 0 nor 1");
    assert_eq!(said(&|r| r.blocks[1][9] = 2), "damage 4 blocks 1 word 9: 2 statements, 1 left");
    assert_eq!(said(&|r| r.blocks[1][9] = 0), "damage 4 statements 2: owned by no record, as all behind it (1)");
    assert_eq!(said(&|r| r.phis[0][3] = u32::MAX), "damage 4 phis 0 word 3: 4294967295 inputs, 1 left");
    assert_eq!(said(&|r| r.statements[1][2] = 8), "damage 4 statements 1 word 2: marks 8, over 7");
    assert_eq!(said(&|r| r.statements[1][3] = 8), "damage 4 statements 1 word 3: no kind 8");
    assert_eq!(said(&|r| r.statements[0][10] = 8), "damage 4 statements 0 word 10: 8 in an unused field");
    assert_eq!(said(&|r| r.lists[0][1] = 3), "damage 4 lists 0 word 1: 3 in an unused field");
    assert_eq!(said(&|r| r.expressions[1][0] = 0), "damage 4 expressions 1 word 0: no tag 0");
    assert_eq!(said(&|r| r.expressions[2][4] = 2), "damage 5 expressions 2 word 4: child 2 is not lower");
    assert_eq!(said(&|r| r.lists[0][0] = 4), "damage 5 lists 0 word 0: expression 4 of 4");
    assert_eq!(said(&|r| r.expressions[2][4] = 0), "damage 5 expressions 2 word 4: expression 0 is owned by expressions 2 already");
    assert_eq!(said(&|r| r.text[1] = 7), "damage 5 text 1: byte 0x07 outside 0x20 to 0x7e");
    assert_eq!(said(&|r| r.names[0][2] = 3), "damage 5 names 0 word 2: bytes 3 to 4 of 3");
    assert_eq!(said(&|r| r.names[0][3] = 0), "damage 5 names 0 word 3: length 0");
    assert_eq!(said(&|r| r.bits = 16), "damage 6 contents word 1: bits 16, neither 32 nor 64");
    assert_eq!(said(&|r| r.args[0] = 4), "damage 6 args 0 word 0: register 4");
    assert_eq!(said(&|r| r.args.push(7)), "damage 6 args 1 word 0: register 7 as args 0");
    assert_eq!(said(&|r| r.args[0] = 16), "damage 6 args 0 word 0: register 16, over 15");
    assert_eq!(said(&|r| r.blocks[1][0] = 0x1000), "damage 6 blocks 1 word 0: start 0x1000 as blocks 0");
    assert_eq!(said(&|r| r.names.push([1, 0, 0, 1])), "damage 6 names 1 word 0: address 0x1 is not above the one before");
    assert_eq!(said(&|r| r.phis[0][1] = 0), "damage 6 phis 0 word 1: rax.0 defined, version 0");
    assert_eq!(said(&|r| r.phis[0][1] = 2), "damage 6 phis 0 word 0: rax.2 is defined by statements 1 too");
    let computed = text.replace("\"f\"(rcx.1)", "\"[f]\"()");
    let first = |t: &str| damage(&make(t).expect("made").bytes()).first().map(ToString::to_string);
    assert_eq!(first(&computed).as_deref(), Some("damage 6 statements 1 word 6: target starts with [ and there are no args"));
    // A bad child and a bad tag further on: the tag comes first.
    assert_eq!(
        said(&|r| {
            r.expressions[2][4] = 9;
            r.expressions[3][0] = 9;
        }),
        "damage 4 expressions 3 word 0: no tag 9"
    );
}

#[test]
fn a_damaged_file_is_shown_as_far_as_it_goes() {
    let text = "function 64 bits\nblock 0x1000\n  0x1000  rax.1 = rdi.0 + 8\n  0x1004  other \"cpuid\" uses rax.1 defs rcx.1\n";
    let mut records = make(text).expect("sound");
    records.expressions[2][3] = 7;
    records.statements[1][3] = 9;
    let shown = show(&records.bytes());
    assert_eq!(
        shown,
        "damage 4 statements 1 word 3: no kind 9\n\
         damage 4 lists 0: owned by no record, as all behind it (2)\n\
         damage 5 expressions 2 word 3: expression 7 of 4\n\
         damage 5 expressions 0: owned by no record\n\
         damage 5 expressions 3: owned by no record\n\
         function 64 bits\n\
         block 0x1000\n  0x1000  rax.1 = ?7 + 8#1\n  0x1004  ?kind [9, 1, 5, 1, 1, 0, 0, 0]\n\
         ? list 0 [3, 0]\n? list 1 [1, 1]\n? expression 3 rax.1\n? expression 0 rdi.0#0\ntext \"cpuid\"\n"
    );
    assert_eq!(show(&[]), "damage 2 file: 0 bytes, under 88\n");
    assert_eq!(show(&[1, 0, 0, 0, 64, 0, 0, 0, 0, 0, 0, 0]), "damage 2 file: 12 bytes, under 88\nfunction 64 bits\n");
}

fn failure(text: &str) -> String {
    make(text).map_or_else(|e| e.to_string(), |r| show(&r.bytes()))
}

#[test]
fn bad_text_is_refused_with_its_place() {
    let with = |line: &str| failure(&format!("# comment\nfunction 64 bits\n\nblock 0x1000\n{line}\n"));
    assert_eq!(failure(""), "line 1, column 1: no function line");
    assert_eq!(failure("args rdi\n# end"), "line 3, column 1: no function line");
    assert_eq!(failure("function 64 bits\n0x1000 return"), "line 2, column 1: no block yet");
    assert_eq!(with("function 32 bits"), "line 5, column 1: a second function line");
    assert_eq!(with("  0x1000 return rdi.0 +"), "line 5, column 24: an expression expected, not the end of the line");
    assert_eq!(with("  0x1000 return rdi.0 + 1 + 2"), "line 5, column 27: the end of the line expected, not +");
    assert_eq!(with("  0x1000 return (rdi.0)"), "line 5, column 23: an operator expected, not )");
    assert_eq!(with("  0x1000 rez.1 = 1"), "line 5, column 10: store, call, branch, jump, cmp, test, return, other or a value to assign expected, not rez");
    assert_eq!(with("  0x1000 dead dead return"), "line 5, column 15: a second dead");
    assert_eq!(with("  0x1000 branch to 0x1000"), "line 5, column 17: a condition expected, not to");
    assert_eq!(with("  0x1000 other \"x"), "line 5, column 16: the quote is not closed on its line");
    assert_eq!(with("  0x1000 other \"x\\n\""), "line 5, column 18: only \\\", \\\\ and \\xNN are known");
    assert_eq!(with("  0x1000 other \"\u{e9}\""), "line 5, column 17: '\u{e9}' in a text; write its bytes as \\xNN");
    assert_eq!(with("  0x1000 return 0x10000000000000000"), "line 5, column 17: \"0x10000000000000000\" is no number of 64 bits");
    assert_eq!(with("  0x1000 return -0x8000000000000001"), "line 5, column 17: number below -2^63");
    assert_eq!(with("  0x1000 return rdi.4294967296"), "line 5, column 21: a number over 32 bits");
    assert_eq!(with("  0x1000 return rdi.0#1"), "line 5, column 23: expression 1, and no expression 0");
    assert_eq!(with("  0x1000 return (1#1 + 2#0)#1"), "line 5, column 29: expression 1 is not above its part, expression 1");
    assert_eq!(with("  0x1000 cmp(1, 2#0)"), "line 5, column 19: a second expression 0");
    assert_eq!(with("name 0x10 \"abc\"@1"), "line 5, column 11: the text stands at byte 1, and nothing says what stands at byte 0");
    assert_eq!(with("name 0x10 \"abc\"\ntext \"cc\"@1"), "line 6, column 6: byte 1 of the pool is \"b\" elsewhere and \"c\" here");
    assert_eq!(with("{"), "line 5, column 1: '{' begins nothing");
    assert_eq!(with("? list 0 [3, 0]"), "line 5, column 1: a damaged place, of which nothing can be made");
    assert_eq!(
        failure("damage 5 text 1: x\nfunction 64 bits"),
        "line 1, column 1: this text shows a damaged file; no file can be made of it"
    );
    // What a text can say is not judged: the file is made and its damage shown.
    assert!(with("  0x1000 return load 256 [1]").starts_with("damage 4 expressions 1 word 1: size 256, over 255\n"));
    assert!(with("name 0x10 \"\\x00\"").starts_with("damage 5 text 0: byte 0x00 outside 0x20 to 0x7e\n"));
}

#[test]
fn numbers_keep_their_bits() {
    for (text, bits) in [("-10", -10i64 as u64), ("-0x8000000000000000", 1 << 63), ("0x8000000000000000", 1 << 63), ("9", 9), ("0xffffffffffffffff", u64::MAX)] {
        let records = make(&format!("function 64 bits\nblock 0\n0 return {text}")).expect("made");
        assert_eq!(records.expressions[0][1..3], split(bits));
    }
    let shown = show(&make("function 32 bits\nblock 0\n0 cmp(10, -10)\n0 cmp(0xffffffffffffffff, 0x8000000000000000)").expect("made").bytes());
    assert_eq!(shown, "function 32 bits\nblock 0x0\n  0x0  cmp(0xa, -0xa)\n  0x0  cmp(-1, -0x8000000000000000)\n");
}

#[test]
fn depth_is_no_matter() {
    let deep = |open: &str, close: &str, n: usize| {
        format!("function 64 bits\nblock 0x0\n  0x0  return {}rdi.0{}\n", open.repeat(n), close.repeat(n))
    };
    for (open, close, n) in [("-(", ")", 2_047), ("load 8 [", "]", 2_047), ("(1 + ", ")", 900), ("(", " + 1)", 900)] {
        // On top two operands stand without parentheses.
        let text = deep(open, close, n).replace("return (", "return ").replace("))\n", ")\n").replace("1)\n", "1\n");
        let text = if open == "-(" { deep(open, close, n) } else { text };
        let file = make(&text).expect("made").bytes();
        assert!(is_sound(&file));
        assert_eq!(show(&file), text);
        assert_round_trip(&file);
    }
    assert!(make(&deep("-(", ")", 200_000)).is_ok());
    for open in ["(", "-(", "load 4 [", "\"\"("] {
        assert!(make(&deep(open, "", 100_000)).is_err());
    }
}

/// Every section as full as it may be, and texts as long as they may be, all of them overlapping.
#[test]
fn the_largest_file_comes_back() {
    let mut records = Records { edition: 1, bits: 64, returns: 1, ..Records::default() };
    records.text = (0..4_000u32).map(|i| 0x20 + (i * i % 0x5f) as u8).collect();
    let length = records.text.len() as u32;
    records.blocks = (0..4).map(|i| [i, 0, 0, 0, 0, 0, 0, 0, 0, 128]).collect();
    for i in 0..512 {
        records.statements.push([i, 0, mark::DEAD, kind::CALL, i, length - i, 1, 0, 0, 0, 0]);
        records.lists.push([2 * i + 1, 0]);
        records.expressions.push([tag::OPAQUE, i, length - i, 0, 0]);
        records.expressions.push([tag::UN, i / 2, length - i, 2 * i, 0]);
    }
    let file = records.bytes();
    assert!(file.len() <= FILE_MOST && is_sound(&file));
    assert_round_trip(&file);
}

/// `make` fails with a place or makes a file, whatever it is given.
#[test]
fn any_text_is_answered() {
    let mut rng = Rng(5);
    let parts = ["(", ")", "[", "]", ",", ".", "@", "#", "\"", "\\", "-", "0x", "9", " ", "\n", "s", "load 4 [", "rax.1", "uses", "\u{1f600}", "=", "block 0x1"];
    for i in 0..4_000 {
        let mut text = show(&random(&mut rng, Layout::Odd, i % 2 == 0).bytes());
        for _ in 0..1 + rng.below(4) {
            let at = text.char_indices().map(|(i, _)| i).nth(rng.below(text.len())).unwrap_or(0);
            match rng.below(3) {
                0 => text.insert_str(at, rng.pick(&parts)),
                1 => drop(text.remove(at)),
                _ => text.truncate(at),
            }
            if text.is_empty() {
                break;
            }
        }
        match make(&text) {
            Ok(records) => assert_damage_shown(&records.bytes()),
            Err(e) => {
                assert!(e.line >= 1 && e.line <= text.lines().count() + 1, "{e}");
                let width = text.lines().nth(e.line - 1).map_or(0, |l| l.chars().count());
                assert!(e.column >= 1 && e.column <= width + 1, "{e} in\n{text}");
            }
        }
    }
}

/// Document 01's two files: one block of `n` branches to blocks that follow innermost first.
fn nested(n: usize) -> String {
    let mut text = String::from("function 64 bits returns\nargs rdi\nblock 0x1000\n");
    for i in 0..n {
        text += &format!("  0x{:x}  branch e to 0x{:x}\n", 0x1000 + 4 * i, 0x3000 + 16 * i);
    }
    text += &format!("  0x{:x}  store 4 [0x2000] = 1\n", 0x1000 + 4 * n);
    for i in (0..n).rev() {
        text += &format!("block 0x{0:x}\n  0x{0:x}  return\n", 0x3000 + 16 * i);
    }
    text
}

#[test]
fn nested_files_come_back() {
    for n in [254, 255] {
        let text = nested(n);
        let file = make(&text).expect("made").bytes();
        assert_eq!(damage(&file), []);
        assert_eq!(show(&file), text);
    }
    let deepest = |n| list(&make(&nested(n)).expect("made").bytes()).map(|l| l.lines.iter().map(|x| x.indent).max());
    assert_eq!(deepest(254), Ok(Some(255)));
    assert_eq!(deepest(255).map_err(|r| r.0), Err(9));
}

fn listing(sample: &str) -> String {
    let path = format!("{}/../samples/{sample}.ssa", env!("CARGO_MANIFEST_DIR"));
    let text = std::fs::read_to_string(path).expect("sample");
    answer(&make(&text).expect("made").bytes(), Mode::Listing)
}

/// What the comments of the samples claim.
#[test]
fn samples_print_what_they_say() {
    assert_eq!(
        listing("example"),
        "ifs 1 loops 0 lines 4 tests 1\n1004 1 if (a1 != 0) {\n1008 2 *(uint32_t *)(0x2000) = a1;\n- 1 }\n1010 1 return a1;\n"
    );
    let claims = [
        ("do-while", "1008 1 } while (a1 == 0);\n"),
        ("accident", "- 1 }\n401014 1 *(uint32_t *)(0x403004) = 1;\n40101A 1 *(uint32_t *)(0x403008) = 0;\n401020 0 loc_401020:\n"),
        ("swallowed", "1008 1 *(uint32_t *)(0x2000) = *(uint32_t *)(a2);\n100C 1 __asm { out dx, eax }\n1014 1 return;\n"),
        ("wrapped", "1004 1 if (!(a1 < (a2 + 1))) {\n"),
        ("wrapped", "1014 1 if ((a1 + 1) >= a2) {\n"),
        ("kept", "1004 1 if (a1 == 0) goto loc_1008;\n1008 0 loc_1008:\n"),
        ("calls32", "1010 1 v1 = memcpy(dword_403000, 0x10, arg_8);\n1024 1 v4 = dword_403010(2);\n1028 1 var_4 = v4;\n"),
        ("calls64", "1008 1 v1 = memchr(a1 + 0x10, 0x20);\n100C 1 v6 = memchr();\n"),
        ("calls64", "101C 1 return finish(v11);\n"),
        ("flags", "1003 1 if ((a1 - a2) < 0) goto *0x5000;\n1004 1 if (__flags_o) goto *0x5000;\n"),
        ("flags", "1050 1 if ((unsigned)a1 > 0x10) goto *0x5000;\n"),
        ("slots", "1009 1 var_18 = a1;\n1012 1 v2 = &var_28;\n1014 1 var_20 = arg_8;\n"),
        ("slots", "102C 1 return *(uint8_t *)(&var_28 + a1);\n"),
        ("names", "1004 1 if (!(a&&b == 0)) {\n1008 2 *(uint32_t *)(0x2000) = dword_2008;\n- 1 }\n1010 0 loc_1010:\n"),
        ("names", "1024 1 if ((unsigned)a1 > 1) goto *0x402200;\n1028 1 goto *loc_1010;\n"),
        ("phis", "1020 1 *(uint64_t *)(rsp + 8) = v1;\n1024 1 var_10 = v1;\n"),
        ("odd", "1000 2 v1 = xmm0 + m;\n"),
    ];
    for (sample, claim) in claims {
        assert!(listing(sample).contains(claim), "{sample}:\n{}", listing(sample));
    }
}

#[test]
fn samples_come_back() {
    let samples = concat!(env!("CARGO_MANIFEST_DIR"), "/../samples");
    let mut names = Vec::new();
    for entry in std::fs::read_dir(samples).expect("samples") {
        let path = entry.expect("entry").path();
        if path.extension().is_none_or(|e| e != "ssa") {
            continue;
        }
        let text = std::fs::read_to_string(&path).expect("text");
        assert!(text.starts_with("# "), "{path:?} does not say what it shows");
        let plain: String = text.lines().filter(|l| !l.starts_with('#')).map(|l| format!("{l}\n")).collect();
        let file = make(&text).unwrap_or_else(|e| panic!("{path:?}: {e}")).bytes();
        assert_eq!(show(&file), plain, "{path:?}");
        assert_eq!(damage(&file), [], "{path:?}");
        names.extend(path.file_stem().map(|n| n.to_string_lossy().into_owned()));
    }
    let wanted = [
        "accident", "calls32", "calls64", "do-while", "example", "flags", "kept", "names", "odd", "phis", "slots", "swallowed", "wrapped",
    ];
    assert!(wanted.iter().all(|w| names.iter().any(|n| n == w)), "{names:?}");
}
