//! Document 01's worked examples, its slips, each refusal with a small file, and each decision of the design.

use oracle::list::{answer, list, listing, lowered_text, Listing, Mode};
use oracle::read::{read, Function};
use oracle::records::{kind, mark, split, tag, Records};
use oracle::refusal::Refusal;
use oracle::upstream::ssa::{Block, Expr, Kind, Phi, SsaFunction, Stmt};
use oracle::write::write;

const RAX: u32 = 0;
const RBX: u32 = 3;
const RSP: u32 = 4;
const RSI: u32 = 6;
const RDI: u32 = 7;
const FLAGS: u32 = mark::FLAGS;

// ---------------------------------------------------------------------------------------------------------
// A file built record by record; expressions before their owners, statements and phis into the last block.

struct File(Records);

impl File {
    /// 64 bits, returns, rdi and rsi as args.
    fn new() -> File {
        File(Records { edition: 1, bits: 64, returns: 1, args: vec![RDI, RSI], ..Records::default() })
    }

    fn text(&mut self, t: &str) -> [u32; 2] {
        let start = self.0.text.len() as u32;
        self.0.text.extend(t.as_bytes());
        [start, t.len() as u32]
    }

    fn expression(&mut self, row: [u32; 5]) -> u32 {
        self.0.expressions.push(row);
        self.0.expressions.len() as u32 - 1
    }

    fn number(&mut self, v: i64) -> u32 {
        let [low, high] = split(v as u64);
        self.expression([tag::CONST, low, high, 0, 0])
    }

    fn value(&mut self, register: u32, version: u32) -> u32 {
        self.expression([tag::USE, register, version, 0, 0])
    }

    fn bin(&mut self, op: &str, left: u32, right: u32) -> u32 {
        let [start, length] = self.text(op);
        self.expression([tag::BIN, start, length, left, right])
    }

    fn un(&mut self, op: &str, child: u32) -> u32 {
        let [start, length] = self.text(op);
        self.expression([tag::UN, start, length, child, 0])
    }

    fn load(&mut self, size: u32, child: u32) -> u32 {
        self.expression([tag::LOAD, size, child, 0, 0])
    }

    fn opaque(&mut self, t: &str) -> u32 {
        let [start, length] = self.text(t);
        self.expression([tag::OPAQUE, start, length, 0, 0])
    }

    fn block(&mut self, start: u64, taken: Option<u64>, fall: Option<u64>) -> &mut File {
        let [s, t, f] = [start, taken.unwrap_or(0), fall.unwrap_or(0)].map(split);
        let (taken, fall) = (u32::from(taken.is_some()), u32::from(fall.is_some()));
        self.0.blocks.push([s[0], s[1], taken, t[0], t[1], fall, f[0], f[1], 0, 0]);
        self
    }

    fn phi(&mut self, register: u32, version: u32, inputs: &[u32]) {
        self.0.phis.push([register, version, 0, inputs.len() as u32]);
        self.0.inputs.extend(inputs);
        self.0.blocks.last_mut().unwrap()[8] += 1;
    }

    fn statement(&mut self, address: u64, marks: u32, kind: u32, fields: &[u32]) -> &mut File {
        let [low, high] = split(address);
        let mut row = [low, high, marks, kind, 0, 0, 0, 0, 0, 0, 0];
        row[4..4 + fields.len()].copy_from_slice(fields);
        self.0.statements.push(row);
        self.0.blocks.last_mut().unwrap()[9] += 1;
        self
    }

    fn assign(&mut self, address: u64, register: u32, version: u32, e: u32) -> &mut File {
        self.statement(address, 0, kind::ASSIGN, &[register, version, e])
    }

    fn store(&mut self, address: u64, marks: u32, size: u32, to: u32, value: u32) -> &mut File {
        self.statement(address, marks, kind::STORE, &[size, to, value])
    }

    fn call(&mut self, address: u64, marks: u32, target: &str, args: &[u32], ret: Option<(u32, u32)>) -> &mut File {
        let [start, length] = self.text(target);
        self.0.lists.extend(args.iter().map(|a| [*a, 0]));
        let (v, n) = ret.unwrap_or((0, 0));
        self.statement(address, marks, kind::CALL, &[start, length, args.len() as u32, u32::from(ret.is_some()), v, n, 0])
    }

    fn branch(&mut self, address: u64, cond: Option<&str>, target: Option<u64>) -> &mut File {
        let [start, length] = cond.map_or([0, 0], |cc| self.text(cc));
        let [low, high] = split(target.unwrap_or(0));
        let fields = [u32::from(cond.is_some()), start, length, u32::from(target.is_some()), low, high, 0];
        self.statement(address, 0, kind::BRANCH, &fields)
    }

    fn compare(&mut self, address: u64, test: bool, a: u32, b: u32) -> &mut File {
        self.statement(address, FLAGS, kind::FLAGS, &[u32::from(test), a, b])
    }

    fn give(&mut self, address: u64, value: Option<u32>) -> &mut File {
        self.statement(address, 0, kind::RETURN, &[u32::from(value.is_some()), value.unwrap_or(0)])
    }

    fn other(&mut self, address: u64, text: &str, uses: &[u32], defs: &[(u32, u32)]) -> &mut File {
        let [start, length] = self.text(text);
        self.0.lists.extend(uses.iter().map(|a| [*a, 0]));
        self.0.lists.extend(defs.iter().map(|(v, n)| [*v, *n]));
        self.statement(address, 0, kind::OTHER, &[start, length, uses.len() as u32, defs.len() as u32])
    }

    fn name(&mut self, address: u64, name: &str) {
        let [low, high] = split(address);
        let [start, length] = self.text(name);
        self.0.names.push([low, high, start, length]);
    }

    fn bytes(&self) -> Vec<u8> {
        self.0.bytes()
    }

    fn refusal(&self) -> Option<u8> {
        list(&self.bytes()).err().map(|r| r.0)
    }

    /// The listing, with the writer held against the reader on the way.
    fn listing(&self) -> Listing {
        let file = self.bytes();
        let l = list(&file).unwrap();
        let f = read(&file).unwrap();
        let again = write(&f).unwrap().bytes();
        let g = read(&again).unwrap();
        assert_eq!(Function { text: String::new(), ..g }, Function { text: String::new(), ..f });
        assert_eq!(list(&again).unwrap(), l);
        l
    }

    /// The texts of the lines.
    fn lines(&self) -> Vec<String> {
        self.listing().lines.iter().map(|l| l.tokens.iter().map(|t| t.t.as_str()).collect()).collect()
    }

    /// The text of the one line there is.
    fn line(&self) -> String {
        let mut lines = self.lines();
        assert_eq!(lines.len(), 1, "{lines:?}");
        lines.remove(0)
    }
}

/// A block that returns the expression made.
fn returning(make: impl Fn(&mut File) -> u32) -> File {
    let mut f = File::new();
    let e = make(&mut f);
    f.block(0x1000, None, None).give(0x1000, Some(e));
    f
}

/// `if (condition) goto 0x1020; statement; 0x1020: return`, the condition after a comparison.
fn if_over(test: bool, cc: &str, make: impl Fn(&mut File) -> (u32, u32)) -> File {
    let mut f = File::new();
    let (a, b) = make(&mut f);
    f.block(0x1000, Some(0x1020), Some(0x1010)).compare(0x1000, test, a, b).branch(0x1004, Some(cc), None);
    f.block(0x1010, None, Some(0x1020)).other(0x1010, "nop", &[], &[]);
    f.block(0x1020, None, None).give(0x1020, None);
    f
}

/// The document's own example.
fn example() -> File {
    let mut f = File::new();
    f.0.args = vec![RDI];
    let (a, b) = (f.value(RDI, 0), f.number(0));
    f.block(0x1000, Some(0x1010), Some(0x1008)).compare(0x1000, false, a, b).branch(0x1004, Some("e"), None);
    let (to, value) = (f.number(0x2000), f.value(RDI, 0));
    f.block(0x1008, None, Some(0x1010)).store(0x1008, 0, 4, to, value);
    let value = f.value(RDI, 0);
    f.block(0x1010, None, None).give(0x1010, Some(value));
    f
}

// ---------------------------------------------------------------------------------------------------------
// The worked examples

#[test]
fn the_programs_example() {
    let printed = "ifs 1 loops 0 lines 4 tests 1\n\
                   1004 1 if (a1 != 0) {\n\
                   1008 2 *(uint32_t *)(0x2000) = a1;\n\
                   - 1 }\n\
                   1010 1 return a1;\n";
    assert_eq!(listing(&example().listing()), printed);
    assert_eq!(answer(&example().bytes(), Mode::Listing), printed);
}

#[test]
fn the_other_forms_of_the_example() {
    let file = example().bytes();
    let tokens = answer(&file, Mode::Tokens);
    assert!(tokens.starts_with("ifs 1 loops 0 lines 4 tests 1\n1004 1 if (a1 != 0) {\n  Keyword if\n  Punct  (\n  Register a1\n  Punct  != \n  Number 0\n  Punct ) {\n1008 2 "));
    let lowered = answer(&file, Mode::Lowered);
    assert!(lowered.starts_with("lowered lines 4 tokens 22 bytes 73\n1004 1 if (a1 == 0) goto loc_1010;\n  Keyword if\n"), "{lowered}");
    assert!(lowered.contains("\n1010 0 loc_1010:\n  Symbol loc_1010\n  Punct :\n"), "{lowered}");
    assert_eq!(answer(&file, Mode::Tables), "tables values 1\n7_0 - 7_0 - a1\n");
}

#[test]
fn tables_show_offsets_classes_places_and_names() {
    let mut f = File::new();
    let (s, d) = (f.value(RSP, 0), f.number(16));
    let (e, s) = (f.bin("-", s, d), f.value(RSP, 1));
    let (x, y) = (f.value(RDI, 0), f.number(1));
    let (sum, to, read) = (f.bin("+", x, y), f.number(0x5000), f.value(RAX, 1));
    f.block(0x1000, None, Some(0x1010)).assign(0x1000, RSP, 1, e).assign(0x1001, RBX, 1, s).assign(0x1002, RAX, 1, sum);
    f.store(0x1003, 0, 8, to, read);
    f.block(0x1010, None, None).phi(RSI, 2, &[0, 0]);
    let value = f.value(RSI, 2);
    f.give(0x1010, Some(value));
    // No statement reads rsi_0 itself, so rsi is no parameter; its class is met first as rsi_2.
    let rows = ["0_1 - 0_1 place -", "3_1 -16 3_1 - v1", "4_0 0 4_0 - -", "4_1 -16 4_1 - -", "6_0 - 6_0 - v2", "6_2 - 6_0 - v2", "7_0 - 7_0 - a1"];
    assert_eq!(answer(&f.bytes(), Mode::Tables), format!("tables values 7\n{}\n", rows.join("\n")));
}

#[test]
fn numbers() {
    for (v, t) in [(-10, "-0xa"), (-9, "-9"), (9, "9"), (10, "0xa"), (i64::MIN, "-0x8000000000000000"), (i64::MAX, "0x7fffffffffffffff"), (0, "0")] {
        assert_eq!(returning(|f| f.number(v)).line(), format!("return {t};"));
    }
}

#[test]
fn slots() {
    for (v, t) in [(-16, "var_10"), (0, "arg_0"), (8, "arg_8")] {
        let load = |f: &mut File| {
            let (s, d) = (f.value(RSP, 0), f.number(v));
            let a = f.bin("+", s, d);
            f.load(8, a)
        };
        assert_eq!(returning(load).line(), format!("return {t};"));
        let address = |f: &mut File| {
            let (s, d) = (f.value(RSP, 0), f.number(-v));
            f.bin("-", s, d)
        };
        assert_eq!(returning(address).line(), format!("return &{t};"));
    }
}

#[test]
fn loads_from_constants() {
    let from = |size: u32, at: i64| {
        returning(move |f| {
            let a = f.number(at);
            f.load(size, a)
        })
    };
    assert_eq!(from(4, 0xFFF).line(), "return *(uint32_t *)(0xfff);");
    assert_eq!(from(4, 0x1000).line(), "return dword_1000;");
    assert_eq!(from(3, 0x1000).line(), "return unk_1000;");
    assert_eq!(from(255, -1).line(), "return *(uint2040_t *)(-1);");
    let mut named = from(4, 0x1000);
    named.name(0x1000, "count");
    assert_eq!(named.line(), "return count;");
}

#[test]
fn negation() {
    let lines = if_over(false, "e", |f| (f.value(RDI, 0), f.number(5))).lines();
    assert_eq!(lines, ["if (a1 != 5) {", "__asm { nop }", "}", "return;"]);
    let lines = if_over(false, "o", |f| (f.value(RDI, 0), f.number(5))).lines();
    assert_eq!(lines[0], "if (!(__flags_o)) {");
}

// ---------------------------------------------------------------------------------------------------------
// Slips that look right

#[test]
fn an_operand_in_parentheses_is_wrapped() {
    let f = if_over(false, "l", |f| {
        let (x, y) = (f.value(RSI, 0), f.number(1));
        let sum = f.bin("+", x, y);
        (f.value(RDI, 0), sum)
    });
    assert_eq!(f.lines()[0], "if (!(a1 < (a2 + 1))) {");
}

#[test]
fn both_signs_are_looked_for_in_the_whole_text() {
    let of_name = |name: &str| {
        let mut f = if_over(false, "e", |f| {
            let at = f.number(0x4000);
            (f.load(4, at), f.number(5))
        });
        f.name(0x4000, name);
        f.lines().remove(0)
    };
    assert_eq!(of_name("x&y"), "if (x&y != 5) {");
    assert_eq!(of_name("x&&y"), "if (!(x&&y == 5)) {");
    assert_eq!(of_name("x||y"), "if (!(x||y == 5)) {");
    // Across tokens: an operator's end and an opaque's start.
    let f = if_over(false, "e", |f| {
        let y = f.opaque("|y");
        (f.un("-|", y), f.number(5))
    });
    assert_eq!(f.lines()[0], "if (!(-||y == 5)) {");
}

#[test]
fn negate_flips_the_first_sign_of_its_list() {
    // The operator is supplied text and merges with the comparison: `!=` stands before `<` in the list.
    let f = if_over(false, "l", |f| {
        let x = f.value(RSI, 0);
        let x = f.un("!= ", x);
        (f.value(RDI, 0), x)
    });
    assert_eq!(f.lines()[0], "if (a1 < == a2) {");
    // Two tokens with a sign at depth 0.
    let f = if_over(false, "l", |f| {
        let x = f.value(RDI, 0);
        let x = f.un("( > )", x);
        (x, f.number(5))
    });
    assert_eq!(f.lines()[0], "if (!(( > )a1 < 5)) {");
}

/// Every leading ` (` goes, the end goes once, and what is left empty is dropped.
#[test]
fn stripping_takes_every_leading_parenthesis() {
    let f = if_over(true, "e", |f| {
        let x = f.value(RDI, 0);
        let x = f.un(" ( (", x);
        let y = f.value(RDI, 0);
        (x, f.un(" ( (", y))
    });
    assert!(answer(&f.bytes(), Mode::Lowered).contains("if ( ( (a1 == 0) goto"));
    assert_eq!(f.lines()[0], "if (a1 != 0) {");
}

#[test]
fn an_if_goto_directly_before_its_label_stays() {
    let mut f = File::new();
    f.block(0x1000, Some(0x1010), None).branch(0x1000, Some("o"), None);
    f.block(0x1010, None, None).give(0x1010, None);
    assert_eq!(f.lines(), ["if (__flags_o) goto loc_1010;", "loc_1010:", "return;"]);
}

/// D16: the Rust strips the jump's `) `.
#[test]
fn a_do_while_closes_tidily() {
    let mut f = File::new();
    f.block(0x1000, None, None).other(0x1000, "nop", &[], &[]);
    let (a, b) = (f.value(RDI, 0), f.value(RDI, 0));
    f.compare(0x1001, true, a, b).branch(0x1002, Some("e"), Some(0x1000));
    let l = f.listing();
    assert_eq!((l.ifs, l.loops, l.tests()), (0, 1, 0));
    assert_eq!(listing(&l), "ifs 0 loops 1 lines 3 tests 0\n1000 1 do {\n1000 2 __asm { nop }\n1002 1 } while (a1 == 0);\n");
}

#[test]
fn a_second_back_edge_forbids_the_loop() {
    let mut f = File::new();
    f.block(0x1000, None, None).other(0x1000, "nop", &[], &[]).branch(0x1001, Some("o"), Some(0x1000)).branch(0x1002, Some("p"), Some(0x1000));
    let l = f.listing();
    assert_eq!(l.loops, 0);
    assert_eq!(f.lines(), ["loc_1000:", "__asm { nop }", "if (__flags_o) goto loc_1000;", "if (__flags_p) goto loc_1000;"]);
}

#[test]
fn a_silent_reader_swallows_a_value_in_place() {
    let sum = |f: &mut File| {
        let (x, y) = (f.value(RDI, 0), f.number(1));
        let sum = f.bin("+", x, y);
        f.block(0x1000, None, None).assign(0x1000, RAX, 1, sum);
        f.value(RAX, 1)
    };
    let mut f = File::new();
    let read = sum(&mut f);
    f.other(0x1001, "out", &[read], &[]);
    assert_eq!(f.line(), "__asm { out }");
    let mut f = File::new();
    f.0.returns = 0;
    let read = sum(&mut f);
    f.give(0x1001, Some(read));
    assert_eq!(f.line(), "return;");
    // No argument register was set, so the argument is not printed.
    let mut f = File::new();
    let read = sum(&mut f);
    f.call(0x1001, 0, "g", &[read], None);
    assert_eq!(f.line(), "g();");
}

// ---------------------------------------------------------------------------------------------------------
// Rules that decide the bytes

#[test]
fn operators_and_their_trailing_s() {
    let f = returning(|f| {
        let (x, y) = (f.value(RDI, 0), f.value(RSI, 0));
        let shift = f.bin(">>s", x, y);
        f.un("ss", shift)
    });
    assert_eq!(f.line(), "return ss(a1 >> a2);");
    let f = returning(|f| {
        let (x, y) = (f.value(RDI, 0), f.value(RSI, 0));
        f.bin("sss", x, y)
    });
    assert_eq!(f.line(), "return a1  a2;");
}

#[test]
fn jumps_to_nowhere_and_to_nothing() {
    let mut f = File::new();
    f.block(0x1000, None, None).branch(0x1000, Some("e"), None);
    assert_eq!(f.line(), "if (__flags_e) goto *0x0;");
    let mut f = File::new();
    f.block(0x1000, None, None).branch(0x1000, None, None);
    assert_eq!(f.line(), "goto *;");
    assert_eq!(f.listing().lines[0].tokens.iter().map(|t| t.t.as_str()).collect::<Vec<_>>(), ["goto", " *;"]);
}

#[test]
fn call_targets_shed_sub_and_read_hex() {
    for (target, printed) in [("sub_1000", "named();"), ("sub_sub_+1000", "named();"), ("1000", "named();"), ("sub_1001", "sub_1001();"), ("sub_-1", "sub_-1();"), ("sub_", "sub_();"), ("", "();")] {
        let mut f = File::new();
        f.block(0x2000, None, None).call(0x2000, 0, target, &[], None);
        f.name(0x1000, "named");
        assert_eq!(f.line(), printed);
    }
}

#[test]
fn indirect_calls_and_global_slots() {
    let mut f = File::new();
    let at = f.number(0x3000);
    let slot = f.load(8, at);
    f.block(0x2000, None, None).call(0x2000, 0, "[x]", &[slot], None);
    assert_eq!(f.line(), "qword_3000();");
    let mut f = File::new();
    let x = f.value(RDI, 0);
    f.block(0x2000, None, None).call(0x2000, 0, "[x]", &[x], None);
    // A call alone makes no parameter.
    assert_eq!(f.line(), "(*rdi)();");
}

#[test]
fn a_store_to_a_constant_gets_no_name() {
    let mut f = File::new();
    let (to, v) = (f.number(0x1000), f.number(1));
    f.block(0x2000, None, None).store(0x2000, 0, 1, to, v);
    f.name(0x1000, "named");
    assert_eq!(f.line(), "*(uint8_t *)(0x1000) = 1;");
}

#[test]
fn dead_and_in_place_assigns_set_argument_registers() {
    let mut f = File::new();
    let one = f.number(1);
    f.block(0x1000, None, None).statement(0x1000, mark::DEAD, kind::ASSIGN, &[RSI, 1, one]);
    let (a, b) = (f.value(RDI, 0), f.value(RSI, 0));
    f.call(0x1001, 0, "g", &[a, b], None);
    assert_eq!(f.line(), "g(rdi, rsi);");
    // A dead call does not clear them.
    let (a, b) = (f.value(RDI, 0), f.value(RSI, 0));
    f.0.statements[1][2] = mark::DEAD;
    f.call(0x1002, 0, "h", &[a, b], None);
    assert_eq!(f.line(), "h(rdi, rsi);");
}

#[test]
fn pushes_go_to_the_next_call() {
    let pushed = |dead: u32| {
        let mut f = File::new();
        (f.0.bits, f.0.args) = (32, vec![]);
        f.block(0x1000, None, None);
        for v in [1, 2] {
            let (to, v) = (f.number(0), f.number(v));
            f.store(0x1000, mark::PUSH, 4, to, v);
        }
        f.call(0x1001, dead, "g", &[], None).call(0x1002, 0, "h", &[], None);
        f
    };
    assert_eq!(pushed(0).lines(), ["g(2, 1);", "h();"]);
    assert_eq!(pushed(mark::DEAD).lines(), ["h();"]);
}

#[test]
fn classes_take_their_least_value_and_name() {
    let mut f = File::new();
    f.block(0x1000, None, None).phi(RBX, 2, &[0, 1]);
    let value = f.value(RBX, 2);
    f.give(0x1000, Some(value));
    // The phi is met first, not the value on entry.
    assert_eq!(f.line(), "return v1;");
    assert!(answer(&f.bytes(), Mode::Tables).contains("\n3_2 - 3_0 - v1\n"));
    let value = returning(|f| f.value(RBX, 0));
    assert_eq!(value.line(), "return rbx;");
}

#[test]
fn saves_and_restores_are_silent() {
    let mut f = File::new();
    let (to, v) = (f.value(RSP, 0), f.value(RBX, 0));
    f.block(0x1000, None, None).store(0x1000, 0, 8, to, v);
    let from = f.value(RSP, 0);
    let v = f.load(8, from);
    f.assign(0x1001, RBX, 1, v).give(0x1002, None);
    assert_eq!(f.line(), "return;");
}

#[test]
fn conditions_after_each_setter() {
    let after = |test: bool, cc: &str, same: bool| {
        let f = if_over(test, cc, |f| (f.value(RDI, 0), if same { f.value(RDI, 0) } else { f.value(RSI, 0) }));
        let lowered = answer(&f.bytes(), Mode::Lowered);
        let line = lowered.lines().find(|l| l.starts_with("1004 1 if (")).unwrap();
        line.strip_prefix("1004 1 if (").unwrap().strip_suffix(") goto loc_1020;").unwrap().to_string()
    };
    for (cc, printed) in [("e", "a1 == a2"), ("ne", "a1 != a2"), ("l", "a1 < a2"), ("ge", "a1 >= a2"), ("g", "a1 > a2"), ("le", "a1 <= a2")] {
        assert_eq!(after(false, cc, false), printed);
    }
    for (cc, printed) in [("b", "(unsigned)a1 < a2"), ("ae", "(unsigned)a1 >= a2"), ("a", "(unsigned)a1 > a2"), ("be", "(unsigned)a1 <= a2")] {
        assert_eq!(after(false, cc, false), printed);
    }
    for (cc, printed) in [("s", "(a1 - a2) < 0"), ("ns", "(a1 - a2) >= 0"), ("p", "__flags_p"), ("", "__flags_")] {
        assert_eq!(after(false, cc, false), printed);
    }
    for (cc, printed) in [("e", "(a1 & a2) == 0"), ("ne", "(a1 & a2) != 0"), ("s", "__flags_s"), ("g", "__flags_g")] {
        assert_eq!(after(true, cc, false), printed);
    }
    for (cc, printed) in [("e", "a1 == 0"), ("ne", "a1 != 0"), ("s", "a1 < 0"), ("ns", "a1 >= 0"), ("le", "a1 <= 0"), ("g", "a1 > 0"), ("l", "__flags_l")] {
        assert_eq!(after(true, cc, true), printed);
    }
    for (register, cc, printed) in [(RAX, "e", "v1 == 0"), (RAX, "ns", "v1 >= 0"), (RAX, "g", "__flags_g"), (RSP, "e", "__flags_e")] {
        let mut f = File::new();
        let v = f.opaque("x");
        f.block(0x1000, None, None).statement(0x1000, FLAGS, kind::ASSIGN, &[register, 1, v]).branch(0x1001, Some(cc), None);
        assert_eq!(f.lines().pop().unwrap(), format!("if ({printed}) goto *0x0;"));
    }
}

#[test]
fn the_setter_may_be_dead_or_behind_the_branch() {
    let mut f = File::new();
    f.block(0x1000, None, None).branch(0x1000, Some("e"), None);
    let (a, b) = (f.value(RBX, 0), f.number(1));
    f.statement(0x1001, FLAGS | mark::DEAD, kind::FLAGS, &[0, a, b]);
    // Read by a dead statement only: no name, so the register's.
    assert_eq!(f.line(), "if (rbx == 1) goto *0x0;");
}

#[test]
fn an_if_over_unused_labels_alone_has_nothing_inside() {
    let mut f = File::new();
    f.block(0x1000, Some(0x1020), None).branch(0x1000, Some("o"), None);
    f.block(0x1010, None, None).statement(0x1010, mark::DEAD, kind::BRANCH, &[0, 0, 0, 1, 0x1010, 0, 0]);
    f.block(0x1020, None, None).give(0x1020, None);
    assert_eq!(f.lines(), ["if (!(__flags_o)) {", "}", "return;"]);
}

#[test]
fn tail_calls() {
    let jump = |returns: u32, name: &str| {
        let mut f = File::new();
        f.0.returns = returns;
        f.block(0x1000, None, None).branch(0x1000, None, Some(0x9000));
        if !name.is_empty() {
            f.name(0x9000, name);
        }
        f.lines()
    };
    assert_eq!(jump(1, "far"), ["return far();"]);
    assert_eq!(jump(0, "far"), ["far();", "return;"]);
    assert_eq!(jump(0, ""), ["goto *0x9000;"]);
    assert_eq!(jump(0, "loc_9000"), ["goto *0x9000;"]);
    assert_eq!(jump(0, "*far"), ["goto *far;"]);
}

#[test]
fn a_function_of_no_blocks() {
    assert_eq!(answer(&File::new().bytes(), Mode::Listing), "ifs 0 loops 0 lines 0 tests 0\n");
}

// ---------------------------------------------------------------------------------------------------------
// Refusals

#[test]
fn refusal_2() {
    let file = File::new().bytes();
    for n in 0..88 {
        assert_eq!(list(&file[..n]), Err(Refusal(2)));
    }
    let mut f = File::new();
    f.0.edition = 2;
    assert_eq!(f.refusal(), Some(2));
    let mut f = File::new();
    f.0.reserved = 1;
    assert_eq!(f.refusal(), Some(2));
    assert_eq!(answer(&f.bytes(), Mode::Listing), "refused 2\n");
}

/// D2: edition before size, size and limits before adjoining, `returns` in 4, `bits` in 6.
#[test]
fn refusal_3_and_its_place() {
    let mut file = File::new().bytes();
    file.resize(65_537, b' ');
    assert_eq!(list(&file), Err(Refusal(3)));
    file[0] = 7;
    assert_eq!(list(&file), Err(Refusal(2)));
    for (section, most) in [16, 320, 512, 2_048, 1_024, 2_048, 2_048, 512, 16_384].into_iter().enumerate() {
        let mut file = File::new().bytes();
        for (count, number) in [(most + 1, 3), (most, 4), (u32::MAX, 3)] {
            file[20 + 8 * section..24 + 8 * section].copy_from_slice(&u32::to_le_bytes(count));
            assert_eq!(list(&file), Err(Refusal(number)), "section {section} count {count}");
        }
    }
    let mut f = File::new();
    f.0.returns = 2;
    assert_eq!(f.refusal(), Some(4));
    let mut f = File::new();
    f.0.bits = 16;
    assert_eq!(f.refusal(), Some(6));
    // The longest file that is looked at.
    let mut file = File::new().bytes();
    file.resize(65_536, b' ');
    assert_eq!(list(&file), Err(Refusal(4)));
}

/// D1: each check over the whole file before the next begins.
#[test]
fn checks_do_not_interleave() {
    let mut f = File::new();
    f.expression([tag::LOAD, 4, 9, 0, 0]);
    f.expression([9, 0, 0, 0, 0]);
    f.0.bits = 16;
    assert_eq!(f.refusal(), Some(4));
    f.0.expressions.pop();
    assert_eq!(f.refusal(), Some(5));
    f.0.expressions.pop();
    assert_eq!(f.refusal(), Some(6));
}

/// D6: an empty section carries the running offset; a file need not end on a word.
#[test]
fn sections_adjoin() {
    let mut f = File::new();
    f.text("x");
    assert_eq!(f.refusal(), None);
    let file = f.bytes();
    assert_eq!(file.len() % 4, 1);
    for section in 0..9 {
        let at = 16 + 8 * section;
        for wrong in [0, 1, 4] {
            let mut other = file.clone();
            let offset = u32::from_le_bytes([file[at], file[at + 1], file[at + 2], file[at + 3]]);
            other[at..at + 4].copy_from_slice(&(offset + wrong).to_le_bytes());
            assert_eq!(list(&other).err(), (wrong > 0).then_some(Refusal(4)));
        }
    }
    assert_eq!(list(&file[..file.len() - 1]), Err(Refusal(4)));
    let longer: Vec<u8> = file.iter().copied().chain([b' ']).collect();
    assert_eq!(list(&longer), Err(Refusal(4)));
}

/// D3: sums are of whole numbers.
#[test]
fn sums_do_not_wrap() {
    let mut f = File::new();
    f.block(0x1000, None, None).block(0x1010, None, None);
    for field in [8, 9] {
        let mut g = File(f.0.clone());
        (g.0.blocks[0][field], g.0.blocks[1][field]) = (u32::MAX, 1);
        assert_eq!(g.refusal(), Some(4));
    }
    let mut g = File(f.0.clone());
    g.phi(RAX, 1, &[]);
    g.phi(RAX, 2, &[]);
    (g.0.phis[0][3], g.0.phis[1][3]) = (u32::MAX, 1);
    assert_eq!(g.refusal(), Some(4));
    let mut g = File(f.0.clone());
    g.other(0x1010, "", &[], &[]);
    (g.0.statements[0][6], g.0.statements[0][7]) = (u32::MAX, 1);
    assert_eq!(g.refusal(), Some(4));
    let mut g = File(f.0.clone());
    g.other(0x1010, "x", &[], &[]);
    (g.0.statements[0][4], g.0.statements[0][5]) = (u32::MAX, 1);
    assert_eq!(g.refusal(), Some(5));
}

/// A block of one statement of each kind, every field that can be absent absent.
fn each_kind() -> File {
    let mut f = File::new();
    f.0.args = vec![];
    let es: Vec<u32> = (0..5).map(|v| f.number(v)).collect();
    f.block(0x1000, None, None).assign(0x1000, RAX, 1, es[0]).store(0x1001, 0, 255, es[1], es[2]);
    f.call(0x1002, 0, "", &[], None).branch(0x1003, None, None).compare(0x1004, false, es[3], es[4]).give(0x1005, None);
    f.other(0x1006, "", &[], &[]);
    f
}

/// D4, D5: fields without meaning, has-words, marks, kinds, sizes.
#[test]
fn fields_out_of_place() {
    assert_eq!(each_kind().refusal(), None);
    // statement, field, word that gives 4
    let wrong: [(usize, usize, u32); 24] = [
        (0, 7, 1),
        (0, 10, 1),
        (1, 4, 256),
        (1, 7, 1),
        (2, 7, 2),
        (2, 8, 1),
        (2, 9, 1),
        (3, 4, 2),
        (3, 5, 1),
        (3, 6, 1),
        (3, 7, 2),
        (3, 8, 1),
        (3, 9, 1),
        (4, 4, 2),
        (4, 7, 1),
        (5, 4, 2),
        (5, 5, 1),
        (5, 6, 1),
        (6, 8, 1),
        (6, 10, 1),
        (0, 2, 8),
        (0, 3, 0),
        (0, 3, 8),
        (6, 2, u32::MAX),
    ];
    for (statement, field, word) in wrong {
        let mut f = each_kind();
        f.0.statements[statement][field] = word;
        assert_eq!(f.refusal(), Some(4), "statement {statement} field {field} word {word}");
    }
    for statement in 0..7 {
        for marks in 0..8 {
            let mut f = each_kind();
            f.0.statements[statement][2] = marks;
            assert_eq!(f.refusal(), None);
        }
    }
    for (field, word) in [(2, 2), (3, 1), (4, 1), (5, 2), (6, 1), (7, 1)] {
        let mut f = each_kind();
        f.0.blocks[0][field] = word;
        assert_eq!(f.refusal(), Some(4));
    }
    let mut f = each_kind();
    f.phi(RAX, 2, &[]);
    f.0.phis[0][2] = 2;
    assert_eq!(f.refusal(), Some(4));
}

#[test]
fn expression_fields_out_of_place() {
    let tree = || {
        returning(|f| {
            let (x, y) = (f.value(RDI, 0), f.number(1));
            let sum = f.bin("+", x, y);
            let minus = f.un("-", sum);
            let load = f.load(255, minus);
            let z = f.opaque("z");
            f.bin("*", load, z)
        })
    };
    assert_eq!(tree().line(), "return *(uint2040_t *)(-(a1 + 1)) * z;");
    for (e, field, word) in [(0, 3, 1), (0, 4, 1), (1, 3, 1), (1, 4, 1), (3, 4, 1), (4, 1, 256), (4, 3, 1), (4, 4, 1), (5, 3, 1), (5, 4, 1), (2, 0, 0), (2, 0, 7)] {
        let mut f = tree();
        f.0.expressions[e][field] = word;
        assert_eq!(f.refusal(), Some(4), "expression {e} field {field} word {word}");
    }
    // The second word of a list item that is an expression; args stand before clobbers.
    let mut f = File::new();
    let x = f.value(RDI, 0);
    f.block(0x1000, None, None).call(0x1000, 0, "g", &[x], None);
    f.0.lists.push([RAX, 5]);
    f.0.statements[0][10] = 1;
    assert_eq!(f.refusal(), None);
    f.0.lists[0][1] = 1;
    assert_eq!(f.refusal(), Some(4));
}

/// D7, D8: texts.
#[test]
fn texts() {
    assert_eq!(each_kind().lines()[2..], ["();", "goto *;", "return;", "__asm {  }"]);
    let mut f = returning(|f| f.opaque(""));
    assert_eq!(f.line(), "return ;");
    // An empty range ends where the text ends, not behind.
    f.text("abc");
    f.0.expressions[0][1] = 3;
    assert_eq!(f.refusal(), None);
    f.0.expressions[0][1] = 4;
    assert_eq!(f.refusal(), Some(5));
    f.0.expressions[0][1..3].copy_from_slice(&[1, 2]);
    assert_eq!(f.line(), "return bc;");
    f.0.expressions[0][2] = 3;
    assert_eq!(f.refusal(), Some(5));
    f.0.expressions[0][2] = 2;
    for byte in [0x1F, 0x7F, 0x80, 0xFF, 0] {
        f.0.text[0] = byte;
        assert_eq!(f.refusal(), Some(5), "nobody refers to it, yet it counts");
    }
    for byte in [0x20, 0x7E] {
        f.0.text[0] = byte;
        assert_eq!(f.refusal(), None);
    }
    // Ranges may overlap.
    f.name(0x10, "q");
    f.0.names[0][2..].copy_from_slice(&[0, 3]);
    assert_eq!(f.refusal(), None);
    f.0.names[0][3] = 0;
    assert_eq!(f.refusal(), Some(5));
    for unary in [true, false] {
        let f = returning(|f| {
            let x = f.number(1);
            if unary {
                f.un("", x)
            } else {
                let y = f.number(2);
                f.bin("", x, y)
            }
        });
        assert_eq!(f.refusal(), Some(5));
    }
    for statement in [2, 6] {
        let mut f = each_kind();
        f.0.statements[statement][4] = 1;
        assert_eq!(f.refusal(), Some(5));
    }
    let mut f = each_kind();
    f.0.statements[3][4] = 1;
    assert_eq!(f.refusal(), None, "an empty condition");
    f.0.statements[3][6] = 1;
    assert_eq!(f.refusal(), Some(5));
}

/// D9: owners.
#[test]
fn owners() {
    // In any order, children lower.
    let mut f = File::new();
    let (x, y) = (f.value(RDI, 0), f.value(RSI, 0));
    f.block(0x1000, None, None).store(0x1000, 0, 4, y, x);
    assert_eq!(f.line(), "*(uint32_t *)(a2) = a1;");
    f.0.statements[0][6] = y;
    assert_eq!(f.refusal(), Some(5), "two owners");
    f.0.statements[0][6] = 2;
    assert_eq!(f.refusal(), Some(5), "outside");
    let mut f = File::new();
    f.number(1);
    assert_eq!(f.refusal(), Some(5), "nobody owns it, and there are no blocks");
    let mut f = returning(|f| {
        let x = f.number(1);
        f.un("-", x)
    });
    f.0.expressions[1][3] = 1;
    assert_eq!(f.refusal(), Some(5), "its own child");
    let f = returning(|f| {
        let x = f.number(1);
        f.bin("+", x, x)
    });
    assert_eq!(f.refusal(), Some(5), "one child twice");
    // A child that stands higher.
    let mut f = returning(|f| {
        let x = f.number(1);
        f.un("-", x)
    });
    f.0.expressions.swap(0, 1);
    f.0.expressions[0][3] = 1;
    f.0.statements[0][5] = 0;
    assert_eq!(f.refusal(), Some(5));
}

#[test]
fn refusal_6() {
    for (bits, number) in [(32, None), (64, None), (0, Some(6)), (33, Some(6))] {
        let mut f = File::new();
        f.0.bits = bits;
        assert_eq!(f.refusal(), number);
    }
    for (args, number) in [(vec![15], None), (vec![16], Some(6)), (vec![4], Some(6)), (vec![1, 2, 1], Some(6)), (vec![u32::MAX], Some(6))] {
        let mut f = File::new();
        f.0.args = args;
        assert_eq!(f.refusal(), number);
    }
    let mut f = File::new();
    f.block(0x1000, None, None).block(0x2000, None, None).block(0x1000, None, None);
    assert_eq!(f.refusal(), Some(6));
    for (one, two, number) in [(1, 2, None), (1, 1, Some(6)), (2, 1, Some(6)), (1 << 32, 2, Some(6)), (2, 1 << 32, None), (0, u64::MAX, None)] {
        let mut f = File::new();
        f.name(one, "a");
        f.name(two, "b");
        assert_eq!(f.refusal(), number);
    }
    let f = returning(|f| f.value(16, 0));
    assert_eq!(f.refusal(), Some(6));
}

/// D10: what may define a value twice.
#[test]
fn definitions() {
    type Define = fn(&mut File, u32, u32);
    let phi: Define = |f, v, n| f.phi(v, n, &[]);
    let assign: Define = |f, v, n| {
        let e = f.number(0);
        f.assign(0x1000, v, n, e);
    };
    let dead: Define = |f, v, n| {
        let e = f.number(0);
        f.statement(0x1000, mark::DEAD, kind::ASSIGN, &[v, n, e]);
    };
    let ret: Define = |f, v, n| {
        f.call(0x1000, 0, "g", &[], Some((v, n)));
    };
    let clobber: Define = |f, v, n| {
        f.call(0x1000, 0, "g", &[], None);
        f.0.lists.push([v, n]);
        f.0.statements.last_mut().unwrap()[10] = 1;
    };
    let other: Define = |f, v, n| {
        f.other(0x1000, "x", &[], &[(v, n)]);
    };
    let strict = [phi, assign, dead];
    let free = [ret, clobber, other];
    let both = |one: Define, two: Define, n: u32| {
        let mut f = File::new();
        f.block(0x1000, None, None);
        one(&mut f, RAX, 1);
        two(&mut f, RAX, n);
        f.refusal()
    };
    for one in strict {
        for two in strict.into_iter().chain(free) {
            assert_eq!(both(one, two, 1), Some(6));
            assert_eq!(both(two, one, 1), Some(6));
            assert_eq!(both(one, two, 2), None);
        }
        assert_eq!(both(ret, one, 0), Some(6), "version 0");
    }
    for one in free {
        for two in free {
            assert_eq!(both(one, two, 1), None);
            assert_eq!(both(one, two, 0), None);
        }
    }
    for define in strict.into_iter().chain(free) {
        let mut f = File::new();
        f.block(0x1000, None, None);
        define(&mut f, 16, 1);
        assert_eq!(f.refusal(), Some(6), "register 16");
    }
    for marks in [0, mark::DEAD] {
        let mut f = File::new();
        f.block(0x1000, None, None).call(0x1000, marks, "[rax]", &[], None);
        assert_eq!(f.refusal(), Some(6));
    }
}

/// D11: every node, by whole numbers, only `+` and `-`.
#[test]
fn refusal_7() {
    let node = |op: &str, d: i64| {
        let mut f = File::new();
        let (s, d) = (f.value(RSP, 0), f.number(d));
        let e = f.bin(op, s, d);
        f.block(0x1000, None, None).other(0x1000, "x", &[e], &[]);
        f.refusal()
    };
    for (op, d, number) in [("+", i64::MAX, None), ("-", i64::MAX, None), ("+", i64::MIN, Some(7)), ("-", i64::MIN, Some(7)), ("*", i64::MIN, None), ("+s", i64::MIN, None)] {
        assert_eq!(node(op, d), number);
    }
    // A chain over the edge and back, dead, through another register: the node over the edge counts.
    let chain = |register: u32, marks: u32, step: i64| {
        let mut f = File::new();
        f.block(0x1000, None, None);
        for (n, d) in [(1, i64::MAX), (2, step), (3, -step)] {
            let base = if n == 1 { f.value(RSP, 0) } else { f.value(register, n - 1) };
            let d = f.number(d);
            let e = f.bin("+", base, d);
            f.statement(0x1000, marks, kind::ASSIGN, &[register, n, e]);
        }
        f.refusal()
    };
    for register in [RSP, RAX] {
        for marks in [0, mark::DEAD] {
            assert_eq!(chain(register, marks, 0), None);
            assert_eq!(chain(register, marks, 1), Some(7));
            assert_eq!(chain(register, marks, i64::MAX), Some(7));
        }
    }
    // Never evaluated: the right operand of an operator.
    let mut f = File::new();
    let (s, d) = (f.value(RSP, 0), f.number(i64::MIN));
    let (e, x) = (f.bin("+", s, d), f.number(1));
    let e = f.bin("*", x, e);
    f.block(0x1000, None, None).statement(0x1000, mark::DEAD, kind::RETURN, &[1, e]);
    assert_eq!(f.refusal(), Some(7));
}

#[test]
fn offsets_follow_phis_that_agree() {
    // rsp_3 = phi(rsp_1, rsp_2), both entry minus 8; rax_1 a copy of it.
    let with = |second: i64| {
        let mut f = File::new();
        f.block(0x1000, None, None).phi(RSP, 3, &[1, 2]);
        for (n, d) in [(1, 8), (2, second)] {
            let (s, d) = (f.value(RSP, 0), f.number(d));
            let e = f.bin("-", s, d);
            f.assign(0x1000, RSP, n, e);
        }
        let s = f.value(RSP, 3);
        let at = f.value(RAX, 1);
        let load = f.load(8, at);
        f.assign(0x1001, RAX, 1, s).give(0x1002, Some(load));
        f.line()
    };
    assert_eq!(with(8), "return var_8;");
    assert_eq!(with(16), "return *(uint64_t *)(rsp);");
}

/// D12: lines, merged tokens with empty ones, bytes.
#[test]
fn refusal_8() {
    let returns = |n: u64| {
        let mut f = File::new();
        f.block(0x1000, None, None);
        (0..n).for_each(|i| {
            f.give(i, None);
        });
        f.refusal()
    };
    assert_eq!((returns(768), returns(769)), (None, Some(8)));
    // A jump on a flag word has eight tokens, one after a comparison ten, a store of an opaque six.
    let tokens = |jumps: u64, stores: u64| {
        let mut f = File::new();
        f.block(0x1000, None, None);
        (0..jumps).for_each(|i| {
            f.branch(i, Some("o"), None);
        });
        let (a, b) = (f.number(1), f.number(2));
        f.block(0x2000, None, None).compare(0x2000, false, a, b).branch(0x2001, Some("e"), None);
        for _ in 0..stores {
            let (to, v) = (f.number(1), f.opaque(""));
            f.store(0x2002, 0, 4, to, v);
        }
        f
    };
    let most = tokens(766, 1);
    assert!(lowered_text(&oracle::list::lowered(&most.bytes()).unwrap()).starts_with("lowered lines 768 tokens 6144 "));
    assert_eq!(most.refusal(), None);
    assert_eq!(tokens(767, 0).refusal(), Some(8), "6,146 tokens in 768 lines");
    let bytes = |last: u32| {
        let mut f = File::new();
        f.block(0x1000, None, None).other(0x1000, &"x".repeat(16_375), &[], &[]);
        f.0.statements[0][5] = 16_374;
        f.statement(0x1001, 0, kind::OTHER, &[0, last]);
        f.refusal()
    };
    assert_eq!((bytes(16_374), bytes(16_375)), (None, Some(8)));
    // Labels that are dropped later count.
    let labelled = |n: u64| {
        let mut f = File::new();
        f.block(0x1000, None, None);
        f.statement(0, mark::DEAD, kind::BRANCH, &[0, 0, 0, 1, 0x1000, 0, 0]);
        (0..n).for_each(|i| {
            f.give(i, None);
        });
        f.refusal()
    };
    assert_eq!((labelled(767), labelled(768)), (None, Some(8)));
}

/// `n` conditional branches, the statement, then their label blocks innermost first.
fn nest(n: u64, inside: impl Fn(&mut File)) -> File {
    let label = |i: u64| 0x2000 + 0x10 * i;
    let mut f = File::new();
    f.block(0x1000, None, None);
    (0..n).for_each(|i| {
        f.branch(0x1000, Some("o"), Some(label(i)));
    });
    inside(&mut f);
    (0..n).rev().for_each(|i| {
        f.block(label(i), None, None);
    });
    f
}

#[test]
fn refusal_9() {
    let plain = |f: &mut File| {
        f.other(0x1001, "nop", &[], &[]);
    };
    let l = nest(254, plain).listing();
    assert_eq!((l.ifs, l.lines.len(), l.lines.iter().map(|l| l.indent).max()), (254, 509, Some(255)));
    assert_eq!(nest(255, plain).refusal(), Some(9));
    assert_eq!(answer(&nest(255, plain).bytes(), Mode::Listing), "refused 9\n");
    assert!(answer(&nest(255, plain).bytes(), Mode::Lowered).starts_with("lowered lines 511 "));
}

/// D13: labels count as standing inside, empty loops hold nothing.
#[test]
fn labels_and_loops_at_the_edge() {
    let label = |f: &mut File| {
        f.block(0x1800, None, None).statement(0x1800, mark::DEAD, kind::BRANCH, &[0, 0, 0, 1, 0x1800, 0, 0]);
    };
    assert_eq!(nest(254, label).listing().lines.len(), 508);
    assert_eq!(nest(255, label).refusal(), Some(9));
    let empty = |f: &mut File| {
        f.block(0x1800, None, None).branch(0x1800, Some("o"), Some(0x1800));
    };
    let l = nest(254, empty).listing();
    assert_eq!((l.ifs, l.loops), (254, 1));
    assert_eq!(nest(255, empty).refusal(), Some(9));
    let full = |f: &mut File| {
        f.block(0x1800, None, None).other(0x1800, "nop", &[], &[]).branch(0x1801, Some("o"), Some(0x1800));
    };
    let l = nest(253, full).listing();
    assert_eq!((l.loops, l.lines.iter().map(|l| l.indent).max()), (1, Some(255)));
    assert_eq!(nest(254, full).refusal(), Some(9));
}

// ---------------------------------------------------------------------------------------------------------
// Bounds: nothing panics, runs long or eats memory

#[test]
fn deep_expressions_are_rendered() {
    let f = returning(|f| {
        let x = f.value(RDI, 0);
        let [start, length] = f.text("-");
        (0..2_047).fold(x, |e, _| f.expression([tag::UN, start, length, e, 0]))
    });
    assert_eq!(f.line(), format!("return {}a1;", "-".repeat(2_047)));
    // Values in place, each inside the next.
    let mut f = File::new();
    f.block(0x1000, None, None);
    for n in 1..=1_000 {
        let e = f.value(RDI, n - 1);
        f.assign(0x1000, RDI, n, e);
    }
    let e = f.value(RDI, 1_000);
    f.give(0x1001, Some(e));
    assert_eq!(f.line(), "return a1;");
}

#[test]
fn large_renderings_stop_at_refusal_8() {
    // A dead comparison of 500 reads of one long opaque value, tested by many branches.
    let mut f = File::new();
    let long = f.opaque(&"x".repeat(15_000));
    f.block(0x1000, None, None).assign(0x1000, RAX, 1, long);
    let once = f.value(RAX, 1);
    f.other(0x1001, "", &[once], &[]);
    let [start, length] = f.text("+");
    let mut e = f.value(RAX, 1);
    for _ in 0..500 {
        let x = f.value(RAX, 1);
        e = f.expression([tag::BIN, start, length, e, x]);
    }
    let zero = f.number(0);
    f.statement(0x1002, FLAGS | mark::DEAD, kind::FLAGS, &[0, e, zero]);
    (0..500).for_each(|i| {
        f.branch(0x1003 + i, Some("e"), None);
    });
    assert_eq!(f.refusal(), Some(8));
    // As many pushed arguments.
    let mut f = File::new();
    f.0.bits = 32;
    f.block(0x1000, None, None);
    let [start, length] = f.text(&"x".repeat(16_000));
    for _ in 0..500 {
        let to = f.number(1);
        let v = f.expression([tag::OPAQUE, start, length, 0, 0]);
        f.store(0x1000, mark::PUSH, 4, to, v);
    }
    f.call(0x1001, 0, "g", &[], None);
    assert_eq!(f.refusal(), Some(8));
}

/// Words of sound files replaced by others: an answer each time, and the writer inverts the reader.
#[test]
fn no_file_panics() {
    let mut seed = 1u64;
    let mut random = |below: usize| {
        seed = seed.wrapping_mul(6_364_136_223_846_793_005).wrapping_add(1_442_695_040_888_963_407);
        ((seed >> 33) as usize) % below
    };
    let files = [example().bytes(), each_kind().bytes(), nest(3, |f| _ = f.give(0, None)).bytes()];
    for _ in 0..6_000 {
        let mut file = files[random(files.len())].clone();
        for _ in 0..=random(3) {
            let at = random(file.len() / 4) * 4;
            let word = [0, 1, 2, 3, 4, 5, 7, 0x1000, 0x1010, 255, 256, u32::MAX, 0x8000_0000][random(13)];
            file[at..at + 4].copy_from_slice(&u32::to_le_bytes(word));
        }
        file.truncate(if random(20) == 0 { random(file.len()) } else { file.len() });
        if let Ok(f) = read(&file) {
            assert_eq!(list(&write(&f).unwrap().bytes()), list(&file));
        }
    }
}

// ---------------------------------------------------------------------------------------------------------
// The writer's refusals

/// A function of one block.
fn function(phis: Vec<Phi>, kinds: Vec<Kind>) -> Function {
    let stmts = kinds.into_iter().map(|kind| Stmt { address: 0x1000, kind, dead: false, flags: false, push: false }).collect();
    let blocks = vec![Block { start: 0x1000, phis, stmts, ..Block::default() }];
    Function { ssa: SsaFunction { blocks, bits: 64 }, ..Function::default() }
}

#[test]
fn the_writer_says_what_it_cannot_write() {
    let says = |f: &Function, part: &str| {
        let message = write(f).unwrap_err();
        assert!(message.contains(part), "{message}");
    };
    let one = || Expr::Const(1);
    let returns = |e: Expr| function(vec![], vec![Kind::Return { val: Some(e) }]);
    let assign = |def: u8, ver: u32| Kind::Assign { def, ver, expr: one() };
    // D19.
    says(&function(vec![], vec![assign(0, 0)]), "rax_0 is defined");
    says(&function(vec![Phi { var: 3, ver: 0, args: vec![], dead: true }], vec![]), "rbx_0 is defined");
    says(&function(vec![], vec![assign(0, 1), assign(0, 1)]), "rax_1 is defined twice");
    says(&function(vec![], vec![assign(0, 1), Kind::Other { text: String::new(), uses: vec![], defs: vec![(0, 1)] }]), "rax_1 is defined twice");
    says(&function(vec![], vec![assign(16, 1)]), "register 16");
    says(&returns(Expr::Use(16, 1)), "register 16");
    says(&returns(Expr::Opaque("é".to_string())), "'é'");
    says(&returns(Expr::Opaque("a\nb".to_string())), "'\\n'");
    says(&returns(Expr::Un("", Box::new(one()))), "an operator without text");
    says(&returns(Expr::Opaque("x".repeat(16_385))), "16385 text, at most 16384");
    says(&returns((0..2_048).fold(one(), |e, _| Expr::Un("-", Box::new(e)))), "2049 expressions, at most 2048");
    says(&function(vec![], vec![Kind::Return { val: None }; 1_025]), "1025 statements, at most 1024");
    says(&function(vec![], vec![Kind::Call { target: "[x]".to_string(), args: vec![], ret: None, clobbers: vec![] }]), "no argument to call");
    says(&Function { args: vec![4], ..function(vec![], vec![]) }, "argument register rsp");
    says(&Function { args: vec![1, 1], ..function(vec![], vec![]) }, "argument register rcx");
    says(&Function { names: [(1, String::new())].into(), ..function(vec![], vec![]) }, "the name of 0x1 is empty");
    says(&Function::default(), "0 bits");
    let mut twice = function(vec![], vec![]);
    twice.ssa.blocks.push(twice.ssa.blocks[0].clone());
    says(&twice, "two blocks start at 0x1000");
    // Every limit kept but the file's.
    let mut long = function(vec![], vec![Kind::Other { text: "x".repeat(12_000), uses: vec![], defs: vec![] }; 1_024]);
    long.ssa.blocks[0].phis = (1..=512).map(|ver| Phi { var: 0, ver, args: vec![(0, 0); 4], dead: false }).collect();
    says(&long, "at most 65536");
}

/// Texts that overlap in the file stand in it as before where pooling them anew takes more room.
#[test]
fn overlapping_texts_are_written_back() {
    let mut f = File::new();
    f.block(0x1000, None, None);
    let text: String = (0..16_384).map(|i| char::from(b'a' + (i * i / 7 % 26) as u8)).collect();
    f.text(&text);
    for i in 0..100 {
        f.statement(i, 0, kind::OTHER, &[i as u32 * 100, 300]);
    }
    assert_eq!(f.lines().len(), 100);
}

// ---------------------------------------------------------------------------------------------------------
// The program

mod program {
    use std::io::Write;
    use std::process::{Command, Output, Stdio};

    /// With `closed`, nobody reads what the program prints.
    fn run(options: &[&str], input: &[u8], closed: bool) -> Output {
        let mut child = Command::new(env!("CARGO_BIN_EXE_oracle"))
            .args(options)
            .stdin(Stdio::piped())
            .stdout(Stdio::piped())
            .stderr(Stdio::piped())
            .spawn()
            .unwrap();
        if closed {
            drop(child.stdout.take());
        }
        // A program that stops reading early is no failure.
        let _ = child.stdin.take().unwrap().write_all(input);
        child.wait_with_output().unwrap()
    }

    #[test]
    fn it_answers_and_refuses_with_0() {
        let out = run(&[], &super::example().bytes(), false);
        assert_eq!((out.status.code(), out.stdout.starts_with(b"ifs 1 loops 0 lines 4 tests 1\n1004 1 if")), (Some(0), true));
        let out = run(&["--tokens"], b"", false);
        assert_eq!((out.status.code(), out.stdout.as_slice()), (Some(0), &b"refused 2\n"[..]));
        let mut long = super::File::new().bytes();
        long.resize(1_000_000, 0);
        let out = run(&[], &long, false);
        assert_eq!(out.stdout, b"refused 3\n");
        long[0] = 7;
        let out = run(&[], &long, false);
        assert_eq!(out.stdout, b"refused 2\n");
    }

    #[test]
    fn it_says_what_is_wrong_with_2() {
        for options in [&["--nothing"][..], &["--tokens", "--lowered"], &["file"]] {
            let out = run(options, b"", false);
            assert_eq!(out.status.code(), Some(2));
            assert!(out.stderr.starts_with(b"oracle: usage: "));
        }
    }

    #[test]
    fn a_closed_pipe_is_no_panic() {
        let out = run(&[], &super::example().bytes(), true);
        assert_eq!(out.status.code(), Some(2));
        assert!(out.stderr.starts_with(b"oracle: cannot write standard output"));
    }
}
