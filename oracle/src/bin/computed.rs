//! `computed CRATE SPECS BATCH NUMBER.. > Computed.antt`: the files with these numbers out of a batch and the oracle's answers to them,
//! as one statement of a crate that the checker computes with every definition of SPECS open.

use std::fmt::Write as _;
use std::io::Write;
use std::path::Path;
use std::process::ExitCode;

use oracle::list::{list, Listing};
use oracle::refusal::Refusal;

const USAGE: &str = "usage: computed CRATE SPECS BATCH NUMBER.. > Computed.antt";
/// The crate that has SPECS; another one names it from outside, and takes from it what an answer is compared by.
const HOME: &str = "definition";
/// Zeros that the statement asks for behind each buffer.
const BEHIND: usize = 2;

fn main() -> ExitCode {
    let args: Vec<String> = std::env::args().skip(1).collect();
    match run(&args) {
        Ok(text) => match std::io::stdout().write_all(text.as_bytes()) {
            Ok(()) => ExitCode::SUCCESS,
            Err(_) => ExitCode::from(2),
        },
        Err(message) => {
            let _ = writeln!(std::io::stderr(), "computed: {message}");
            ExitCode::from(2)
        }
    }
}

fn run(args: &[String]) -> Result<String, String> {
    let [crate_name, specs, batch, numbers @ ..] = args else { return Err(USAGE.into()) };
    let bytes = std::fs::read(batch).map_err(|e| format!("{batch}: {e}"))?;
    let files = files_of(&bytes).ok_or(format!("{batch}: not a batch of function files"))?;
    let mut cases = String::new();
    for n in numbers {
        let file = n.parse::<usize>().ok().and_then(|n| files.get(n)).ok_or(format!("no file {n} in {batch}"))?;
        let _ = write!(cases, "-- file {n}\n{}", case(n, file));
    }
    let list: Vec<String> = numbers.iter().map(|n| format!("pair{n} ∷ ")).collect();
    let home = crate_name == HOME;
    let (pair, agrees) = if home { (PAIR, AGREES) } else { ("", "") };
    let head = if home { HEAD_HOME } else { HEAD_ABOVE };
    let (uses, names) = definitions(Path::new(specs))?;
    Ok(format!(
        "{HEAD}{head}{uses}\n{pair}{cases}{agrees}{CASES}{}[]\n\n{STATEMENT}unfolding agrees cases {names}\ncomputed = refl\n",
        list.concat()
    ))
}

/// A batch: the number of files and their lengths, a word each, then the files.
fn files_of(bytes: &[u8]) -> Option<Vec<&[u8]>> {
    let word = |i: usize| Some(u32::from_le_bytes(bytes.get(4 * i..4 * i + 4)?.try_into().ok()?) as usize);
    let n = word(0)?;
    let mut at = 4 + 4 * n;
    let mut files = Vec::new();
    for i in 0..n {
        let end = at.checked_add(word(i + 1)?)?;
        files.push(bytes.get(at..end)?);
        at = end;
    }
    (at == bytes.len()).then_some(files)
}

/// Every `unfoldable` definition of the modules that SPECS/Lib.antt lists, in their order: the `use` lines, and all names.
fn definitions(specs: &Path) -> Result<(String, String), String> {
    let text = |name: &str| {
        let path = specs.join(format!("{name}.antt"));
        std::fs::read_to_string(&path).map_err(|e| format!("{}: {e}", path.display()))
    };
    let (mut uses, mut all) = (String::new(), Vec::new());
    for module in text("Lib")?.lines().filter_map(|l| l.strip_prefix("pub mod ")) {
        let body = text(module)?;
        // a name that an earlier module has stays that module's: nothing that prints needs the other
        let declared = body.lines().filter_map(|l| l.strip_prefix("unfoldable pub ")).filter_map(|l| l.split(' ').next());
        let names: Vec<&str> = declared.filter(|n| !all.iter().any(|a| a == n)).collect();
        if !names.is_empty() {
            let _ = writeln!(uses, "use Rattle.{HOME}.specs.{module}.{{{}}}", names.join(", "));
        }
        all.extend(names.iter().map(|n| n.to_string()));
    }
    Ok((uses, all.join(" ")))
}

fn case(n: &str, file: &[u8]) -> String {
    let mut lines: Vec<u64> = Vec::new();
    let mut tokens: Vec<u64> = Vec::new();
    let mut text = String::new();
    let (number, ifs, loops, tests, count) = match list(file) {
        Err(Refusal(r)) => (u64::from(r), 0, 0, 0, 0),
        Ok(l) => {
            buffers(&l, &mut lines, &mut tokens, &mut text);
            (0, l.ifs, l.loops, l.tests(), l.lines.len())
        }
    };
    let behind = vec![0u64; BEHIND];
    let file: Vec<u64> = file.iter().map(|b| u64::from(*b)).collect();
    format!(
        "abbrev pair{n} : Pair\npair{n} = record {{\n  file = {};\n  answer = record {{\n    number = {number};\n    lines = {count};\n    tokens = {};\n    bytes = {};\n    ifs = {ifs};\n    loops = {loops};\n    tests = {tests};\n    line_buffer = {};\n    token_buffer = {};\n    text_buffer = txt \"{}\" ++ ({});\n  }};\n}}\n\n",
        numbers(&file),
        tokens.len(),
        text.len(),
        numbers(&[lines, behind.clone()].concat()),
        numbers(&[tokens.clone(), behind.clone()].concat()),
        text.replace('\\', "\\\\").replace('"', "\\\""),
        numbers(&behind),
    )
}

/// The buffers as docs/INTERFACE.md lays them out: five numbers a line, one a token, the text.
fn buffers(l: &Listing, lines: &mut Vec<u64>, tokens: &mut Vec<u64>, text: &mut String) {
    for x in &l.lines {
        for t in &x.tokens {
            text.push_str(&t.t);
            tokens.push(8 * text.len() as u64 + t.k as u64);
        }
        lines.extend([u64::from(x.address.is_some()), x.address.unwrap_or(0), u64::from(x.indent), tokens.len() as u64, 0]);
    }
}

fn numbers(l: &[u64]) -> String {
    let mut s = String::new();
    for n in l {
        let _ = write!(s, "{n} ∷ ");
    }
    s + "[]"
}

const HEAD: &str = "-- Small files and the oracle's answers to them: the definition computes each answer, refusals and buffers too.
-- Written by oracle/src/bin/computed.rs (vectors/README.md says how), not by hand.
use mathlib.Core.Path.{◌≡◌, refl}
use mathlib.Core.List.{List, [], ◌∷◌, ◌++◌}
";

const HEAD_HOME: &str = "use mathlib.Core.Bool.{Bool, true, ◌&&◌}
use Prim.Native.Nat.{ℕ}
use lib.Dec.{eqb}
use lib.ListN.{length}
use Rattle.definition.specs.Texts.{txt}
use Rattle.definition.specs.Listing.{Result}
";

const HEAD_ABOVE: &str = "use mathlib.Core.Bool.{true}
use Rattle.definition.specs.Texts.{txt}
use Rattle.definition.proofs.Computed.{Pair, agrees}
";

const PAIR: &str = "pub record Pair : Type 0 where
  pub file : List ℕ
  pub answer : Result

";

const AGREES: &str = "-- the answer of the definition, with buffers as long as those expected
unfoldable pub agrees : Pair → Bool
agrees p =
    let w = p.answer in
    let r = result_of (record { lines = length w.line_buffer; tokens = length w.token_buffer; text = length w.text_buffer }) (list edition1 p.file) in
    eqb r.number w.number && eqb r.lines w.lines && eqb r.tokens w.tokens && eqb r.bytes w.bytes
    && eqb r.ifs w.ifs && eqb r.loops w.loops && eqb r.tests w.tests
    && same r.line_buffer w.line_buffer && same r.token_buffer w.token_buffer && same r.text_buffer w.text_buffer

";

const CASES: &str = "pub cases : List Pair
cases = ";

const STATEMENT: &str = "pub computed : all agrees cases ≡ true
";
