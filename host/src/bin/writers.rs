//! `writers SEED COUNT`: the proved writers against upstream's on random numbers, slots, registers and names, each with room for its text,
//! with one byte less, and with more. Prints the first difference and exits 1; else one line.

use std::process::ExitCode;

use host::pieces::Writer;
use oracle::gen::rng::Rng;
use oracle::gen::{file, Profile};
use oracle::read::{read, Function};
use oracle::upstream::ssa::c::writers;
use oracle::upstream::ssa::{COptions, NAMES32, NAMES64};

fn main() -> ExitCode {
    let args: Vec<u64> = std::env::args().skip(1).filter_map(|s| s.parse().ok()).collect();
    let [seed, count] = args.as_slice() else {
        eprintln!("usage: writers SEED COUNT");
        return ExitCode::from(2);
    };
    let mut rng = Rng::new(*seed);
    let mut source = supply(&mut rng);
    for turn in 0..*count {
        if turn % 256 == 255 {
            source = supply(&mut rng);
        }
        let (writer, text) = one(&mut rng, &source.0, &source.1);
        if let Err(m) = check(&mut rng, writer, text.as_bytes()) {
            eprintln!("writers: {writer:?}, turn {turn}: {m}; upstream {text:?}");
            return ExitCode::from(1);
        }
    }
    println!("{count} texts equal");
    ExitCode::SUCCESS
}

/// A file that is accepted, and its function.
fn supply(rng: &mut Rng) -> (Vec<u8>, Function) {
    loop {
        let bytes = file(rng.pick(&[Profile::Lifter32, Profile::Lifter64, Profile::Random]), rng.word());
        if let Ok(f) = read(&bytes) {
            return (bytes, f);
        }
    }
}

/// Numbers of every size, and those beside the places where a text changes.
fn number(rng: &mut Rng) -> u64 {
    let near = |rng: &mut Rng, n: u64| n.wrapping_add(rng.below(5) as u64).wrapping_sub(2);
    match rng.below(4) {
        0 => rng.word() >> rng.below(64),
        1 => (rng.word() >> rng.below(64)).wrapping_neg(),
        2 => {
            let n = rng.pick(&[0, 10, 16, 0x1000, 1 << 63, u64::MAX - 8]);
            near(rng, n)
        }
        _ => {
            let n = 1u64 << rng.below(64);
            near(rng, n)
        }
    }
}

/// A writer and what upstream writes.
fn one<'a>(rng: &mut Rng, file: &'a [u8], f: &Function) -> (Writer<'a>, String) {
    let n = number(rng);
    match rng.below(7) {
        0 => (Writer::Num(n as i64), writers::num(n as i64)),
        1 => {
            // -2^63 is no offset: refusal 7
            let off = (n as i64).max(-i64::MAX);
            (Writer::Slot(off), writers::slot(off))
        }
        2 => (Writer::Label(n), format!("loc_{n:X}")),
        3 => (Writer::Outward(n), format!("*{n:#x}")),
        4 => (Writer::Pointer(n as u8), format!("*(uint{}_t *)", u32::from(n as u8) * 8)),
        5 => {
            let (bits, number) = (rng.pick(&[32, 64]), rng.below(16));
            let name = if bits == 32 && number < 8 { NAMES32[number] } else { NAMES64[number] };
            (Writer::Register { bits, number: number as u32 }, name.into())
        }
        _ => global(rng, n, file, f),
    }
}

/// A global at a supplied address or at any other.
fn global<'a>(rng: &mut Rng, n: u64, file: &'a [u8], f: &Function) -> (Writer<'a>, String) {
    let supplied: Vec<u64> = f.names.keys().copied().collect();
    let address = if supplied.is_empty() || rng.coin() { n } else { rng.pick(&supplied) };
    // Only addresses from 0x1000 on that are not negative name a global.
    let address = (address & (u64::MAX >> 1)).max(0x1000);
    let size = rng.pick(&[0, 1, 2, 3, 4, 8, 16, 255]);
    let o = COptions { returns: f.returns, args: f.args.clone(), names: &|a| f.names.get(&a).cloned() };
    let text = writers::global_name(&o, address as i64, size).unwrap_or_default();
    (Writer::Global { file, address, size }, text)
}

/// The writer with just enough room, with more, and with a byte too little, which leaves all as it was.
fn check(rng: &mut Rng, writer: Writer, text: &[u8]) -> Result<(), String> {
    let fill = rng.word() as u8;
    for more in [0, 1, rng.below(40)] {
        let mut dst = vec![fill; text.len() + more];
        if writer.write(&mut dst) != Some(text.len()) || &dst[..text.len()] != text {
            return Err(format!("ours {:?}", String::from_utf8_lossy(&dst)));
        }
        if dst[text.len()..].iter().any(|b| *b != fill) {
            return Err("a byte behind the text was changed".into());
        }
    }
    let mut dst = vec![fill; text.len().saturating_sub(1)];
    if !text.is_empty() && (writer.write(&mut dst).is_some() || dst.iter().any(|b| *b != fill)) {
        return Err("written where there is no room".into());
    }
    Ok(())
}
