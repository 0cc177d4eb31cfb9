//! The tables by themselves: filled for a file, and what they say of one of its values.

use oracle::list::Row;
use oracle::records::{kind, tag, Records};
use oracle::upstream::ssa::{Var, NAMES32, NAMES64};

use crate::tables::{Tables, PLACES};

with_tables!(declare {
    /// `tables::sorkhelaw_tables`.
    fn sorkhelaw_tables() -> u32
});

impl Tables {
    /// The first refusal of 1 to 7, or 0.
    pub fn fill(&mut self, file: &[u8]) -> u32 {
        // The contract asks nothing of the slices; all are Rust's own, and none overlaps another.
        unsafe { with_tables!(call { sorkhelaw_tables(file; self) }) }
    }

    /// What is wrong with the number of some place, if anything: it is the first place of its value, and 0 where the file names none.
    pub fn misnumbered(&self, values: &Values) -> Option<String> {
        let said = |p: usize| values.at[p].map_or(0, |v| values.number(v));
        let wrong = (0..PLACES).find(|p| self.numbers[*p] != if *p < values.at.len() { said(*p) } else { 0 });
        wrong.map(|p| format!("place {p} has the number {}", self.numbers[p]))
    }

    /// What the tables say of a value, in upstream's terms.
    pub fn row(&self, values: &Values, value: (Var, u32)) -> Row {
        let n = values.number(value) as usize;
        let offset = self.offs[n];
        let root = values.at.get(self.roots[n] as usize).copied().flatten();
        Row {
            value,
            offset: (offset != 0).then(|| offset.wrapping_sub(1 << 63) as i64),
            // No value of the file is this one.
            root: root.unwrap_or((Var::MAX, u32::MAX)),
            place: self.places[n] != 0,
            name: spelled(values.bits, value.0, self.names[n]),
        }
    }
}

/// The name that a code says.
fn spelled(bits: u32, v: Var, code: u32) -> Option<String> {
    match code {
        0 => None,
        1 if bits == 32 && v < 8 => Some(NAMES32[v as usize].into()),
        1 => Some(NAMES64[v as usize].into()),
        c if c % 2 == 0 => Some(format!("a{}", c / 2)),
        c => Some(format!("v{}", c / 2)),
    }
}

/// The values that a file names, by place.
pub struct Values {
    bits: u32,
    at: Vec<Option<(Var, u32)>>,
    first: std::collections::HashMap<(Var, u32), u32>,
}

impl Values {
    pub fn of(r: &Records) -> Values {
        let mut at: Vec<Option<(Var, u32)>> = Vec::with_capacity(PLACES);
        let value = |v: u32, n: u32| Some((v as Var, n));
        at.extend(r.args.iter().map(|v| value(*v, 0)));
        at.extend(r.phis.iter().map(|p| value(p[0], p[1])));
        let mut inputs = r.inputs.iter();
        for p in &r.phis {
            at.extend(inputs.by_ref().take(p[3] as usize).map(|n| value(p[0], *n)));
        }
        at.extend(r.statements.iter().map(|s| match s[3] {
            kind::ASSIGN => value(s[4], s[5]),
            kind::CALL if s[7] == 1 => value(s[8], s[9]),
            _ => None,
        }));
        let mut items = r.lists.iter();
        for s in &r.statements {
            let (exprs, values) = match s[3] {
                kind::CALL => (s[6], s[10]),
                kind::BRANCH => (s[10], 0),
                kind::OTHER => (s[6], s[7]),
                _ => (0, 0),
            };
            at.extend(items.by_ref().take(exprs as usize).map(|_| None));
            at.extend(items.by_ref().take(values as usize).map(|i| value(i[0], i[1])));
        }
        at.extend(r.expressions.iter().map(|e| if e[0] == tag::USE { value(e[1], e[2]) } else { None }));
        let mut first = std::collections::HashMap::new();
        for (p, v) in at.iter().enumerate() {
            if let Some(v) = v {
                first.entry(*v).or_insert(p as u32);
            }
        }
        Values { bits: r.bits, at, first }
    }

    /// The number of a value: the first place that names it.
    fn number(&self, v: (Var, u32)) -> u32 {
        self.first.get(&v).copied().unwrap_or(0)
    }
}
