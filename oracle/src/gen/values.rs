//! Values for generated functions: every definition its own, as check 6 asks; anything may be read.

use super::builder::Value;
use super::rng::Rng;

/// The values handed out so far.
#[derive(Default)]
pub struct Values {
    given: [u32; 16],
    /// Versions count down from the top: a class's least value is then its last one.
    down: bool,
    defined: Vec<Value>,
    /// What calls and Others define: these may repeat one another.
    loose: Vec<Value>,
}

impl Values {
    pub fn new(down: bool) -> Values {
        Values { down, ..Values::default() }
    }

    /// A value of `register` that nothing else defines.
    pub fn fresh(&mut self, register: u32) -> Value {
        let count = &mut self.given[register as usize];
        *count += 1;
        let value = (register, if self.down { u32::MAX - *count } else { *count });
        self.defined.push(value);
        value
    }

    /// A value for a phi or an Assign.
    pub fn define(&mut self, rng: &mut Rng) -> Value {
        let register = rng.below(16) as u32;
        self.fresh(register)
    }

    /// A value for a ret, a clobber or an Other: new, one of theirs again, or one of version 0.
    pub fn loosely(&mut self, rng: &mut Rng) -> Value {
        match rng.below(8) {
            0 => (rng.below(16) as u32, 0),
            1 | 2 if !self.loose.is_empty() => rng.pick(&self.loose),
            _ => {
                let value = self.define(rng);
                self.loose.push(value);
                value
            }
        }
    }

    /// A value to read: one defined lately, any defined one, one on entry, or one that nothing defines.
    pub fn read(&mut self, rng: &mut Rng) -> Value {
        let count = self.defined.len();
        match rng.below(10) {
            0..=4 if count > 0 => self.defined[count - 1 - rng.below(count.min(3))],
            5 | 6 if count > 0 => rng.pick(&self.defined),
            9 => (rng.below(16) as u32, rng.pick(&[1, 2, 3, 77, u32::MAX])),
            _ => (rng.below(16) as u32, 0),
        }
    }
}
