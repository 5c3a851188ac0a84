//! The seven scratch buffers of a whole run, each between guards.

use crate::lent::Lent;
use crate::ours::Scratch;
use crate::random::Random;

pub struct Room {
    pub work: Lent<f32>,
    pub magnitude: Lent<f32>,
    pub gx: Lent<i16>,
    pub gy: Lent<i16>,
    pub blurred: Lent<u8>,
    pub marks: Lent<u8>,
    pub stack: Lent<u32>,
}

impl Room {
    /// All poisoned, and each with a few entries more than n.
    pub fn poisoned(n: usize, random: &mut Random) -> Room {
        Room {
            work: Lent::roomy(n, random),
            magnitude: Lent::roomy(n, random),
            gx: Lent::roomy(n, random),
            gy: Lent::roomy(n, random),
            blurred: Lent::roomy(n, random),
            marks: Lent::roomy(n, random),
            stack: Lent::roomy(n, random),
        }
    }

    pub fn lend(&mut self) -> Scratch<'_> {
        Scratch {
            work: self.work.lend_mut(),
            magnitude: self.magnitude.lend_mut(),
            gx: self.gx.lend_mut(),
            gy: self.gy.lend_mut(),
            blurred: self.blurred.lend_mut(),
            marks: self.marks.lend_mut(),
            stack: self.stack.lend_mut(),
        }
    }

    pub fn zeroed(&self, n: usize) -> Result<(), String> {
        self.work.zeroed(n, "work")?;
        self.magnitude.zeroed(n, "magnitude")?;
        self.gx.zeroed(n, "gx")?;
        self.gy.zeroed(n, "gy")?;
        self.blurred.zeroed(n, "blurred")?;
        self.marks.zeroed(n, "marks")?;
        self.stack.zeroed(n, "stack")
    }

    /// Unchanged but for the first n entries.
    pub fn same_outside(&self, n: usize) -> Result<(), String> {
        self.work.same_outside(n, "work")?;
        self.magnitude.same_outside(n, "magnitude")?;
        self.gx.same_outside(n, "gx")?;
        self.gy.same_outside(n, "gy")?;
        self.blurred.same_outside(n, "blurred")?;
        self.marks.same_outside(n, "marks")?;
        self.stack.same_outside(n, "stack")
    }
}
