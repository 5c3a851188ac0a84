//! Hysteresis: a start, slices of random budgets and the map, beside the vendor's map; marks, stack and pending count after every call
//! beside document 01's walk.

use crate::lent::Lent;
use crate::model;
use crate::numbers;
use crate::ours::{self, Walk};
use crate::pictures::{self, cuts, digits, list, Cut};
use crate::random::Random;
use crate::runner::{Case, Stage};
use crate::vendor;

use super::{accepted, same_bytes, RANDOM};

pub struct Hysteresis;

#[derive(Clone)]
pub struct Walked {
    sides: (usize, usize),
    magnitudes: Vec<f32>,
    low: f32,
    high: f32,
}

/// All 3 by 3 of none, weak and strong.
const TINY: usize = 19_683;

impl Stage for Hysteresis {
    type Case = Walked;

    fn name(&self) -> &'static str {
        "hysteresis"
    }

    fn count(&self, factor: usize) -> usize {
        TINY + RANDOM * factor
    }

    fn case(&self, index: usize, random: &mut Random) -> Walked {
        if index < TINY {
            let magnitudes = digits(index, 3, 9).iter().map(|&d| [49.0, 50.0, 100.0][d]).collect();
            return Walked { sides: (3, 3), magnitudes, low: 50.0, high: 100.0 };
        }
        let sides = pictures::shape(index - TINY, random);
        let (low, high) = numbers::thresholds(random);
        let n = sides.0 * sides.1;
        // Half of them hold only values around the thresholds, so that long paths come up.
        let magnitudes = if random.once_in(2) { around(n, low, high, random) } else { numbers::magnitudes(n, random) };
        Walked { sides, magnitudes, low, high }
    }
}

fn around(count: usize, low: f32, high: f32, random: &mut Random) -> Vec<f32> {
    let strong = 2 + random.below(60);
    let none = 2 + random.below(6);
    (0..count)
        .map(|_| {
            if random.once_in(strong) {
                high
            } else if random.once_in(none) {
                low - 1.0
            } else {
                low
            }
        })
        .collect()
}

/// What a walk of ours is kept in.
struct Kept {
    walk: Walk,
    marks: Lent<u8>,
    stack: Lent<u32>,
}

impl Kept {
    /// Everything as document 01's walk has it, and nothing else changed.
    fn same(&self, when: &str, rule: &model::Walk) -> Result<(), String> {
        let n = rule.marks.len();
        let walk = Walk { width: rule.width, height: rule.height, pending: rule.pending };
        if self.walk != walk {
            return Err(format!("{when}: ours {:?} 01 {walk:?}", self.walk));
        }
        self.marks.same_outside(n, "marks")?;
        self.stack.same_outside(n, "stack")?;
        if self.marks.first(n) != rule.marks {
            return Err(format!("{when}: marks ours {} 01 {}", list(self.marks.first(n)), list(&rule.marks)));
        }
        if self.stack.first(n) != rule.stack {
            return Err(format!("{when}: stack ours {} 01 {}", list(self.stack.first(n)), list(&rule.stack)));
        }
        Ok(())
    }
}

impl Case for Walked {
    fn compare(&self, random: &mut Random) -> Result<u64, String> {
        let n = self.magnitudes.len();
        let magnitudes = Lent::holding(&self.magnitudes, random);
        let poison = Walk { width: random.next() as usize, height: random.next() as usize, pending: random.next() as usize };
        let mut kept = Kept { walk: poison, marks: Lent::roomy(n, random), stack: Lent::roomy(n, random) };
        let Kept { walk, marks, stack } = &mut kept;
        let thresholds = (self.low, self.high);
        accepted(ours::start(magnitudes.lend(), self.sides, thresholds, marks.lend_mut(), stack.lend_mut(), walk))?;
        magnitudes.unchanged("magnitudes")?;
        let mut rule = model::Walk::start(&self.magnitudes, self.sides.0, self.sides.1, self.low, self.high);
        kept.same("start", &rule)?;
        self.slices(&mut kept, &mut rule, random)?;
        let mut out = Lent::<u8>::roomy(n, random);
        accepted(ours::map(&kept.walk, kept.marks.lend(), kept.stack.lend(), out.lend_mut()))?;
        kept.same("map", &rule)?;
        out.same_outside(n, "map")?;
        same_bytes(out.first(n), Some(vendor::hysteresis(&self.magnitudes, self.sides.0, self.sides.1, self.low, self.high)))?;
        Ok(1)
    }

    fn smaller(&self) -> Vec<Walked> {
        let part = |cut: &Cut| Walked { sides: cut.sides, magnitudes: cut.of(&self.magnitudes), ..self.clone() };
        cuts(self.sides).iter().map(part).collect()
    }

    fn show(&self) -> String {
        format!("{} by {}, low {:e}, high {:e}, {}", self.sides.0, self.sides.1, self.low, self.high, list(&self.magnitudes))
    }
}

impl Walked {
    /// Slices until nothing is pending, and one more, which takes nothing.
    fn slices(&self, kept: &mut Kept, rule: &mut model::Walk, random: &mut Random) -> Result<(), String> {
        let n = self.magnitudes.len();
        let most = if random.once_in(3) { 2 * n + 2 } else { n / 6 + 3 };
        loop {
            let last = rule.pending == 0;
            let budget = if random.once_in(20) { usize::MAX } else { 1 + random.below(most) };
            let mut takes = random.next() as usize;
            let Kept { walk, marks, stack } = &mut *kept;
            accepted(ours::slice(walk, budget, marks.lend_mut(), stack.lend_mut(), &mut takes))?;
            let expected = rule.slice(budget);
            if takes != expected {
                return Err(format!("budget {budget}: ours takes {takes}, 01 {expected}"));
            }
            kept.same("slice", rule)?;
            if last {
                return Ok(());
            }
        }
    }
}
