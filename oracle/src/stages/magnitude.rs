//! gradient_magnitude beside the loop lifted from canny.rs, floats by bits: every pair of gradients within 1020, then random shapes.

use crate::lent::Lent;
use crate::numbers::{self, first_float};
use crate::ours;
use crate::pictures::{self, list};
use crate::random::Random;
use crate::runner::{Case, Stage};
use crate::vendor;

use super::{accepted, RANDOM};

pub struct Magnitude;

#[derive(Clone)]
pub struct Pairs {
    sides: (usize, usize),
    gx: Vec<i16>,
    gy: Vec<i16>,
    /// How many comparisons the case counts for: a row of all pairs counts each.
    units: u64,
}

/// Values of a component, and a shape with as many entries.
const VALUES: usize = 2041;
const ROW: (usize, usize) = (157, 13);

impl Stage for Magnitude {
    type Case = Pairs;

    fn name(&self) -> &'static str {
        "magnitude"
    }

    fn count(&self, factor: usize) -> usize {
        VALUES + RANDOM * factor
    }

    fn case(&self, index: usize, random: &mut Random) -> Pairs {
        if index < VALUES {
            let gx = vec![index as i16 - 1020; VALUES];
            return Pairs { sides: ROW, gx, gy: (-1020..=1020).collect(), units: VALUES as u64 };
        }
        let sides = pictures::shape(index - VALUES, random);
        let n = sides.0 * sides.1;
        // Any 16 bits are taken, although no picture gives more than 1020.
        if random.once_in(4) {
            let wide = |random: &mut Random| (0..n).map(|_| random.next() as i16).collect();
            return Pairs { sides, gx: wide(random), gy: wide(random), units: 1 };
        }
        Pairs { sides, gx: numbers::gradients(n, random), gy: numbers::gradients(n, random), units: 1 }
    }
}

impl Case for Pairs {
    fn compare(&self, random: &mut Random) -> Result<u64, String> {
        let n = self.sides.0 * self.sides.1;
        let gx = Lent::holding(&self.gx, random);
        let gy = Lent::holding(&self.gy, random);
        let mut out = Lent::<f32>::roomy(n, random);
        accepted(ours::gradient_magnitude(gx.lend(), gy.lend(), self.sides, out.lend_mut()))?;
        gx.unchanged("gx")?;
        gy.unchanged("gy")?;
        out.same_outside(n, "magnitude")?;
        let vendors = vendor::magnitude(&self.gx, &self.gy).0;
        match first_float(out.first(n), &vendors) {
            None => Ok(self.units),
            Some(i) => Err(format!("({}, {}): ours {:e} vendor {:e}", self.gx[i], self.gy[i], out.first(n)[i], vendors[i])),
        }
    }

    fn smaller(&self) -> Vec<Pairs> {
        let n = self.gx.len();
        let part = |from: usize, to: usize| Pairs {
            sides: (1, to - from),
            gx: self.gx[from..to].to_vec(),
            gy: self.gy[from..to].to_vec(),
            units: 1,
        };
        match n {
            0 | 1 => Vec::new(),
            2..=1280 => vec![part(0, n / 2), part(n / 2, n)],
            // A half would be longer than a side may be.
            _ => (0..n).map(|i| part(i, i + 1)).collect(),
        }
    }

    fn show(&self) -> String {
        format!("{} by {}, gx {}, gy {}", self.sides.0, self.sides.1, list(&self.gx), list(&self.gy))
    }
}
