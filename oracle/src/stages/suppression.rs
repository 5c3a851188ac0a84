//! non_maximum_suppression: every 3 by 3 of three magnitudes, magnitudes of real pictures, and lent floats of any bits; beside the
//! vendor with the diagonal arms exchanged on gradients that a picture can have, and beside the table of document 02, item 2 on gradients
//! of any 16 bits.

use crate::lent::Lent;
use crate::model;
use crate::numbers::{self, first_float};
use crate::ours;
use crate::pictures::{self, cuts, digits, list, Cut, Picture};
use crate::random::Random;
use crate::runner::{Case, Stage};
use crate::vendor::{self, Text};

use super::untouched::Untouched;
use super::{accepted, RANDOM};

pub struct Suppression;

static UNTOUCHED: Untouched = Untouched::new();

#[derive(Clone)]
pub struct Ridges {
    sides: (usize, usize),
    magnitude: Vec<f32>,
    gx: Vec<i16>,
    gy: Vec<i16>,
    /// Whether the gradients are beyond what the vendor's own can be.
    wide: bool,
}

/// All 3 by 3 of three values.
const TINY: usize = 19_683;

impl Stage for Suppression {
    type Case = Ridges;

    fn name(&self) -> &'static str {
        "suppression"
    }

    fn count(&self, factor: usize) -> usize {
        TINY + RANDOM * factor
    }

    fn case(&self, index: usize, random: &mut Random) -> Ridges {
        if index < TINY {
            let magnitude = digits(index, 3, 9).iter().map(|&d| [0.0, 7.5, 255.0][d]).collect();
            let (gx, gy) = numbers::gradient_pairs(9, random);
            return Ridges { sides: (3, 3), magnitude, gx, gy, wide: false };
        }
        let index = index - TINY;
        if random.once_in(3) {
            return from_picture(&Picture::random(index, random), random);
        }
        let sides = pictures::shape(index, random);
        let n = sides.0 * sides.1;
        let wide = random.once_in(5);
        let (gx, gy) = if wide {
            ((0..n).map(|_| random.next() as i16).collect(), (0..n).map(|_| random.next() as i16).collect())
        } else {
            numbers::gradient_pairs(n, random)
        };
        Ridges { sides, magnitude: numbers::magnitudes(n, random), gx, gy, wide }
    }

    fn told(&self) -> Option<String> {
        Some(UNTOUCHED.told("answer"))
    }
}

/// The vendor's own gradients and magnitudes of a picture.
fn from_picture(picture: &Picture, random: &mut Random) -> Ridges {
    let (gx, gy) = vendor::sobel_gradients(picture, numbers::BORDERS[random.below(3)]);
    let (gx, gy) = (numbers::whole(&gx), numbers::whole(&gy));
    Ridges { sides: picture.sides(), magnitude: vendor::magnitude(&gx, &gy).0, gx, gy, wide: false }
}

impl Case for Ridges {
    fn compare(&self, random: &mut Random) -> Result<u64, String> {
        let (width, height) = self.sides;
        let n = width * height;
        let magnitude = Lent::holding(&self.magnitude, random);
        let gx = Lent::holding(&self.gx, random);
        let gy = Lent::holding(&self.gy, random);
        let mut out = Lent::<f32>::roomy(n, random);
        accepted(ours::non_maximum_suppression(magnitude.lend(), gx.lend(), gy.lend(), self.sides, out.lend_mut()))?;
        magnitude.unchanged("magnitude")?;
        gx.unchanged("gx")?;
        gy.unchanged("gy")?;
        out.same_outside(n, "out")?;
        let by_rule = model::suppression(&self.magnitude, &self.gx, &self.gy, width, height);
        same("02.2", out.first(n), &by_rule)?;
        if self.wide {
            return Ok(1);
        }
        same("vendor, exchanged,", out.first(n), &self.vendors(Text::Exchanged))?;
        let untouched = first_float(out.first(n), &self.vendors(Text::Untouched));
        let diagonal = model::has_diagonal(&self.gx, &self.gy, width, height);
        Ok(1 + UNTOUCHED.beside(untouched.is_none(), diagonal)?)
    }

    fn smaller(&self) -> Vec<Ridges> {
        let part = |cut: &Cut| Ridges {
            sides: cut.sides,
            magnitude: cut.of(&self.magnitude),
            gx: cut.of(&self.gx),
            gy: cut.of(&self.gy),
            wide: self.wide,
        };
        cuts(self.sides).iter().map(part).collect()
    }

    fn show(&self) -> String {
        format!(
            "{} by {}, magnitude {}, gx {}, gy {}",
            self.sides.0,
            self.sides.1,
            list(&self.magnitude),
            list(&self.gx),
            list(&self.gy)
        )
    }
}

impl Ridges {
    fn vendors(&self, text: Text) -> Vec<f32> {
        vendor::suppression(text, &self.magnitude, &self.gx, &self.gy, self.sides.0, self.sides.1)
    }
}

fn same(whose: &str, ours: &[f32], theirs: &[f32]) -> Result<(), String> {
    match first_float(ours, theirs) {
        None => Ok(()),
        Some(i) => Err(format!("at {i}: ours {:e} {whose} {:e}", ours[i], theirs[i])),
    }
}
