//! apply_kernel: kernels of every pair of odd sides up to 15, with weights that are ordinary, tie, overflow to infinity and NaN or vanish.

use crate::lent::Lent;
use crate::numbers::{self, BORDERS};
use crate::ours;
use crate::pictures::{Picture, SINGLE};
use crate::random::Random;
use crate::runner::{Case, Stage};
use crate::vendor;

use super::{accepted, same_bytes, RANDOM};

pub struct Kernels;

#[derive(Clone)]
pub struct Convolved {
    picture: Picture,
    border: u8,
    sides: (usize, usize),
    weights: Vec<f32>,
}

/// Products of a big picture and its kernel, beyond which the kernel is made smaller; the very first random case is not held to it.
const MOST_PRODUCTS: usize = 12_000_000;

impl Stage for Kernels {
    type Case = Convolved;

    fn name(&self) -> &'static str {
        "apply_kernel"
    }

    fn count(&self, factor: usize) -> usize {
        3 * Picture::tiny_count() + RANDOM * factor
    }

    fn case(&self, index: usize, random: &mut Random) -> Convolved {
        let tiny = 3 * Picture::tiny_count();
        let border = BORDERS[index % 3];
        if index < 3 * SINGLE {
            let picture = Picture::tiny(index / 3);
            return Convolved { picture, border, sides: (1, 1), weights: vec![numbers::BELOW_HALF] };
        }
        let picture = if index < tiny { Picture::tiny(index / 3) } else { Picture::random(index - tiny, random) };
        let mut sides = (numbers::odd(15, random), numbers::odd(15, random));
        if index == tiny {
            sides = (15, 15);
        } else if sides.0 * sides.1 * picture.area() > MOST_PRODUCTS {
            sides = (numbers::odd(5, random), numbers::odd(5, random));
        }
        Convolved { picture, border, sides, weights: numbers::weights(sides.0 * sides.1, random) }
    }
}

impl Case for Convolved {
    fn compare(&self, random: &mut Random) -> Result<u64, String> {
        let n = self.picture.area();
        let pixels = Lent::holding(&self.picture.pixels, random);
        let weights = Lent::holding(&self.weights, random);
        let mut out = Lent::<u8>::roomy(n, random);
        let sides = self.picture.sides();
        accepted(ours::apply_kernel(pixels.lend(), sides, self.sides, weights.lend(), self.border, out.lend_mut()))?;
        pixels.unchanged("pixels")?;
        weights.unchanged("weights")?;
        out.same_outside(n, "out")?;
        same_bytes(out.first(n), vendor::apply_kernel(&self.picture, self.sides, &self.weights, self.border))?;
        Ok(1)
    }

    fn smaller(&self) -> Vec<Convolved> {
        let mut all: Vec<Convolved> =
            self.picture.smaller().into_iter().map(|picture| Convolved { picture, ..self.clone() }).collect();
        if self.sides != (1, 1) {
            all.push(self.middle());
        }
        for place in (0..self.weights.len()).filter(|&i| self.weights[i].to_bits() != 0) {
            let mut other = self.clone();
            other.weights[place] = 0.0;
            all.push(other);
        }
        all
    }

    fn show(&self) -> String {
        let weights: Vec<String> = self.weights.iter().map(|w| format!("{w:e}")).collect();
        format!(
            "{}, border {}, kernel {} by {} [{}]",
            self.picture.show(),
            self.border,
            self.sides.0,
            self.sides.1,
            weights.join(", ")
        )
    }
}

impl Convolved {
    /// The same with the outer rows and columns of the kernel left away.
    fn middle(&self) -> Convolved {
        let (w, h) = self.sides;
        let (dx, dy) = (usize::from(w > 1), usize::from(h > 1));
        let rows = (dy..h - dy).flat_map(|y| &self.weights[y * w + dx..(y + 1) * w - dx]);
        Convolved { weights: rows.copied().collect(), sides: (w - 2 * dx, h - 2 * dy), ..self.clone() }
    }
}
