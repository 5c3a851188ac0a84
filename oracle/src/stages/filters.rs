//! The filters from a byte picture to a byte picture without weights: box, sharpen, Sobel's bytes and median.

use crate::lent::Lent;
use crate::numbers::{self, BORDERS};
use crate::ours;
use crate::pictures::Picture;
use crate::random::Random;
use crate::runner::{Case, Stage};
use crate::vendor;

use super::{accepted, same_bytes, RANDOM};

#[derive(Clone, Copy, PartialEq)]
pub enum Filter {
    Box,
    Sharpen,
    Sobel,
    Median,
}

pub const BOX: Filter = Filter::Box;
pub const SHARPEN: Filter = Filter::Sharpen;
pub const SOBEL: Filter = Filter::Sobel;
pub const MEDIAN: Filter = Filter::Median;

#[derive(Clone)]
pub struct Filtered {
    filter: Filter,
    picture: Picture,
    border: u8,
    window: usize,
}

/// Samples that a median of a big picture sorts, beyond which its window is made smaller.
const MOST_SAMPLES: usize = 3_000_000;

impl Stage for Filter {
    type Case = Filtered;

    fn name(&self) -> &'static str {
        match self {
            Filter::Box => "box",
            Filter::Sharpen => "sharpen",
            Filter::Sobel => "sobel",
            Filter::Median => "median",
        }
    }

    fn count(&self, factor: usize) -> usize {
        3 * Picture::tiny_count() + RANDOM * factor
    }

    fn case(&self, index: usize, random: &mut Random) -> Filtered {
        let tiny = 3 * Picture::tiny_count();
        let picture = if index < tiny { Picture::tiny(index / 3) } else { Picture::random(index - tiny, random) };
        let mut window = numbers::odd(15, random);
        if index == tiny {
            window = 15;
        } else if window * window * picture.area() > MOST_SAMPLES {
            window = numbers::odd(5, random);
        }
        Filtered { filter: *self, picture, border: BORDERS[index % 3], window }
    }
}

impl Case for Filtered {
    fn compare(&self, random: &mut Random) -> Result<u64, String> {
        let n = self.picture.area();
        let pixels = Lent::holding(&self.picture.pixels, random);
        let mut work = Lent::<f32>::roomy(n, random);
        let mut out = Lent::<u8>::roomy(n, random);
        let (sides, border) = (self.picture.sides(), self.border);
        accepted(match self.filter {
            Filter::Box => ours::box_blur(pixels.lend(), sides, border, work.lend_mut(), out.lend_mut()),
            Filter::Sharpen => ours::sharpen(pixels.lend(), sides, border, out.lend_mut()),
            Filter::Sobel => ours::sobel(pixels.lend(), sides, border, out.lend_mut()),
            Filter::Median => ours::median(pixels.lend(), sides, self.window, border, out.lend_mut()),
        })?;
        pixels.unchanged("pixels")?;
        if self.filter == Filter::Box {
            work.zeroed(n, "work")?;
        }
        out.same_outside(n, "out")?;
        same_bytes(out.first(n), self.vendors())?;
        Ok(1)
    }

    fn smaller(&self) -> Vec<Filtered> {
        let mut all: Vec<Filtered> =
            self.picture.smaller().into_iter().map(|picture| Filtered { picture, ..self.clone() }).collect();
        if self.filter == Filter::Median && self.window > 1 {
            all.push(Filtered { window: self.window - 2, ..self.clone() });
        }
        all
    }

    fn show(&self) -> String {
        let window = if self.filter == Filter::Median { format!(", window {}", self.window) } else { String::new() };
        format!("{}, border {}{window}", self.picture.show(), self.border)
    }
}

impl Filtered {
    fn vendors(&self) -> Option<Vec<u8>> {
        match self.filter {
            Filter::Box => vendor::box_blur(&self.picture, self.border),
            Filter::Sharpen => vendor::sharpen(&self.picture, self.border),
            Filter::Sobel => vendor::sobel(&self.picture, self.border),
            Filter::Median => vendor::median(&self.picture, self.window, self.border),
        }
    }
}
