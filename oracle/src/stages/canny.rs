//! The whole run: the vendor's taps of a sigma beside its whole run, and taps of any kind beside its stages one after another, both with
//! the diagonal arms exchanged.

use crate::lent::Lent;
use crate::model;
use crate::numbers;
use crate::ours::{self, Frame};
use crate::pictures::{digits, list, Picture};
use crate::random::Random;
use crate::room::Room;
use crate::runner::{Case, Stage};
use crate::vendor::{self, Text};

use super::untouched::Untouched;
use super::{accepted, same_bytes, RANDOM};

pub struct Canny;

static UNTOUCHED: Untouched = Untouched::new();

#[derive(Clone)]
pub struct Run {
    picture: Picture,
    taps: Vec<f32>,
    /// The sigma whose taps these are, if any.
    sigma: Option<f32>,
    low: f32,
    high: f32,
}

/// All 4 by 3 of black and white.
const BLACK_AND_WHITE: usize = 4096;

/// A sigma of 63 taps.
const WIDEST: f32 = 10.333_333;

impl Stage for Canny {
    type Case = Run;

    fn name(&self) -> &'static str {
        "canny"
    }

    fn count(&self, factor: usize) -> usize {
        BLACK_AND_WHITE + Picture::tiny_count() + RANDOM * factor
    }

    fn case(&self, index: usize, random: &mut Random) -> Run {
        let tiny = BLACK_AND_WHITE + Picture::tiny_count();
        let picture = if index < BLACK_AND_WHITE {
            let pixels = digits(index, 2, 12).iter().map(|&d| [0, 255][d]).collect();
            Picture { width: 4, height: 3, pixels }
        } else if index < tiny {
            Picture::tiny(index - BLACK_AND_WHITE)
        } else {
            Picture::random(index - tiny, random)
        };
        let (low, high) = numbers::thresholds(random);
        // The first random picture, of the greatest sides, is blurred with the most taps.
        if index != tiny && random.once_in(3) {
            return Run { picture, taps: any_taps(random), sigma: None, low, high };
        }
        let sigma = if index == tiny { WIDEST } else { numbers::sigma(random) };
        Run { picture, taps: vendor::taps(sigma).expect("taps of an ordinary sigma"), sigma: Some(sigma), low, high }
    }

    fn told(&self) -> Option<String> {
        Some(UNTOUCHED.told("map"))
    }
}

fn any_taps(random: &mut Random) -> Vec<f32> {
    if random.once_in(3) {
        return vec![1.0];
    }
    let count = numbers::odd(63, random);
    numbers::weights(count, random)
}

impl Case for Run {
    fn compare(&self, random: &mut Random) -> Result<u64, String> {
        let n = self.picture.area();
        let pixels = Lent::holding(&self.picture.pixels, random);
        let taps = Lent::holding(&self.taps, random);
        let mut room = Room::poisoned(n, random);
        let mut map = Lent::<u8>::roomy(n, random);
        let mut count = random.next() as usize;
        let frame = Frame {
            pixels: pixels.lend(),
            sides: self.picture.sides(),
            taps: taps.lend(),
            thresholds: (self.low, self.high),
        };
        accepted(ours::canny(&frame, room.lend(), map.lend_mut(), &mut count))?;
        pixels.unchanged("pixels")?;
        taps.unchanged("taps")?;
        room.zeroed(n)?;
        map.same_outside(n, "map")?;
        same_bytes(map.first(n), self.vendors(Text::Exchanged))?;
        let edges = map.first(n).iter().filter(|&&b| b == 255).count();
        if count != edges {
            return Err(format!("ours counts {count}, the map has {edges}"));
        }
        let untouched = self.vendors(Text::Untouched);
        Ok(1 + UNTOUCHED.beside(untouched.as_deref() == Some(map.first(n)), self.has_diagonal())?)
    }

    fn smaller(&self) -> Vec<Run> {
        self.picture.smaller().into_iter().map(|picture| Run { picture, ..self.clone() }).collect()
    }

    fn show(&self) -> String {
        let sigma = self.sigma.map_or(String::new(), |s| format!(", sigma {s:e}"));
        format!("{}, low {:e}, high {:e}, taps {}{sigma}", self.picture.show(), self.low, self.high, list(&self.taps))
    }
}

impl Run {
    fn vendors(&self, text: Text) -> Option<Vec<u8>> {
        match self.sigma {
            Some(sigma) => vendor::canny(text, &self.picture, sigma, self.low, self.high),
            None => vendor::canny_with_taps(text, &self.picture, &self.taps, self.low, self.high),
        }
    }

    /// Whether the gradients inside the run have a diagonal one at an inner pixel.
    fn has_diagonal(&self) -> bool {
        let (gx, gy) = vendor::gradients_of_run(&self.picture, &self.taps).expect("the vendor has run");
        model::has_diagonal(&numbers::whole(&gx), &numbers::whole(&gy), self.picture.width, self.picture.height)
    }
}
