//! sobel_gradients: our whole numbers beside the vendor's floats, which must be those numbers bit for bit.

use crate::lent::Lent;
use crate::numbers::{self, BORDERS};
use crate::ours;
use crate::pictures::{list, Picture};
use crate::random::Random;
use crate::runner::{Case, Stage};
use crate::vendor;

use super::{accepted, RANDOM};

pub struct Gradients;

#[derive(Clone)]
pub struct Slopes {
    picture: Picture,
    border: u8,
}

impl Stage for Gradients {
    type Case = Slopes;

    fn name(&self) -> &'static str {
        "sobel_gradients"
    }

    fn count(&self, factor: usize) -> usize {
        3 * Picture::tiny_count() + RANDOM * factor
    }

    fn case(&self, index: usize, random: &mut Random) -> Slopes {
        let tiny = 3 * Picture::tiny_count();
        let picture = if index < tiny { Picture::tiny(index / 3) } else { Picture::random(index - tiny, random) };
        Slopes { picture, border: BORDERS[index % 3] }
    }
}

impl Case for Slopes {
    fn compare(&self, random: &mut Random) -> Result<u64, String> {
        let n = self.picture.area();
        let pixels = Lent::holding(&self.picture.pixels, random);
        let mut gx = Lent::<i16>::roomy(n, random);
        let mut gy = Lent::<i16>::roomy(n, random);
        let sides = self.picture.sides();
        accepted(ours::sobel_gradients(pixels.lend(), sides, self.border, gx.lend_mut(), gy.lend_mut()))?;
        pixels.unchanged("pixels")?;
        gx.same_outside(n, "gx")?;
        gy.same_outside(n, "gy")?;
        let (vx, vy) = vendor::sobel_gradients(&self.picture, self.border);
        same_slopes("gx", gx.first(n), &vx)?;
        same_slopes("gy", gy.first(n), &vy)?;
        match gx.first(n).iter().zip(gy.first(n)).position(|(x, y)| (x ^ y) & 1 != 0) {
            None => Ok(1),
            Some(i) => Err(format!("at {i} the two components are not of one parity")),
        }
    }

    fn smaller(&self) -> Vec<Slopes> {
        self.picture.smaller().into_iter().map(|picture| Slopes { picture, border: self.border }).collect()
    }

    fn show(&self) -> String {
        format!("{}, border {}", self.picture.show(), self.border)
    }
}

fn same_slopes(name: &str, ours: &[i16], vendors: &[f32]) -> Result<(), String> {
    let floats: Vec<f32> = ours.iter().map(|&g| f32::from(g)).collect();
    match numbers::first_float(&floats, vendors) {
        None => Ok(()),
        Some(i) => Err(format!("{name} at {i}: ours {} vendor {}", list(ours), list(vendors))),
    }
}
