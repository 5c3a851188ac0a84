//! magnitude_of and sobel_byte for every S that a picture can give and far beyond, beside the vendor's formula in IEEE arithmetic and
//! document 01's own rules. The vendor's text has the two formulas only inside its loops, so here they are worked out from the root.

use crate::model;
use crate::ours;
use crate::random::Random;
use crate::runner::{Case, Stage};

use super::RANDOM;

pub struct Roots;

pub struct Sums {
    list: Vec<u32>,
}

/// The greatest S of a picture, and how many of them a case takes.
const GREATEST: u32 = 2_080_800;
const BLOCK: u32 = 1000;
const BLOCKS: usize = (GREATEST / BLOCK + 1) as usize;

impl Stage for Roots {
    type Case = Sums;

    fn name(&self) -> &'static str {
        "roots"
    }

    fn count(&self, factor: usize) -> usize {
        BLOCKS + RANDOM * factor
    }

    fn case(&self, index: usize, random: &mut Random) -> Sums {
        if index < BLOCKS {
            let first = index as u32 * BLOCK;
            return Sums { list: (first..first + BLOCK).collect() };
        }
        let s = match random.below(3) {
            0 => random.next() as u32,
            1 => random.pick(&[u32::MAX, u32::MAX - 1, 1 << 31, (1 << 24) + 1, 1 << 24, GREATEST, 65_024, 65_025, 64_770, 64_771]),
            _ => {
                let n = random.below(300) as u32;
                (n * n + n).saturating_add_signed(random.between(-1, 1) as i32)
            }
        };
        Sums { list: vec![s] }
    }
}

impl Case for Sums {
    fn compare(&self, _: &mut Random) -> Result<u64, String> {
        for &s in &self.list {
            let magnitude = ours::magnitude_of(s);
            let root = (s as f32).sqrt();
            if !model::is_magnitude(s, magnitude) || magnitude.to_bits() != root.clamp(0.0, 255.0).to_bits() {
                return Err(format!("S {s}: magnitude {magnitude:e}, the root is {root:e}"));
            }
            let byte = ours::sobel_byte(s);
            if byte != model::sobel_byte(s) || byte != root.round().clamp(0.0, 255.0) as u8 {
                return Err(format!("S {s}: byte {byte}, 01 gives {}", model::sobel_byte(s)));
            }
        }
        Ok(self.list.len() as u64)
    }

    fn smaller(&self) -> Vec<Sums> {
        let alone = |&s: &u32| Sums { list: vec![s] };
        if self.list.len() > 1 { self.list.iter().map(alone).collect() } else { Vec::new() }
    }

    fn show(&self) -> String {
        format!("S from {:?} to {:?}", self.list.first(), self.list.last())
    }
}
