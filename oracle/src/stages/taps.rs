//! apply_separable_kernel and gaussian_blur: taps of any kind each way, and the vendor's own taps of a sigma.

use crate::lent::Lent;
use crate::numbers::{self, BORDERS};
use crate::ours::{self, Taps};
use crate::pictures::{list, Picture, SINGLE};
use crate::random::Random;
use crate::runner::{Case, Stage};
use crate::vendor;

use super::{accepted, same_bytes, RANDOM};

pub struct Separable;
pub struct Gaussian;

/// A picture and taps. Without vertical taps it is a Gaussian with the same both ways; with a sigma these are the vendor's.
#[derive(Clone)]
pub struct Blurred {
    picture: Picture,
    border: u8,
    horizontal: Vec<f32>,
    vertical: Option<Vec<f32>>,
    sigma: Option<f32>,
}

impl Stage for Separable {
    type Case = Blurred;

    fn name(&self) -> &'static str {
        "separable"
    }

    fn count(&self, factor: usize) -> usize {
        3 * Picture::tiny_count() + RANDOM * factor
    }

    fn case(&self, index: usize, random: &mut Random) -> Blurred {
        let picture = picture(index, random);
        let (across, down) = numbers::two_kinds(random);
        let (horizontal, vertical) = (any_taps(across, index, random), any_taps(down, index, random));
        Blurred { picture, border: BORDERS[index % 3], horizontal, vertical: Some(vertical), sigma: None }
    }
}

impl Stage for Gaussian {
    type Case = Blurred;

    fn name(&self) -> &'static str {
        "gaussian"
    }

    fn count(&self, factor: usize) -> usize {
        3 * Picture::tiny_count() + RANDOM * factor
    }

    fn case(&self, index: usize, random: &mut Random) -> Blurred {
        let picture = picture(index, random);
        let sigma = if index < 3 * SINGLE || random.once_in(3) { None } else { Some(numbers::sigma(random)) };
        let horizontal = match sigma {
            Some(sigma) => vendor::taps(sigma).expect("taps of an ordinary sigma"),
            None => {
                let kind = numbers::kind(random);
                any_taps(kind, index, random)
            }
        };
        Blurred { picture, border: BORDERS[index % 3], horizontal, vertical: None, sigma }
    }
}

fn picture(index: usize, random: &mut Random) -> Picture {
    let tiny = 3 * Picture::tiny_count();
    if index < tiny {
        Picture::tiny(index / 3)
    } else {
        Picture::random(index - tiny, random)
    }
}

/// Taps of this kind; 63 of them in the first random case, and on single pixels one whose square lies just below a half.
fn any_taps(kind: usize, index: usize, random: &mut Random) -> Vec<f32> {
    if index < 3 * SINGLE {
        return vec![numbers::ROOT_BELOW_HALF];
    }
    let count = if index == 3 * Picture::tiny_count() { 63 } else { numbers::odd(63, random) };
    numbers::weights_of(kind, count, random)
}

impl Case for Blurred {
    fn compare(&self, random: &mut Random) -> Result<u64, String> {
        let n = self.picture.area();
        let pixels = Lent::holding(&self.picture.pixels, random);
        let across = Lent::holding(&self.horizontal, random);
        let down = Lent::holding(self.vertical.as_deref().unwrap_or(&[]), random);
        let mut work = Lent::<f32>::roomy(n, random);
        let mut out = Lent::<u8>::roomy(n, random);
        let sides = self.picture.sides();
        accepted(match &self.vertical {
            Some(_) => {
                let taps = Taps { counts: (across.len(), down.len()), horizontal: across.lend(), vertical: down.lend() };
                ours::apply_separable_kernel(pixels.lend(), sides, &taps, self.border, work.lend_mut(), out.lend_mut())
            }
            None => ours::gaussian_blur(pixels.lend(), sides, across.lend(), self.border, work.lend_mut(), out.lend_mut()),
        })?;
        pixels.unchanged("pixels")?;
        across.unchanged("horizontal taps")?;
        down.unchanged("vertical taps")?;
        work.zeroed(n, "work")?;
        out.same_outside(n, "out")?;
        same_bytes(out.first(n), self.vendors()?)?;
        Ok(1)
    }

    fn smaller(&self) -> Vec<Blurred> {
        let mut all: Vec<Blurred> =
            self.picture.smaller().into_iter().map(|picture| Blurred { picture, ..self.clone() }).collect();
        if self.sigma.is_none() {
            all.extend(shorter(&self.horizontal).into_iter().map(|horizontal| Blurred { horizontal, ..self.clone() }));
            let down = self.vertical.iter().flat_map(|v| shorter(v));
            all.extend(down.map(|vertical| Blurred { vertical: Some(vertical), ..self.clone() }));
        }
        all
    }

    fn show(&self) -> String {
        let bits = |taps: &[f32]| list(&taps.iter().map(|t| format!("{t:e}")).collect::<Vec<_>>());
        let down = self.vertical.as_ref().map_or(String::new(), |v| format!(", down {}", bits(v)));
        let sigma = self.sigma.map_or(String::new(), |s| format!(", sigma {s}"));
        format!("{}, border {}, taps {}{down}{sigma}", self.picture.show(), self.border, bits(&self.horizontal))
    }
}

impl Blurred {
    fn vendors(&self) -> Result<Option<Vec<u8>>, String> {
        if let Some(sigma) = self.sigma {
            let lifted = vendor::gaussian_1d(sigma, self.horizontal.len());
            if numbers::first_float(&lifted, &self.horizontal).is_some() {
                return Err("gaussian_1d does not give the taps that the vendor's filter holds".into());
            }
            return Ok(vendor::gaussian(&self.picture, sigma, self.border));
        }
        let down = self.vertical.as_ref().unwrap_or(&self.horizontal);
        Ok(vendor::separable(&self.picture, &self.horizontal, down, self.border))
    }
}

/// Taps without the outer two, and with one tap made 0.
fn shorter(taps: &[f32]) -> Vec<Vec<f32>> {
    let mut all = Vec::new();
    if taps.len() > 1 {
        all.push(taps[1..taps.len() - 1].to_vec());
    }
    for place in (0..taps.len()).filter(|&i| taps[i].to_bits() != 0) {
        let mut other = taps.to_vec();
        other[place] = 0.0;
        all.push(other);
    }
    all
}
