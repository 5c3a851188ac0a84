//! The vendor's filters, made before the clock starts, and its answers as this bench compares them. Of canny.rs it is the copy with the
//! two diagonal arms exchanged; the untouched text is there for one row.

use silvestre_core::filters::canny;
use silvestre_core::filters::canny_exchanged::CannyFilter;
use silvestre_core::filters::gaussian::{oracle_taps_of, GaussianFilter};
use silvestre_core::filters::Filter;
use silvestre_core::SilvestreImage;

/// Tap counts, and for each a sigma from which the vendor makes so many taps.
pub const SIGMAS: [(usize, f32); 3] = [(5, 0.6), (9, 1.2), (13, 1.8)];

/// The vendor's blur with one of these sigmas.
pub fn blur(sigma: f32) -> GaussianFilter {
    GaussianFilter::new(sigma).expect("a sigma that the vendor takes")
}

/// The vendor's taps of a sigma, which must be so many.
pub fn taps(count: usize, sigma: f32) -> Result<Vec<f32>, String> {
    let taps = oracle_taps_of(&blur(sigma)).to_vec();
    if taps.len() == count {
        Ok(taps)
    } else {
        Err(format!("sigma {sigma} gives {} taps, not {count}", taps.len()))
    }
}

/// The vendor's whole run.
pub fn canny(sigma: f32, thresholds: (f32, f32)) -> CannyFilter {
    CannyFilter::new(thresholds.0, thresholds.1, sigma).expect("thresholds that the vendor takes")
}

/// The same by the untouched text.
pub fn untouched_canny(sigma: f32, thresholds: (f32, f32)) -> canny::CannyFilter {
    canny::CannyFilter::new(thresholds.0, thresholds.1, sigma).expect("thresholds that the vendor takes")
}

/// What a filter makes of a picture; it takes every picture of this bench.
pub fn apply(filter: &impl Filter, image: &SilvestreImage) -> SilvestreImage {
    filter.apply(image).expect("a picture that the vendor takes")
}

/// Whether two lists of floats are alike bit by bit.
pub fn same_bits(one: &[f32], other: &[f32]) -> bool {
    one.len() == other.len() && one.iter().zip(other).all(|(a, b)| a.to_bits() == b.to_bits())
}

/// Whether the vendor's gradient component has our whole numbers.
pub fn same_numbers(floats: &[f32], numbers: &[i16]) -> bool {
    floats.len() == numbers.len() && floats.iter().zip(numbers).all(|(a, b)| *a == f32::from(*b))
}
