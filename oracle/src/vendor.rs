//! The vendor's filters as the oracle calls them: plain numbers in, plain lists out, and nothing where the vendor gives an error.
//! What compares along a diagonal, suppression and the whole run, is there by either text of canny.rs.

use silvestre_core::effects::grayscale::to_grayscale;
use silvestre_core::filters::box_blur::BoxBlurFilter;
use silvestre_core::filters::canny::{self, CannyFilter};
use silvestre_core::filters::canny_exchanged;
use silvestre_core::filters::convolution::{self, BorderMode, Kernel, SeparableKernel};
use silvestre_core::filters::gaussian::{self, GaussianFilter};
use silvestre_core::filters::median::MedianFilter;
use silvestre_core::filters::sharpen::SharpenFilter;
use silvestre_core::filters::sobel::{self, SobelFilter};
use silvestre_core::filters::Filter;
use silvestre_core::{ColorSpace, Result, SilvestreImage};

use crate::pictures::Picture;

/// canny.rs as it was published, or the copy in which the two diagonal arms are exchanged, with which ours is compared.
#[derive(Clone, Copy)]
pub enum Text {
    Untouched,
    Exchanged,
}

fn mode(border: u8) -> BorderMode {
    match border {
        0 => BorderMode::Zero,
        1 => BorderMode::Clamp,
        2 => BorderMode::Mirror,
        other => panic!("the vendor has no border {other}"),
    }
}

fn image(picture: &Picture) -> SilvestreImage {
    SilvestreImage::new(picture.pixels.clone(), picture.width as u32, picture.height as u32, ColorSpace::Grayscale)
        .expect("a picture of the right length")
}

fn bytes(answer: Result<SilvestreImage>) -> Option<Vec<u8>> {
    answer.ok().map(|image| image.pixels().to_vec())
}

/// Where (x, y) is read, if anywhere. The sides are at least 1.
pub fn resolve_coord(x: i64, y: i64, width: usize, height: usize, border: u8) -> Option<(usize, usize)> {
    convolution::oracle_resolve_coord(x, y, width as u32, height as u32, mode(border))
}

pub fn apply_kernel(picture: &Picture, sides: (usize, usize), weights: &[f32], border: u8) -> Option<Vec<u8>> {
    let kernel = Kernel::new(weights.to_vec(), sides.0, sides.1).ok()?;
    bytes(convolution::apply_kernel(&image(picture), &kernel, mode(border)))
}

pub fn separable(picture: &Picture, horizontal: &[f32], vertical: &[f32], border: u8) -> Option<Vec<u8>> {
    let kernel = SeparableKernel::new(horizontal.to_vec(), vertical.to_vec()).ok()?;
    bytes(convolution::apply_separable_kernel(&image(picture), &kernel, mode(border)))
}

/// Whether the vendor takes such a kernel, such taps, such a window, such thresholds.
pub fn takes_kernel(sides: (usize, usize), weights: &[f32]) -> bool {
    Kernel::new(weights.to_vec(), sides.0, sides.1).is_ok()
}

pub fn takes_taps(horizontal: &[f32], vertical: &[f32]) -> bool {
    SeparableKernel::new(horizontal.to_vec(), vertical.to_vec()).is_ok()
}

pub fn takes_window(window: usize) -> bool {
    MedianFilter::new(window).is_ok()
}

pub fn takes_thresholds(low: f32, high: f32) -> bool {
    CannyFilter::new(low, high, 1.0).is_ok()
}

/// The taps that the vendor's blur of this sigma has: those its filter holds, which are gaussian_1d's for the size it works out.
/// Nothing where they are not finite, which the vendor does not take.
pub fn taps(sigma: f32) -> Option<Vec<f32>> {
    let filter = GaussianFilter::new(sigma).ok()?;
    Some(gaussian::oracle_taps_of(&filter).to_vec())
}

/// The vendor's gaussian_1d itself, finite or not.
pub fn gaussian_1d(sigma: f32, size: usize) -> Vec<f32> {
    gaussian::oracle_gaussian_1d(sigma, size)
}

pub fn gaussian(picture: &Picture, sigma: f32, border: u8) -> Option<Vec<u8>> {
    bytes(GaussianFilter::with_border(sigma, mode(border)).ok()?.apply(&image(picture)))
}

pub fn box_blur(picture: &Picture, border: u8) -> Option<Vec<u8>> {
    bytes(BoxBlurFilter::with_border(mode(border)).ok()?.apply(&image(picture)))
}

pub fn sharpen(picture: &Picture, border: u8) -> Option<Vec<u8>> {
    bytes(SharpenFilter::with_border(mode(border)).ok()?.apply(&image(picture)))
}

pub fn median(picture: &Picture, window: usize, border: u8) -> Option<Vec<u8>> {
    bytes(MedianFilter::with_border(window, mode(border)).ok()?.apply(&image(picture)))
}

pub fn sobel(picture: &Picture, border: u8) -> Option<Vec<u8>> {
    bytes(SobelFilter::with_border(mode(border)).apply(&image(picture)))
}

pub fn sobel_gradients(picture: &Picture, border: u8) -> (Vec<f32>, Vec<f32>) {
    sobel::oracle_sobel_gradients(&image(picture), mode(border))
}

/// Magnitudes and directions by the loop lifted from canny.rs.
pub fn magnitude(gx: &[i16], gy: &[i16]) -> (Vec<f32>, Vec<f32>) {
    canny::oracle_magnitude(&floats(gx), &floats(gy))
}

pub fn sector(direction: f32) -> u8 {
    canny::oracle_normalize_angle(direction)
}

pub fn suppression(text: Text, magnitude: &[f32], gx: &[i16], gy: &[i16], width: usize, height: usize) -> Vec<f32> {
    let direction = self::magnitude(gx, gy).1;
    thinned(text, magnitude, &direction, width, height)
}

fn thinned(text: Text, magnitude: &[f32], direction: &[f32], width: usize, height: usize) -> Vec<f32> {
    match text {
        Text::Untouched => canny::oracle_non_maximum_suppression(magnitude, direction, width, height),
        Text::Exchanged => canny_exchanged::oracle_non_maximum_suppression(magnitude, direction, width, height),
    }
}

pub fn hysteresis(magnitudes: &[f32], width: usize, height: usize, low: f32, high: f32) -> Vec<u8> {
    canny::oracle_hysteresis(magnitudes, width, height, low, high)
}

/// The vendor's whole run.
pub fn canny(text: Text, picture: &Picture, sigma: f32, low: f32, high: f32) -> Option<Vec<u8>> {
    match text {
        Text::Untouched => bytes(CannyFilter::new(low, high, sigma).ok()?.apply(&image(picture))),
        Text::Exchanged => bytes(canny_exchanged::CannyFilter::new(low, high, sigma).ok()?.apply(&image(picture))),
    }
}

/// The vendor's stages one after another as its whole run has them, with taps of any kind.
pub fn canny_with_taps(text: Text, picture: &Picture, taps: &[f32], low: f32, high: f32) -> Option<Vec<u8>> {
    let (gx, gy) = gradients_of_run(picture, taps)?;
    let (magnitude, direction) = canny::oracle_magnitude(&gx, &gy);
    let thin = thinned(text, &magnitude, &direction, picture.width, picture.height);
    Some(hysteresis(&thin, picture.width, picture.height, low, high))
}

/// The gradients inside a whole run: the picture made grey, blurred and given to Sobel, each clamped.
pub fn gradients_of_run(picture: &Picture, taps: &[f32]) -> Option<(Vec<f32>, Vec<f32>)> {
    let clamp = BorderMode::Clamp;
    let kernel = SeparableKernel::new(taps.to_vec(), taps.to_vec()).ok()?;
    let gray = to_grayscale(&image(picture)).ok()?;
    let blurred = convolution::apply_separable_kernel(&gray, &kernel, clamp).ok()?;
    Some(sobel::oracle_sobel_gradients(&blurred, clamp))
}

fn floats(values: &[i16]) -> Vec<f32> {
    values.iter().map(|&v| f32::from(v)).collect()
}
