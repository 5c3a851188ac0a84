//! The three frames that are timed, at any size: noise, a smooth slope of light, and something like a bank card on a table.

use silvestre_core::{ColorSpace, SilvestreImage};

use crate::random::Random;

const SEED: u64 = 20_261_115;

/// The frames' names, in the order of the tables.
pub const NAMES: [&str; 3] = ["noise", "smooth", "card-like"];

/// One picture as either side takes it.
pub struct Frame {
    pub name: &'static str,
    pub width: usize,
    pub height: usize,
    pub pixels: Vec<u8>,
    pub image: SilvestreImage,
}

impl Frame {
    /// The frame of this name; `name` is one of `NAMES`.
    pub fn named(name: &'static str, width: usize, height: usize) -> Frame {
        let mut random = Random::new(SEED, width as u64, height as u64);
        let pixels = match name {
            "noise" => random.bytes(width * height),
            "smooth" => drawn(width, height, smooth),
            "card-like" => grained(drawn(width, height, card), &mut random),
            other => panic!("there is no frame {other}"),
        };
        Frame { name, width, height, image: image(&pixels, width, height), pixels }
    }

    pub fn sides(&self) -> (usize, usize) {
        (self.width, self.height)
    }

    pub fn area(&self) -> usize {
        self.width * self.height
    }
}

/// A vendor's picture of these bytes.
pub fn image(pixels: &[u8], width: usize, height: usize) -> SilvestreImage {
    SilvestreImage::new(pixels.to_vec(), width as u32, height as u32, ColorSpace::Grayscale).expect("a byte for each pixel")
}

/// A picture from the brightness at (u, v), both from 0 to 1.
fn drawn(width: usize, height: usize, brightness: fn(f64, f64) -> f64) -> Vec<u8> {
    let place = |i: usize, side: usize| (i as f64 + 0.5) / side as f64;
    (0..width * height)
        .map(|i| brightness(place(i % width, width), place(i / width, height)).round().clamp(0.0, 255.0) as u8)
        .collect()
}

/// Two long waves across each other.
fn smooth(u: f64, v: f64) -> f64 {
    128.0 + 70.0 * (5.0 * u + 2.0 * v).sin() + 50.0 * (7.0 * v - 3.0 * u).cos()
}

/// A card, a little turned, on a table of boards; the light falls off to the right.
fn card(u: f64, v: f64) -> f64 {
    let (x, y) = (u - 0.5, (v - 0.5) * 0.75);
    let (turn_sin, turn_cos) = (-0.12_f64).sin_cos();
    let (a, b) = ((x * turn_cos + y * turn_sin) / 0.64 + 0.5, (y * turn_cos - x * turn_sin) / 0.41 + 0.5);
    let inside = (0.0..1.0).contains(&a) && (0.0..1.0).contains(&b);
    let seen = if inside { face(a, b) } else { table(u, v) };
    seen * (1.12 - 0.3 * u)
}

/// The card's face at (a, b) from its upper left corner, both from 0 to 1.
fn face(a: f64, b: f64) -> f64 {
    let within = |left: f64, top: f64, right: f64, bottom: f64| left <= a && a < right && top <= b && b < bottom;
    if within(0.0, 0.09, 1.0, 0.19) {
        return 104.0;
    }
    if within(0.09, 0.29, 0.23, 0.48) {
        return if ((b * 50.0) as u32).is_multiple_of(4) { 110.0 } else { 205.0 };
    }
    // Sixteen digits, each a few bars, with a gap after every fourth.
    if within(0.09, 0.58, 0.87, 0.7) {
        let (cell, dot) = ((a - 0.09) * 24.0, ((a - 0.09) * 96.0) as u32 * 5 + ((b - 0.58) * 41.0) as u32 * 3);
        return if cell as u32 % 5 < 4 && dot % 7 < 3 { 232.0 } else { 146.0 };
    }
    if within(0.09, 0.82, 0.45, 0.85) || (a - 0.85).hypot((b - 0.85) * 0.64) < 0.06 {
        return 200.0;
    }
    146.0
}

/// Boards with grain.
fn table(u: f64, v: f64) -> f64 {
    let (board, inside) = ((v * 4.1 + 0.1).floor(), (v * 4.1 + 0.1).fract() * 58.0);
    let grain = (0.9 * inside + 2.2 * (6.7 * u + 1.7 * board).sin()).sin() + 0.6 * (0.31 * inside + 4.2 * u + board).sin();
    66.0 + 5.0 * grain + 6.0 * (2.4 * board).sin() - if inside < 1.2 { 26.0 } else { 0.0 }
}

/// The picture with a little noise, as a camera has it.
fn grained(mut pixels: Vec<u8>, random: &mut Random) -> Vec<u8> {
    for pixel in &mut pixels {
        let noise = random.between(-2, 2) + random.between(-2, 2);
        *pixel = (i64::from(*pixel) + noise).clamp(0, 255) as u8;
    }
    pixels
}
