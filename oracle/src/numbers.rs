//! Numbers to compare on: weights and taps (ordinary, huge, tiny, ties), gradients, magnitudes and thresholds.

use std::f32::consts::FRAC_1_SQRT_2;

use crate::random::Random;

/// Borders by their numbers: Zero, Clamp, Mirror.
pub const BORDERS: [u8; 3] = [0, 1, 2];

/// The f32 just below 0.5, which must become 0 although adding 0.5 to it gives 1; and an f32 whose square it is.
pub const BELOW_HALF: f32 = 0.499_999_97;
pub const ROOT_BELOW_HALF: f32 = FRAC_1_SQRT_2;

/// Weights whose sums lie at a half or just beside it.
const TIES: [f32; 11] = [0.5, 0.25, 1.0 / 3.0, BELOW_HALF, 0.500_000_06, -0.5, 1.5, 0.1, 0.125, ROOT_BELOW_HALF, -0.0];
const HUGE: [f32; 10] = [1e38, -1e38, f32::MAX, f32::MIN, 3e36, -3e36, 1.0, 0.0, -0.0, 1.35e36];
const TINY: [f32; 6] = [f32::MIN_POSITIVE, -f32::MIN_POSITIVE, 1e-45, -1e-45, 0.0, -0.0];

/// Kinds of weights: eight that `weight` makes one by one, and above them, more often, a blur.
const BLUR: usize = 8;

/// A kind of weights.
pub fn kind(random: &mut Random) -> usize {
    random.below(12).min(BLUR)
}

/// Two kinds for the two ways of a separable kernel, mostly the same: most mixtures only give black or white.
pub fn two_kinds(random: &mut Random) -> (usize, usize) {
    let one = kind(random);
    (one, if random.once_in(4) { kind(random) } else { one })
}

/// `count` finite weights of some kind.
pub fn weights(count: usize, random: &mut Random) -> Vec<f32> {
    let kind = kind(random);
    weights_of(kind, count, random)
}

/// `count` finite weights of this kind.
pub fn weights_of(kind: usize, count: usize, random: &mut Random) -> Vec<f32> {
    if kind == BLUR {
        return blur(count, random);
    }
    let mut all: Vec<f32> = (0..count).map(|_| weight(kind, random)).collect();
    if kind == 7 {
        let one = random.below(count);
        all[one] = 1.0;
    }
    all
}

fn weight(kind: usize, random: &mut Random) -> f32 {
    match kind {
        0 => random.between(-3, 3) as f32,
        1 => random.unit() * 2.0 - 1.0,
        2 => random.pick(&TIES),
        3 => random.pick(&HUGE),
        4 if random.once_in(2) => random.pick(&TINY),
        4 => f32::from_bits(random.next() as u32 & 0x807F_FFFF),
        5 => finite(random),
        6 => (random.unit() - 0.3) * 0.05,
        _ => 0.0,
    }
}

/// Positive weights whose sum is about 1.
fn blur(count: usize, random: &mut Random) -> Vec<f32> {
    let all: Vec<f32> = (0..count).map(|_| random.unit() + 0.001).collect();
    let sum: f32 = all.iter().sum();
    all.iter().map(|w| w / sum).collect()
}

/// Any finite float, by its bits.
fn finite(random: &mut Random) -> f32 {
    loop {
        let value = f32::from_bits(random.next() as u32);
        if value.is_finite() {
            return value;
        }
    }
}

/// An odd number from 1 to `most`, small ones more often.
pub fn odd(most: usize, random: &mut Random) -> usize {
    let half = if random.once_in(3) { most / 2 } else { 3.min(most / 2) };
    2 * random.below(half + 1) + 1
}

/// A sigma that the vendor takes and whose taps number at most 63.
pub fn sigma(random: &mut Random) -> f32 {
    match random.below(8) {
        0 => random.pick(&[0.25, 0.333_333_34, 0.5, 1.0, 1.4, 2.0, 3.333_333_3, 10.0, 10.333_333]),
        1 => 0.05 + random.unit() * 10.25,
        _ => 0.2 + random.unit() * 2.0,
    }
}

/// `count` gradients within what a byte picture can give, of one kind.
pub fn gradients(count: usize, random: &mut Random) -> Vec<i16> {
    let kind = random.below(5);
    (0..count)
        .map(|_| match kind {
            0 => random.between(-3, 3) as i16,
            1 => random.pick(&[-1020, -1019, 0, 1, 1019, 1020]),
            2 => random.between(-40, 40) as i16,
            _ => random.between(-1020, 1020) as i16,
        })
        .collect()
}

/// Two lists of gradients as a picture has them: the two of a pixel are both even or both odd.
pub fn gradient_pairs(count: usize, random: &mut Random) -> (Vec<i16>, Vec<i16>) {
    let gx = gradients(count, random);
    let mut gy = gradients(count, random);
    for (x, y) in gx.iter().zip(&mut gy) {
        if (x ^ *y) & 1 != 0 {
            *y += if *y > 0 { -1 } else { 1 };
        }
    }
    (gx, gy)
}

/// The vendor's gradients, which are floats, as the whole numbers that they are.
pub fn whole(floats: &[f32]) -> Vec<i16> {
    floats.iter().map(|&f| f as i16).collect()
}

/// `count` magnitudes as floats of any bits may be lent: ordinary ones, ties, infinities and NaN.
pub fn magnitudes(count: usize, random: &mut Random) -> Vec<f32> {
    let kind = random.below(5);
    (0..count)
        .map(|_| match kind {
            0 => random.between(0, 4) as f32,
            1 => random.unit() * 255.0,
            2 => random.pick(&[0.0, -0.0, 1.0, f32::NAN, f32::INFINITY, f32::NEG_INFINITY, 254.99998, 255.0, -1.0, 1e-45]),
            3 => f32::from_bits(random.next() as u32),
            _ => random.pick(&[0.0, 40.0, 50.0, 60.0, 99.99999, 100.0, 255.0]),
        })
        .collect()
}

/// Thresholds that are accepted: low is at most high, both from 0 to 255.
pub fn thresholds(random: &mut Random) -> (f32, f32) {
    let one = threshold(random);
    let other = threshold(random);
    if one <= other { (one, other) } else { (other, one) }
}

fn threshold(random: &mut Random) -> f32 {
    match random.below(4) {
        0 => random.pick(&[0.0, -0.0, 1e-45, 1.0, 50.0, 100.0, 254.99998, 255.0]),
        1 => random.between(0, 255) as f32,
        2 => random.unit() * 60.0,
        _ => random.unit() * 255.0,
    }
}

/// Whether two floats are the same by bits, any NaN being like any other.
pub fn same(one: f32, other: f32) -> bool {
    one.to_bits() == other.to_bits() || (one.is_nan() && other.is_nan())
}

/// The first place at which two lists of floats part, or none.
pub fn first_float(one: &[f32], other: &[f32]) -> Option<usize> {
    (0..one.len().max(other.len())).find(|&i| match (one.get(i), other.get(i)) {
        (Some(&a), Some(&b)) => !same(a, b),
        _ => true,
    })
}
