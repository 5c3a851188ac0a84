//! Pictures to compare on: every tiny one, the limits of the sides, and random ones of every shape and of several kinds of content.

use crate::random::Random;

pub const MAX_SIDE: usize = 640;

#[derive(Clone, Debug)]
pub struct Picture {
    pub width: usize,
    pub height: usize,
    pub pixels: Vec<u8>,
}

/// Families of tiny pictures that are run through without a gap: width, height and the values that each pixel takes.
const TINY: [(usize, usize, &[u8]); 6] = [
    (1, 1, &[0, 1, 2, 3, 63, 64, 85, 86, 100, 127, 128, 129, 170, 253, 254, 255]),
    (2, 1, &[0, 1, 2, 3, 63, 64, 85, 86, 100, 127, 128, 129, 170, 253, 254, 255]),
    (1, 2, &[0, 1, 2, 3, 63, 64, 85, 86, 100, 127, 128, 129, 170, 253, 254, 255]),
    (2, 2, &[0, 1, 100, 255]),
    (3, 2, &[0, 128, 255]),
    (3, 3, &[0, 255]),
];

/// So many of the tiny pictures, the first ones, are a single pixel.
pub const SINGLE: usize = TINY[0].2.len();

/// Shapes at the limits; each comes three times, once for each border.
const LIMITS: [(usize, usize); 10] =
    [(640, 640), (640, 1), (1, 640), (640, 2), (3, 640), (639, 3), (640, 0), (0, 640), (0, 0), (640, 480)];

impl Picture {
    pub fn area(&self) -> usize {
        self.width * self.height
    }

    pub fn sides(&self) -> (usize, usize) {
        (self.width, self.height)
    }

    /// How many tiny pictures there are.
    pub fn tiny_count() -> usize {
        TINY.iter().map(|(w, h, values)| values.len().pow((w * h) as u32)).sum()
    }

    /// Tiny picture number `index`.
    pub fn tiny(index: usize) -> Picture {
        let mut left = index;
        for (width, height, values) in TINY {
            let count = values.len().pow((width * height) as u32);
            if left < count {
                let pixels = digits(left, values.len(), width * height).iter().map(|&d| values[d]).collect();
                return Picture { width, height, pixels };
            }
            left -= count;
        }
        panic!("tiny picture {index} of {}", Picture::tiny_count());
    }

    /// Random picture number `index`: the limits first, then shapes as `shape` has them.
    pub fn random(index: usize, random: &mut Random) -> Picture {
        let (width, height) = shape(index, random);
        Picture::sized(width, height, random)
    }

    /// A picture of these sides and random content.
    pub fn sized(width: usize, height: usize, random: &mut Random) -> Picture {
        Picture { width, height, pixels: content(width, height, random) }
    }

    /// Smaller pictures that may show the same difference, much smaller ones first.
    pub fn smaller(&self) -> Vec<Picture> {
        let mut all: Vec<Picture> = cuts(self.sides())
            .iter()
            .map(|cut| Picture { width: cut.sides.0, height: cut.sides.1, pixels: cut.of(&self.pixels) })
            .collect();
        if self.area() <= 64 {
            all.extend((0..self.area()).filter(|&i| self.pixels[i] != 0).map(|i| self.with(i, 0)));
        }
        all
    }

    fn with(&self, place: usize, value: u8) -> Picture {
        let mut other = self.clone();
        other.pixels[place] = value;
        other
    }

    pub fn show(&self) -> String {
        format!("{} by {} {}", self.width, self.height, list(&self.pixels))
    }
}

/// A part of a picture: what is left when columns and rows are cut off at one side.
pub struct Cut {
    whole: usize,
    left: usize,
    top: usize,
    pub sides: (usize, usize),
}

impl Cut {
    /// The entries of that part.
    pub fn of<T: Copy>(&self, list: &[T]) -> Vec<T> {
        let row = |y: usize| &list[y * self.whole + self.left..y * self.whole + self.left + self.sides.0];
        (self.top..self.top + self.sides.1).flat_map(row).copied().collect()
    }
}

/// The parts to try when a difference is made smaller: halves first, then three quarters, then one row or column less.
pub fn cuts(sides: (usize, usize)) -> Vec<Cut> {
    let (whole, h) = sides;
    let mut all = Vec::new();
    for gone in [whole / 2, whole / 4, 1].into_iter().filter(|&gone| gone > 0 && gone < whole) {
        all.extend([0, gone].map(|left| Cut { whole, left, top: 0, sides: (whole - gone, h) }));
    }
    for gone in [h / 2, h / 4, 1].into_iter().filter(|&gone| gone > 0 && gone < h) {
        all.extend([0, gone].map(|top| Cut { whole, left: 0, top, sides: (whole, h - gone) }));
    }
    all
}

/// A list as text, cut off where it is long.
pub fn list<T: std::fmt::Debug>(values: &[T]) -> String {
    if values.len() <= 128 {
        format!("{values:?}")
    } else {
        format!("{:?} and {} more", &values[..128], values.len() - 128)
    }
}

/// The `count` digits of a number, the lowest first.
pub fn digits(number: usize, base: usize, count: usize) -> Vec<usize> {
    let mut left = number;
    let mut all = Vec::with_capacity(count);
    for _ in 0..count {
        all.push(left % base);
        left /= base;
    }
    all
}

/// The shape of random case `index`: mostly small, one in 20 long and thin, one in 125 of any sides up to the limit.
pub fn shape(index: usize, random: &mut Random) -> (usize, usize) {
    if index < 3 * LIMITS.len() {
        return LIMITS[index / 3];
    }
    if index % 125 == 7 {
        return (random.below(MAX_SIDE + 1), random.below(MAX_SIDE + 1));
    }
    if index % 20 == 3 {
        let (long, short) = (random.below(MAX_SIDE + 1), 1 + random.below(4));
        return if random.once_in(2) { (long, short) } else { (short, long) };
    }
    let most = if index % 5 == 1 { 41 } else { 13 };
    let (w, h) = (random.below(most), random.below(most));
    // A side of 0 is rare; one such case in forty is enough.
    if random.once_in(40) { (w, h) } else { (w.max(1), h.max(1)) }
}

fn content(width: usize, height: usize, random: &mut Random) -> Vec<u8> {
    let n = width * height;
    match random.below(6) {
        0 => vec![random.next() as u8; n],
        1 => random.bytes(n).iter().map(|b| if b & 1 == 0 { 0 } else { 255 }).collect(),
        2 => ramp(width, height, random),
        3 => blocks(width, height, random),
        4 => random.bytes(n).iter().map(|b| 120 + (b & 7)).collect(),
        _ => random.bytes(n),
    }
}

/// A slope in a random direction.
fn ramp(width: usize, height: usize, random: &mut Random) -> Vec<u8> {
    let (dx, dy, start) = (random.between(-40, 40), random.between(-40, 40), random.between(0, 255));
    let mut pixels = Vec::with_capacity(width * height);
    for y in 0..height as i64 {
        pixels.extend((0..width as i64).map(|x| (start + dx * x + dy * y).clamp(0, 255) as u8));
    }
    pixels
}

/// A few rectangles of one value each, with a little noise now and then.
fn blocks(width: usize, height: usize, random: &mut Random) -> Vec<u8> {
    let mut pixels = vec![random.next() as u8; width * height];
    for _ in 0..1 + random.below(5) {
        let (left, top) = (random.below(width + 1), random.below(height + 1));
        let (right, bottom) = (left + random.below(width - left + 1), top + random.below(height - top + 1));
        let value = random.next() as u8;
        for y in top..bottom {
            pixels[y * width + left..y * width + right].fill(value);
        }
    }
    if random.once_in(2) {
        for pixel in &mut pixels {
            *pixel = pixel.wrapping_add((random.next() & 3) as u8);
        }
    }
    pixels
}
