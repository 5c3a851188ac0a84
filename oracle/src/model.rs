//! Document 01, with what document 02 changes, written once more in plain Rust, on its own: the refusal table of every call, the sector,
//! the neighbours, the root's rules and the walk. Nothing here looks at the vendor's text or at our library.

/// Document 01's limits.
const SIDE: usize = 640;
const TAPS: usize = 63;
const KERNEL: usize = 15;
const WINDOW: usize = 15;
const THRESHOLD: f32 = 255.0;

/// Which subjects of the table a call has, each with what it was lent. A subject that a call does not have stays empty.
#[derive(Clone, Default)]
pub struct Table {
    pub border: Option<u8>,
    /// The side of a single coordinate, which may not be 0.
    pub coordinate_side: Option<usize>,
    pub sides: Option<(usize, usize)>,
    /// Lengths of the inputs.
    pub inputs: Vec<usize>,
    /// Sizes that are odd and at most the second number.
    pub sizes: Vec<(usize, usize)>,
    /// Pairs of a number of weights and the factors whose product it must be.
    pub counts: Vec<(usize, Vec<usize>)>,
    /// Whether every weight is finite.
    pub finite: Option<bool>,
    pub thresholds: Option<(f32, f32)>,
    /// Lengths of the outputs and work buffers.
    pub room: Vec<usize>,
    pub budget: Option<usize>,
    /// Whether a walk's state is unusable, asked only once the rows before it have passed.
    pub unusable: Option<bool>,
    /// What is pending when a map is asked for.
    pub pending: Option<usize>,
}

impl Table {
    /// The first row that applies, or 0.
    pub fn answer(&self) -> u8 {
        let rows = [
            (255, self.border.is_some_and(|b| b > 2)),
            (1, self.side_refused()),
            (2, self.inputs.iter().any(|&n| Some(n as u128) != self.area())),
            (3, self.size_refused()),
            (4, self.finite == Some(false)),
            (5, self.thresholds.is_some_and(|(low, high)| bad_threshold(low) || bad_threshold(high))),
            (6, self.thresholds.is_some_and(|(low, high)| low > high)),
            (7, self.room.iter().any(|&n| Some(n as u128) < self.area())),
            (8, self.budget == Some(0)),
            (9, self.unusable == Some(true)),
            (10, self.pending.is_some_and(|p| p != 0)),
        ];
        rows.iter().find(|(_, applies)| *applies).map_or(0, |(number, _)| *number)
    }

    fn area(&self) -> Option<u128> {
        self.sides.map(|(w, h)| w as u128 * h as u128)
    }

    fn side_refused(&self) -> bool {
        self.sides.is_some_and(|(w, h)| w > SIDE || h > SIDE) || self.coordinate_side.is_some_and(|s| s == 0 || s > SIDE)
    }

    fn size_refused(&self) -> bool {
        let bad_size = |&(size, most): &(usize, usize)| size % 2 == 0 || size > most;
        let bad_count = |(n, factors): &(usize, Vec<usize>)| factors.iter().map(|&f| f as u128).product::<u128>() != *n as u128;
        // A product of two sides is only asked for when each is within its limit, so it cannot wrap.
        self.sizes.iter().any(bad_size) || self.counts.iter().any(bad_count)
    }

    pub fn taps(mut self, lists: &[(usize, &[f32])]) -> Table {
        for (said, list) in lists {
            self.sizes.push((*said, TAPS));
            self.counts.push((list.len(), vec![*said]));
        }
        self.finite = Some(lists.iter().all(|(_, list)| list.iter().all(|v| v.is_finite())));
        self
    }

    pub fn kernel(mut self, sides: (usize, usize), weights: &[f32]) -> Table {
        self.sizes = vec![(sides.0, KERNEL), (sides.1, KERNEL)];
        self.counts = vec![(weights.len(), vec![sides.0, sides.1])];
        self.finite = Some(weights.iter().all(|v| v.is_finite()));
        self
    }

    pub fn window(mut self, window: usize) -> Table {
        self.sizes = vec![(window, WINDOW)];
        self
    }
}

/// Not finite, below 0 or above 255; minus zero passes, since it is not below 0.
fn bad_threshold(value: f32) -> bool {
    !(0.0..=THRESHOLD).contains(&value)
}

/// The sector of two signed 16-bit numbers.
pub fn sector(gx: i16, gy: i16) -> u8 {
    let (a, b) = (i64::from(gx).abs(), i64::from(gy).abs());
    if (a == 0 && b == 0) || (a + b) * (a + b) < 2 * a * a {
        0
    } else if (a + b) * (a + b) < 2 * b * b {
        90
    } else if (gx > 0) == (gy > 0) {
        45
    } else {
        135
    }
}

/// Whether `value` is 01's magnitude of S.
pub fn is_magnitude(s: u32, value: f32) -> bool {
    if s == 0 {
        return value.to_bits() == 0;
    }
    if s >= 65_025 {
        return value == 255.0;
    }
    // value is m / 2^k with m of 24 bits; S below 65,025 leaves k from 16 to 23.
    let exponent = (value.to_bits() >> 23) as i32 - 127;
    let k = 23 - exponent;
    if !(16..=23).contains(&k) {
        return false;
    }
    let m = u128::from(value.to_bits() & 0x7F_FFFF | 0x80_0000);
    let middle = (4 * u128::from(s)) << (2 * k);
    (2 * m - 1) * (2 * m - 1) < middle && middle < (2 * m + 1) * (2 * m + 1)
}

/// Sobel's byte of S: the least n from 0 to 254 with S at most n * n + n, else 255.
pub fn sobel_byte(s: u32) -> u8 {
    (0..255u32).find(|n| s <= n * n + n).unwrap_or(255) as u8
}

/// Whether an inner pixel has a diagonal gradient: sector 45 or 135.
pub fn has_diagonal(gx: &[i16], gy: &[i16], width: usize, height: usize) -> bool {
    let mut inner = (1..height.saturating_sub(1)).flat_map(|y| (1..width.saturating_sub(1)).map(move |x| y * width + x));
    inner.any(|place| matches!(sector(gx[place], gy[place]), 45 | 135))
}

/// Suppression by the table of neighbours, for gradients of any 16 bits. The diagonal rows are those of document 02, item 2: 45 compares
/// (-1,-1) with (1,1), 135 compares (1,-1) with (-1,1).
pub fn suppression(magnitude: &[f32], gx: &[i16], gy: &[i16], width: usize, height: usize) -> Vec<f32> {
    let mut out = vec![0.0; width * height];
    for y in 1..height.saturating_sub(1) {
        for x in 1..width.saturating_sub(1) {
            let place = y * width + x;
            let step = match sector(gx[place], gy[place]) {
                0 => 1,
                45 => width + 1,
                90 => width,
                _ => width - 1,
            };
            let own = magnitude[place];
            if own >= magnitude[place - step] && own >= magnitude[place + step] {
                out[place] = own;
            }
        }
    }
    out
}

/// A walk: its three numbers, the marks and the stack, each of as many entries as the picture.
#[derive(Clone, Debug, PartialEq, Eq)]
pub struct Walk {
    pub width: usize,
    pub height: usize,
    pub pending: usize,
    pub marks: Vec<u8>,
    pub stack: Vec<u32>,
}

impl Walk {
    pub fn start(magnitudes: &[f32], width: usize, height: usize, low: f32, high: f32) -> Walk {
        let n = width * height;
        let mut walk = Walk { width, height, pending: 0, marks: vec![0; n], stack: vec![0; n] };
        for (place, &value) in magnitudes.iter().enumerate() {
            if value >= high {
                walk.marks[place] = 2;
                walk.put(place);
            } else if value >= low {
                walk.marks[place] = 1;
            }
        }
        walk
    }

    fn put(&mut self, place: usize) {
        self.stack[self.pending] = place as u32;
        self.pending += 1;
    }

    /// Refusal 9, with marks and stack at least as long as the picture.
    pub fn unusable(width: usize, height: usize, pending: usize, marks: &[u8], stack: &[u32]) -> bool {
        let n = width * height;
        if pending > n || stack[..pending].iter().any(|&i| i as usize >= n) {
            return true;
        }
        let weak = marks[..n].iter().filter(|&&m| m == 1).count();
        marks[..n].iter().any(|&m| m > 3) || pending + weak > n
    }

    /// One take.
    fn take(&mut self) {
        self.pending -= 1;
        let place = self.stack[self.pending] as usize;
        self.stack[self.pending] = 0;
        self.marks[place] = 3;
        let (x, y) = ((place % self.width) as i64, (place / self.width) as i64);
        for dy in -1..=1 {
            for dx in -1..=1 {
                let (nx, ny) = (x + dx, y + dy);
                if nx < 0 || ny < 0 || nx >= self.width as i64 || ny >= self.height as i64 {
                    continue;
                }
                let near = ny as usize * self.width + nx as usize;
                if self.marks[near] == 1 {
                    self.marks[near] = 2;
                    self.put(near);
                }
            }
        }
    }

    /// A slice: the number of takes.
    pub fn slice(&mut self, budget: usize) -> usize {
        let mut takes = 0;
        while takes < budget && self.pending > 0 {
            self.take();
            takes += 1;
        }
        takes
    }

    pub fn map(&self) -> Vec<u8> {
        self.marks.iter().map(|&m| if m == 3 { 255 } else { 0 }).collect()
    }
}
