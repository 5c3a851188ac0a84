//! A request to one of the calls, honest to begin with, and what document 01's table says to it.

use crate::model::{self, Table};
use crate::numbers;
use crate::random::Random;
use crate::vendor;

#[derive(Clone, Copy, Debug, PartialEq)]
pub enum Call {
    Resolve,
    Kernel,
    Separable,
    Gaussian,
    Box,
    Sharpen,
    Median,
    Sobel,
    Gradients,
    Magnitude,
    Suppression,
    Start,
    Slice,
    Map,
    Canny,
}

pub const CALLS: [Call; 15] = [
    Call::Resolve,
    Call::Kernel,
    Call::Separable,
    Call::Gaussian,
    Call::Box,
    Call::Sharpen,
    Call::Median,
    Call::Sobel,
    Call::Gradients,
    Call::Magnitude,
    Call::Suppression,
    Call::Start,
    Call::Slice,
    Call::Map,
    Call::Canny,
];

impl Call {
    /// The refusals that include/kelontsira.h lists for the call.
    pub fn refusals(self) -> &'static [u8] {
        match self {
            Call::Resolve => &[255, 1],
            Call::Kernel | Call::Separable | Call::Gaussian => &[255, 1, 2, 3, 4, 7],
            Call::Box | Call::Sharpen | Call::Sobel | Call::Gradients => &[255, 1, 2, 7],
            Call::Median => &[255, 1, 2, 3, 7],
            Call::Magnitude | Call::Suppression => &[1, 2, 7],
            Call::Start => &[1, 2, 5, 6, 7],
            Call::Slice => &[1, 7, 8, 9],
            Call::Map => &[1, 7, 9, 10],
            Call::Canny => &[1, 2, 3, 4, 5, 6, 7],
        }
    }
}

/// Places of the lengths in `room`.
pub const WORK: usize = 0;
pub const MAGNITUDE: usize = 1;
pub const GX: usize = 2;
pub const GY: usize = 3;
pub const BLURRED: usize = 4;
pub const MARKS: usize = 5;
pub const STACK: usize = 6;
pub const OUT: usize = 7;

/// Entries that marks and stack have beyond the picture, so that they can be lent longer than needed.
pub const SPARE: usize = 8;

/// Everything that any of the calls is lent; each call looks at its own part.
#[derive(Clone, Debug)]
pub struct Asked {
    pub call: Call,
    pub border: u8,
    pub coord: i64,
    pub sides: (usize, usize),
    /// Width times height before any damage.
    pub area: usize,
    /// Lengths of the picture or magnitudes, of gx and of gy, as inputs.
    pub inputs: [usize; 3],
    /// Kernel sides, tap counts, or the window and nothing.
    pub sizes: (usize, usize),
    pub weights: Vec<f32>,
    pub vertical: Vec<f32>,
    pub thresholds: (f32, f32),
    /// Lengths of the buffers that are written, by the places above.
    pub room: [usize; 8],
    pub budget: usize,
    pub pending: usize,
    pub marks: Vec<u8>,
    pub stack: Vec<u32>,
}

impl Asked {
    /// A request that is accepted.
    pub fn honest(call: Call, random: &mut Random) -> Asked {
        let sides = honest_sides(call, random);
        let area = sides.0 * sides.1;
        let sizes = match call {
            Call::Kernel => (numbers::odd(15, random), numbers::odd(15, random)),
            Call::Median => (numbers::odd(15, random), 1),
            _ => (numbers::odd(63, random), numbers::odd(63, random)),
        };
        let count = if call == Call::Kernel { sizes.0 * sizes.1 } else { sizes.0 };
        let (low, high) = numbers::thresholds(random);
        let mut walk = model::Walk::start(&numbers::magnitudes(area, random), sides.0, sides.1, low, high);
        if call == Call::Map {
            walk.slice(area + 1);
        }
        let mut room = [area; 8];
        room.iter_mut().for_each(|n| *n += random.below(4));
        Asked {
            call,
            border: random.below(3) as u8,
            coord: random.next() as i64,
            sides,
            area,
            inputs: [area; 3],
            sizes,
            weights: numbers::weights(count, random),
            vertical: numbers::weights(sizes.1, random),
            thresholds: (low, high),
            room,
            budget: 1 + random.below(area + 2),
            pending: walk.pending,
            marks: [walk.marks, vec![77; SPARE]].concat(),
            stack: [walk.stack, vec![u32::MAX; SPARE]].concat(),
        }
    }

    /// What the table says, by the rows that the call has.
    pub fn table(&self) -> Table {
        let base = Table { sides: Some(self.sides), room: self.lent_room(), inputs: self.lent_inputs(), ..Table::default() };
        let bordered = Table { border: Some(self.border), ..base.clone() };
        match self.call {
            Call::Resolve => Table { border: Some(self.border), coordinate_side: Some(self.sides.0), ..Table::default() },
            Call::Kernel => bordered.kernel(self.sizes, &self.weights),
            Call::Separable => bordered.taps(&[(self.sizes.0, &self.weights), (self.sizes.1, &self.vertical)]),
            Call::Gaussian => bordered.taps(&[(self.weights.len(), &self.weights)]),
            Call::Box | Call::Sharpen | Call::Sobel | Call::Gradients => bordered,
            Call::Median => bordered.window(self.sizes.0),
            Call::Magnitude | Call::Suppression => base,
            Call::Start => Table { thresholds: Some(self.thresholds), ..base },
            Call::Slice => Table { budget: Some(self.budget), unusable: Some(self.unusable()), ..base },
            Call::Map => Table { pending: Some(self.pending), unusable: Some(self.unusable()), ..base },
            Call::Canny => {
                Table { thresholds: Some(self.thresholds), ..base }.taps(&[(self.weights.len(), &self.weights)])
            }
        }
    }

    /// Lengths of the inputs that the call has.
    fn lent_inputs(&self) -> Vec<usize> {
        match self.call {
            Call::Resolve | Call::Slice | Call::Map => vec![],
            Call::Magnitude => vec![self.inputs[1], self.inputs[2]],
            Call::Suppression => self.inputs.to_vec(),
            _ => vec![self.inputs[0]],
        }
    }

    /// Lengths of the outputs and work buffers that the call has.
    fn lent_room(&self) -> Vec<usize> {
        let places: &[usize] = match self.call {
            Call::Resolve => &[],
            Call::Kernel | Call::Sharpen | Call::Median | Call::Sobel => &[OUT],
            Call::Separable | Call::Gaussian | Call::Box => &[WORK, OUT],
            Call::Gradients => &[GX, GY],
            Call::Magnitude | Call::Suppression => &[MAGNITUDE],
            Call::Start | Call::Slice => &[MARKS, STACK],
            Call::Map => &[MARKS, STACK, OUT],
            Call::Canny => &[WORK, MAGNITUDE, GX, GY, BLURRED, MARKS, STACK, OUT],
        };
        places.iter().map(|&place| self.room[place]).collect()
    }

    /// Refusal 9; it is only asked once the rows before it have passed.
    fn unusable(&self) -> bool {
        let (width, height) = self.sides;
        let rows_before = Table { sides: Some(self.sides), room: self.lent_room(), ..Table::default() };
        rows_before.answer() == 0
            && model::Walk::unusable(width, height, self.pending, &self.marks[..self.room[MARKS]], &self.stack[..self.room[STACK]])
    }

    /// Within our limits the vendor gives an error exactly where the table's rows 3 to 6 apply.
    pub fn vendor_agrees(&self) -> Result<(), String> {
        let none = Table::default;
        let small = self.sizes.0 <= 15 && self.sizes.1 <= 15;
        let taps = &self.weights;
        let (table, vendor) = match self.call {
            Call::Kernel if small => (none().kernel(self.sizes, taps), vendor::takes_kernel(self.sizes, taps)),
            Call::Median if small => (none().window(self.sizes.0), vendor::takes_window(self.sizes.0)),
            Call::Gaussian if taps.len() <= 63 => (none().taps(&[(taps.len(), taps)]), vendor::takes_taps(taps, taps)),
            Call::Start | Call::Canny => {
                let (low, high) = self.thresholds;
                (Table { thresholds: Some((low, high)), ..none() }, vendor::takes_thresholds(low, high))
            }
            _ => return Ok(()),
        };
        if (table.answer() == 0) == vendor {
            Ok(())
        } else {
            Err(format!("01 gives {}, the vendor takes it: {vendor}", table.answer()))
        }
    }
}

/// Mostly small sides, now and then the limit or none.
fn honest_sides(call: Call, random: &mut Random) -> (usize, usize) {
    if random.once_in(12) {
        let limits = [(640, 1), (1, 640), (640, 2), (640, 0), (0, 640), (0, 0)];
        let sides = random.pick(&limits);
        return if call == Call::Resolve { (sides.0.max(1), 1) } else { sides };
    }
    (1 + random.below(5), 1 + random.below(5))
}
