//! The buffers and numbers that a request lends, all poisoned, and the call itself.

use crate::lent::Lent;
use crate::ours::{self, Frame, Taps, Walk};
use crate::random::Random;
use crate::room::Room;

use super::asked::{Asked, Call, BLURRED, GX, GY, MAGNITUDE, MARKS, OUT, STACK, WORK};

pub struct Bench {
    pixels: Lent<u8>,
    magnitudes: Lent<f32>,
    gx_in: Lent<i16>,
    gy_in: Lent<i16>,
    weights: Lent<f32>,
    vertical: Lent<f32>,
    room: Room,
    out: Lent<u8>,
    walk: Walk,
    number: usize,
    walk_before: Walk,
    number_before: usize,
}

impl Bench {
    pub fn new(asked: &Asked, random: &mut Random) -> Bench {
        let walking = matches!(asked.call, Call::Slice | Call::Map);
        let (marks, stack) = if walking {
            let (marks, stack) = (&asked.marks[..asked.room[MARKS]], &asked.stack[..asked.room[STACK]]);
            (Lent::holding(marks, random), Lent::holding(stack, random))
        } else {
            (Lent::poisoned(asked.room[MARKS], random), Lent::poisoned(asked.room[STACK], random))
        };
        let walk = if walking {
            Walk { width: asked.sides.0, height: asked.sides.1, pending: asked.pending }
        } else {
            Walk { width: random.next() as usize, height: random.next() as usize, pending: random.next() as usize }
        };
        let number = random.next() as usize;
        Bench {
            pixels: Lent::poisoned(asked.inputs[0], random),
            magnitudes: Lent::poisoned(asked.inputs[0], random),
            gx_in: Lent::poisoned(asked.inputs[1], random),
            gy_in: Lent::poisoned(asked.inputs[2], random),
            weights: Lent::holding(&asked.weights, random),
            vertical: Lent::holding(&asked.vertical, random),
            room: Room {
                work: Lent::poisoned(asked.room[WORK], random),
                magnitude: Lent::poisoned(asked.room[MAGNITUDE], random),
                gx: Lent::poisoned(asked.room[GX], random),
                gy: Lent::poisoned(asked.room[GY], random),
                blurred: Lent::poisoned(asked.room[BLURRED], random),
                marks,
                stack,
            },
            out: Lent::poisoned(asked.room[OUT], random),
            walk,
            number,
            walk_before: walk,
            number_before: number,
        }
    }

    /// Makes the call and returns its answer.
    pub fn call(&mut self, asked: &Asked) -> u8 {
        match asked.call {
            Call::Resolve => ours::resolve_coord(asked.coord, asked.sides.0, asked.border, &mut self.number),
            Call::Start | Call::Slice | Call::Map => self.call_walk(asked),
            Call::Canny => self.call_canny(asked),
            Call::Gradients | Call::Magnitude | Call::Suppression => self.call_gradient(asked),
            _ => self.call_filter(asked),
        }
    }

    fn call_filter(&mut self, asked: &Asked) -> u8 {
        let (sides, border) = (asked.sides, asked.border);
        let (pixels, weights, vertical) = (self.pixels.lend(), self.weights.lend(), self.vertical.lend());
        let (work, out) = (self.room.work.lend_mut(), self.out.lend_mut());
        match asked.call {
            Call::Kernel => ours::apply_kernel(pixels, sides, asked.sizes, weights, border, out),
            Call::Separable => {
                let taps = Taps { counts: asked.sizes, horizontal: weights, vertical };
                ours::apply_separable_kernel(pixels, sides, &taps, border, work, out)
            }
            Call::Gaussian => ours::gaussian_blur(pixels, sides, weights, border, work, out),
            Call::Box => ours::box_blur(pixels, sides, border, work, out),
            Call::Sharpen => ours::sharpen(pixels, sides, border, out),
            Call::Median => ours::median(pixels, sides, asked.sizes.0, border, out),
            _ => ours::sobel(pixels, sides, border, out),
        }
    }

    fn call_gradient(&mut self, asked: &Asked) -> u8 {
        let sides = asked.sides;
        let (gx, gy) = (self.gx_in.lend(), self.gy_in.lend());
        match asked.call {
            Call::Gradients => {
                ours::sobel_gradients(self.pixels.lend(), sides, asked.border, self.room.gx.lend_mut(), self.room.gy.lend_mut())
            }
            Call::Magnitude => ours::gradient_magnitude(gx, gy, sides, self.room.magnitude.lend_mut()),
            _ => ours::non_maximum_suppression(self.magnitudes.lend(), gx, gy, sides, self.room.magnitude.lend_mut()),
        }
    }

    fn call_walk(&mut self, asked: &Asked) -> u8 {
        let Bench { room: Room { marks, stack, .. }, walk, number, .. } = self;
        match asked.call {
            Call::Start => {
                let magnitudes = self.magnitudes.lend();
                ours::start(magnitudes, asked.sides, asked.thresholds, marks.lend_mut(), stack.lend_mut(), walk)
            }
            Call::Slice => ours::slice(walk, asked.budget, marks.lend_mut(), stack.lend_mut(), number),
            _ => ours::map(walk, marks.lend(), stack.lend(), self.out.lend_mut()),
        }
    }

    fn call_canny(&mut self, asked: &Asked) -> u8 {
        let frame = Frame {
            pixels: self.pixels.lend(),
            sides: asked.sides,
            taps: self.weights.lend(),
            thresholds: asked.thresholds,
        };
        ours::canny(&frame, self.room.lend(), self.out.lend_mut(), &mut self.number)
    }

    /// Nothing that was lent has changed: no entry, no guard, no number.
    pub fn unchanged(&self) -> Result<(), String> {
        self.same_outside(0)?;
        if (self.walk, self.number) != (self.walk_before, self.number_before) {
            return Err("a refusal changed a lent number".into());
        }
        Ok(())
    }

    /// Nothing has changed but what an accepted call writes.
    pub fn only_outputs_changed(&self, asked: &Asked) -> Result<(), String> {
        let written = if asked.call == Call::Resolve { 0 } else { asked.sides.0 * asked.sides.1 };
        self.same_outside(written)?;
        let walks = matches!(asked.call, Call::Start | Call::Slice);
        let numbers = matches!(asked.call, Call::Resolve | Call::Slice | Call::Canny);
        if !walks && self.walk != self.walk_before || !numbers && self.number != self.number_before {
            return Err("a number changed that the call does not write".into());
        }
        if asked.call == Call::Map {
            self.room.marks.unchanged("marks")?;
            self.room.stack.unchanged("stack")?;
        }
        Ok(())
    }

    /// Inputs unchanged, and the rest unchanged but for the first `n` entries.
    fn same_outside(&self, n: usize) -> Result<(), String> {
        self.pixels.unchanged("pixels")?;
        self.magnitudes.unchanged("magnitudes")?;
        self.gx_in.unchanged("gx as input")?;
        self.gy_in.unchanged("gy as input")?;
        self.weights.unchanged("weights")?;
        self.vertical.unchanged("vertical taps")?;
        self.room.same_outside(n)?;
        self.out.same_outside(n, "out")
    }
}
