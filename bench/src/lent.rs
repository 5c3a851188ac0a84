//! The buffers that our calls are lent: made once for a frame, and used for every call and every round on it.

use crate::frames::Frame;
use crate::ours::{Scratch, Sides, Walk};

/// Scratch, outputs and numbers of all calls.
pub struct Lent {
    pub work: Vec<f32>,
    pub magnitude: Vec<f32>,
    pub gx: Vec<i16>,
    pub gy: Vec<i16>,
    pub blurred: Vec<u8>,
    pub marks: Vec<u8>,
    pub stack: Vec<u32>,
    /// A byte picture or a map.
    pub out: Vec<u8>,
    /// What suppression leaves.
    pub thin: Vec<f32>,
    pub walk: Walk,
    pub count: usize,
}

impl Lent {
    pub fn new(area: usize) -> Lent {
        Lent {
            work: vec![0.0; area],
            magnitude: vec![0.0; area],
            gx: vec![0; area],
            gy: vec![0; area],
            blurred: vec![0; area],
            marks: vec![0; area],
            stack: vec![0; area],
            out: vec![0; area],
            thin: vec![0.0; area],
            walk: Walk { width: 0, height: 0, pending: 0 },
            count: 0,
        }
    }

    /// Leaves something in every buffer that no call leaves there, so that an output that is not written shows.
    pub fn spoil(&mut self) {
        for floats in [&mut self.work, &mut self.magnitude, &mut self.thin] {
            floats.fill(f32::NAN);
        }
        for bytes in [&mut self.blurred, &mut self.marks, &mut self.out] {
            bytes.fill(0xA5);
        }
        self.gx.fill(i16::MIN);
        self.gy.fill(i16::MIN);
        self.stack.fill(u32::MAX);
        self.count = usize::MAX;
    }

    /// Puts 0 into the seven buffers of the whole run's scratch.
    pub fn clear_scratch(&mut self) {
        self.work.fill(0.0);
        self.magnitude.fill(0.0);
        self.gx.fill(0);
        self.gy.fill(0);
        self.blurred.fill(0);
        self.marks.fill(0);
        self.stack.fill(0);
    }

    /// Whether those seven hold zero bits only.
    pub fn scratch_is_clear(&self) -> bool {
        let floats = self.work.iter().chain(&self.magnitude).all(|v| v.to_bits() == 0);
        let gradients = self.gx.iter().chain(&self.gy).all(|&v| v == 0);
        let bytes = self.blurred.iter().chain(&self.marks).all(|&v| v == 0);
        floats && gradients && bytes && self.stack.iter().all(|&v| v == 0)
    }

    /// Our whole run.
    pub fn canny(&mut self, frame: &Frame, taps: &[f32], thresholds: (f32, f32)) -> u8 {
        let asked = crate::ours::Frame { pixels: &frame.pixels, sides: frame.sides(), taps, thresholds };
        let scratch = Scratch {
            work: &mut self.work,
            magnitude: &mut self.magnitude,
            gx: &mut self.gx,
            gy: &mut self.gy,
            blurred: &mut self.blurred,
            marks: &mut self.marks,
            stack: &mut self.stack,
        };
        crate::ours::canny(&asked, scratch, &mut self.out, &mut self.count)
    }

    /// Our walk from its start to its end, in one slice, and its map. The first refusal, if there is one.
    pub fn hysteresis(&mut self, thin: &[f32], sides: Sides, thresholds: (f32, f32)) -> u8 {
        let started = crate::ours::start(thin, sides, thresholds, &mut self.marks, &mut self.stack, &mut self.walk);
        if started != 0 {
            return started;
        }
        let sliced = crate::ours::slice(&mut self.walk, sides.0 * sides.1, &mut self.marks, &mut self.stack, &mut self.count);
        if sliced != 0 {
            return sliced;
        }
        crate::ours::map(&self.walk, &self.marks, &self.stack, &mut self.out)
    }
}
