//! The calls of the static library, as include/kelontsira.h declares them, behind thin wrappers that take slices. Each wrapper keeps what
//! the header asks of a caller: pointers that are never null and buffers that cannot overlap.

#[link(name = "kelontsira", kind = "static")]
extern "C" {
    fn kelontsira_resolve_coord(coord: i64, side: usize, border: u8, place: *mut usize) -> u8;
    fn kelontsira_apply_kernel(
        pixels: *const u8, pixels_length: usize, width: usize, height: usize, kernel_width: usize, kernel_height: usize,
        weights: *const f32, weights_length: usize, border: u8, out: *mut u8, out_length: usize,
    ) -> u8;
    fn kelontsira_apply_separable_kernel(
        pixels: *const u8, pixels_length: usize, width: usize, height: usize, horizontal_taps: usize, vertical_taps: usize,
        horizontal: *const f32, horizontal_length: usize, vertical: *const f32, vertical_length: usize, border: u8, work: *mut f32,
        work_length: usize, out: *mut u8, out_length: usize,
    ) -> u8;
    fn kelontsira_gaussian_blur(
        pixels: *const u8, pixels_length: usize, width: usize, height: usize, taps: *const f32, taps_length: usize, border: u8,
        work: *mut f32, work_length: usize, out: *mut u8, out_length: usize,
    ) -> u8;
    fn kelontsira_box_blur(
        pixels: *const u8, pixels_length: usize, width: usize, height: usize, border: u8, work: *mut f32, work_length: usize,
        out: *mut u8, out_length: usize,
    ) -> u8;
    fn kelontsira_sharpen(
        pixels: *const u8, pixels_length: usize, width: usize, height: usize, border: u8, out: *mut u8, out_length: usize,
    ) -> u8;
    fn kelontsira_median(
        pixels: *const u8, pixels_length: usize, width: usize, height: usize, window: usize, border: u8, out: *mut u8,
        out_length: usize,
    ) -> u8;
    fn kelontsira_sobel(
        pixels: *const u8, pixels_length: usize, width: usize, height: usize, border: u8, out: *mut u8, out_length: usize,
    ) -> u8;
    fn kelontsira_sobel_byte(s: u32) -> u8;
    fn kelontsira_sobel_gradients(
        pixels: *const u8, pixels_length: usize, width: usize, height: usize, border: u8, gx: *mut i16, gx_length: usize,
        gy: *mut i16, gy_length: usize,
    ) -> u8;
    fn kelontsira_sector(gx: i16, gy: i16) -> u8;
    fn kelontsira_magnitude_of(s: u32) -> f32;
    fn kelontsira_gradient_magnitude(
        gx: *const i16, gx_length: usize, gy: *const i16, gy_length: usize, width: usize, height: usize, magnitude: *mut f32,
        magnitude_length: usize,
    ) -> u8;
    fn kelontsira_non_maximum_suppression(
        magnitude: *const f32, magnitude_length: usize, gx: *const i16, gx_length: usize, gy: *const i16, gy_length: usize,
        width: usize, height: usize, out: *mut f32, out_length: usize,
    ) -> u8;
    fn kelontsira_start(
        magnitudes: *const f32, magnitudes_length: usize, width: usize, height: usize, low: f32, high: f32, marks: *mut u8,
        marks_length: usize, stack: *mut u32, stack_length: usize, walk_width: *mut usize, walk_height: *mut usize,
        walk_pending: *mut usize,
    ) -> u8;
    fn kelontsira_slice(
        walk_width: *mut usize, walk_height: *mut usize, walk_pending: *mut usize, budget: usize, marks: *mut u8,
        marks_length: usize, stack: *mut u32, stack_length: usize, takes: *mut usize,
    ) -> u8;
    fn kelontsira_map(
        walk_width: usize, walk_height: usize, walk_pending: usize, marks: *const u8, marks_length: usize, stack: *const u32,
        stack_length: usize, out: *mut u8, out_length: usize,
    ) -> u8;
    fn kelontsira_canny(
        pixels: *const u8, pixels_length: usize, width: usize, height: usize, taps: *const f32, taps_length: usize, low: f32,
        high: f32, work: *mut f32, work_length: usize, magnitude: *mut f32, magnitude_length: usize, gx: *mut i16,
        gx_length: usize, gy: *mut i16, gy_length: usize, blurred: *mut u8, blurred_length: usize, marks: *mut u8,
        marks_length: usize, stack: *mut u32, stack_length: usize, map: *mut u8, map_length: usize, count: *mut usize,
    ) -> u8;
}

/// Width and height as they are handed over, right or wrong.
pub type Sides = (usize, usize);

/// The three numbers of a walk's state.
#[derive(Clone, Copy, Debug, PartialEq, Eq)]
pub struct Walk {
    pub width: usize,
    pub height: usize,
    pub pending: usize,
}

/// What a whole run is lent to work in.
pub struct Scratch<'a> {
    pub work: &'a mut [f32],
    pub magnitude: &'a mut [f32],
    pub gx: &'a mut [i16],
    pub gy: &'a mut [i16],
    pub blurred: &'a mut [u8],
    pub marks: &'a mut [u8],
    pub stack: &'a mut [u32],
}

pub fn resolve_coord(coord: i64, side: usize, border: u8, place: &mut usize) -> u8 {
    unsafe { kelontsira_resolve_coord(coord, side, border, place) }
}

pub fn apply_kernel(pixels: &[u8], sides: Sides, kernel: Sides, weights: &[f32], border: u8, out: &mut [u8]) -> u8 {
    unsafe {
        kelontsira_apply_kernel(
            pixels.as_ptr(), pixels.len(), sides.0, sides.1, kernel.0, kernel.1, weights.as_ptr(), weights.len(), border,
            out.as_mut_ptr(), out.len(),
        )
    }
}

/// The taps of a separable kernel: how many they are said to be, each way, and the lists themselves.
pub struct Taps<'a> {
    pub counts: (usize, usize),
    pub horizontal: &'a [f32],
    pub vertical: &'a [f32],
}

pub fn apply_separable_kernel(pixels: &[u8], sides: Sides, taps: &Taps, border: u8, work: &mut [f32], out: &mut [u8]) -> u8 {
    let (across, down) = (taps.horizontal, taps.vertical);
    unsafe {
        kelontsira_apply_separable_kernel(
            pixels.as_ptr(), pixels.len(), sides.0, sides.1, taps.counts.0, taps.counts.1, across.as_ptr(), across.len(),
            down.as_ptr(), down.len(), border, work.as_mut_ptr(), work.len(), out.as_mut_ptr(), out.len(),
        )
    }
}

pub fn gaussian_blur(pixels: &[u8], sides: Sides, taps: &[f32], border: u8, work: &mut [f32], out: &mut [u8]) -> u8 {
    unsafe {
        kelontsira_gaussian_blur(
            pixels.as_ptr(), pixels.len(), sides.0, sides.1, taps.as_ptr(), taps.len(), border, work.as_mut_ptr(), work.len(),
            out.as_mut_ptr(), out.len(),
        )
    }
}

pub fn box_blur(pixels: &[u8], sides: Sides, border: u8, work: &mut [f32], out: &mut [u8]) -> u8 {
    unsafe {
        kelontsira_box_blur(
            pixels.as_ptr(), pixels.len(), sides.0, sides.1, border, work.as_mut_ptr(), work.len(), out.as_mut_ptr(), out.len(),
        )
    }
}

pub fn sharpen(pixels: &[u8], sides: Sides, border: u8, out: &mut [u8]) -> u8 {
    unsafe { kelontsira_sharpen(pixels.as_ptr(), pixels.len(), sides.0, sides.1, border, out.as_mut_ptr(), out.len()) }
}

pub fn median(pixels: &[u8], sides: Sides, window: usize, border: u8, out: &mut [u8]) -> u8 {
    unsafe { kelontsira_median(pixels.as_ptr(), pixels.len(), sides.0, sides.1, window, border, out.as_mut_ptr(), out.len()) }
}

pub fn sobel(pixels: &[u8], sides: Sides, border: u8, out: &mut [u8]) -> u8 {
    unsafe { kelontsira_sobel(pixels.as_ptr(), pixels.len(), sides.0, sides.1, border, out.as_mut_ptr(), out.len()) }
}

pub fn sobel_byte(s: u32) -> u8 {
    unsafe { kelontsira_sobel_byte(s) }
}

pub fn sobel_gradients(pixels: &[u8], sides: Sides, border: u8, gx: &mut [i16], gy: &mut [i16]) -> u8 {
    unsafe {
        kelontsira_sobel_gradients(
            pixels.as_ptr(), pixels.len(), sides.0, sides.1, border, gx.as_mut_ptr(), gx.len(), gy.as_mut_ptr(), gy.len(),
        )
    }
}

pub fn sector(gx: i16, gy: i16) -> u8 {
    unsafe { kelontsira_sector(gx, gy) }
}

pub fn magnitude_of(s: u32) -> f32 {
    unsafe { kelontsira_magnitude_of(s) }
}

pub fn gradient_magnitude(gx: &[i16], gy: &[i16], sides: Sides, magnitude: &mut [f32]) -> u8 {
    unsafe {
        kelontsira_gradient_magnitude(
            gx.as_ptr(), gx.len(), gy.as_ptr(), gy.len(), sides.0, sides.1, magnitude.as_mut_ptr(), magnitude.len(),
        )
    }
}

pub fn non_maximum_suppression(magnitude: &[f32], gx: &[i16], gy: &[i16], sides: Sides, out: &mut [f32]) -> u8 {
    unsafe {
        kelontsira_non_maximum_suppression(
            magnitude.as_ptr(), magnitude.len(), gx.as_ptr(), gx.len(), gy.as_ptr(), gy.len(), sides.0, sides.1,
            out.as_mut_ptr(), out.len(),
        )
    }
}

pub fn start(magnitudes: &[f32], sides: Sides, thresholds: (f32, f32), marks: &mut [u8], stack: &mut [u32], walk: &mut Walk) -> u8 {
    unsafe {
        kelontsira_start(
            magnitudes.as_ptr(), magnitudes.len(), sides.0, sides.1, thresholds.0, thresholds.1, marks.as_mut_ptr(), marks.len(),
            stack.as_mut_ptr(), stack.len(), &mut walk.width, &mut walk.height, &mut walk.pending,
        )
    }
}

pub fn slice(walk: &mut Walk, budget: usize, marks: &mut [u8], stack: &mut [u32], takes: &mut usize) -> u8 {
    unsafe {
        kelontsira_slice(
            &mut walk.width, &mut walk.height, &mut walk.pending, budget, marks.as_mut_ptr(), marks.len(), stack.as_mut_ptr(),
            stack.len(), takes,
        )
    }
}

pub fn map(walk: &Walk, marks: &[u8], stack: &[u32], out: &mut [u8]) -> u8 {
    unsafe {
        kelontsira_map(
            walk.width, walk.height, walk.pending, marks.as_ptr(), marks.len(), stack.as_ptr(), stack.len(), out.as_mut_ptr(),
            out.len(),
        )
    }
}

/// Picture, sides, taps and thresholds of a whole run.
pub struct Frame<'a> {
    pub pixels: &'a [u8],
    pub sides: Sides,
    pub taps: &'a [f32],
    pub thresholds: (f32, f32),
}

pub fn canny(frame: &Frame, scratch: Scratch, map: &mut [u8], count: &mut usize) -> u8 {
    let s = scratch;
    unsafe {
        kelontsira_canny(
            frame.pixels.as_ptr(), frame.pixels.len(), frame.sides.0, frame.sides.1, frame.taps.as_ptr(), frame.taps.len(),
            frame.thresholds.0, frame.thresholds.1, s.work.as_mut_ptr(), s.work.len(), s.magnitude.as_mut_ptr(),
            s.magnitude.len(), s.gx.as_mut_ptr(), s.gx.len(), s.gy.as_mut_ptr(), s.gy.len(), s.blurred.as_mut_ptr(),
            s.blurred.len(), s.marks.as_mut_ptr(), s.marks.len(), s.stack.as_mut_ptr(), s.stack.len(), map.as_mut_ptr(),
            map.len(), count,
        )
    }
}
