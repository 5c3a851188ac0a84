//! Each stage beside the vendor's, on every frame at 640 by 480, borders clamped. The filters take the frame itself; what comes after the
//! blur in a whole run takes what the stages before it make of the frame with 9 taps.

use std::hint::black_box;

use silvestre_core::filters::box_blur::BoxBlurFilter;
use silvestre_core::filters::canny_exchanged::{oracle_hysteresis, oracle_magnitude, oracle_non_maximum_suppression};
use silvestre_core::filters::convolution::{apply_kernel, BorderMode, Kernel};
use silvestre_core::filters::median::MedianFilter;
use silvestre_core::filters::sharpen::SharpenFilter;
use silvestre_core::filters::sobel::{oracle_sobel_gradients, SobelFilter};
use silvestre_core::SilvestreImage;

use crate::frames::{Frame, NAMES};
use crate::lent::Lent;
use crate::ours::{self, Sides};
use crate::pairs::{Desk, Row};
use crate::vendor::{self, same_bits, same_numbers, SIGMAS};
use crate::whole::THRESHOLDS;

const CLAMP: u8 = 1;

const ROUNDS: usize = 21;

/// The stages after the blur are quick and their times uneven: more rounds.
const QUICK_ROUNDS: usize = 45;

/// Windows of the median and how many rounds each has: the widest takes very long.
const WINDOWS: [(usize, usize); 3] = [(3, ROUNDS), (5, ROUNDS), (15, 5)];

/// A kernel that is not alike when flipped.
const EMBOSS: [f32; 9] = [-2.0, -1.0, 0.0, -1.0, 1.0, 1.0, 0.0, 1.0, 2.0];

type Done = Result<(), String>;

pub fn rows(wanted: &str) -> Result<Vec<Row>, String> {
    let mut rows = Vec::new();
    for name in NAMES {
        let frame = Frame::named(name, 640, 480);
        let mut desk = Desk::new(&frame, wanted);
        blurs(&mut desk)?;
        kernels(&mut desk)?;
        windows(&mut desk)?;
        let inside = Inside::of(&frame)?;
        gradients(&mut desk, &inside)?;
        magnitudes(&mut desk, &inside)?;
        walks(&mut desk, &inside)?;
        rows.extend(desk.rows());
    }
    Ok(by_stage(rows))
}

/// The rows of one stage together, its frames in their order.
fn by_stage(mut rows: Vec<Row>) -> Vec<Row> {
    let order: Vec<String> = rows.iter().filter(|row| row.frame == NAMES[0]).map(|row| row.what.clone()).collect();
    rows.sort_by_key(|row| order.iter().position(|what| *what == row.what));
    rows
}

/// A stage from the frame to a byte picture.
fn bytes(
    desk: &mut Desk,
    what: &str,
    rounds: usize,
    vendor: impl Fn(&SilvestreImage) -> SilvestreImage,
    ours: impl Fn(&[u8], Sides, &mut Lent) -> u8,
) -> Done {
    let frame = desk.frame;
    desk.pair(
        what,
        rounds,
        || vendor(black_box(&frame.image)),
        |lent| ours(black_box(&frame.pixels), frame.sides(), lent),
        |picture, lent| picture.pixels() == lent.out,
    )
}

fn blurs(desk: &mut Desk) -> Done {
    for (count, sigma) in SIGMAS {
        let filter = vendor::blur(sigma);
        let taps = vendor::taps(count, sigma)?;
        bytes(
            desk,
            &format!("gaussian, {count} taps"),
            ROUNDS,
            |image| vendor::apply(&filter, image),
            |pixels, sides, lent| ours::gaussian_blur(pixels, sides, &taps, CLAMP, &mut lent.work, &mut lent.out),
        )?;
    }
    let filter = BoxBlurFilter::new().expect("the vendor's box");
    bytes(
        desk,
        "box",
        ROUNDS,
        |image| vendor::apply(&filter, image),
        |pixels, sides, lent| ours::box_blur(pixels, sides, CLAMP, &mut lent.work, &mut lent.out),
    )
}

fn kernels(desk: &mut Desk) -> Done {
    let filter = SharpenFilter::new().expect("the vendor's sharpen");
    bytes(
        desk,
        "sharpen",
        ROUNDS,
        |image| vendor::apply(&filter, image),
        |pixels, sides, lent| ours::sharpen(pixels, sides, CLAMP, &mut lent.out),
    )?;
    let wide: Vec<f32> = (0..25).map(|i| (i * 7 % 11) as f32 / 32.0 - 0.125).collect();
    for (side, weights) in [(3, &EMBOSS[..]), (5, &wide[..])] {
        let kernel = Kernel::square(weights.to_vec(), side).expect("a kernel that the vendor takes");
        bytes(
            desk,
            &format!("apply_kernel, {side} by {side}"),
            ROUNDS,
            |image| apply_kernel(image, &kernel, BorderMode::Clamp).expect("a picture that the vendor takes"),
            |pixels, sides, lent| ours::apply_kernel(pixels, sides, (side, side), weights, CLAMP, &mut lent.out),
        )?;
    }
    Ok(())
}

fn windows(desk: &mut Desk) -> Done {
    for (window, rounds) in WINDOWS {
        let filter = MedianFilter::new(window).expect("a window that the vendor takes");
        bytes(
            desk,
            &format!("median, {window} by {window}"),
            rounds,
            |image| vendor::apply(&filter, image),
            |pixels, sides, lent| ours::median(pixels, sides, window, CLAMP, &mut lent.out),
        )?;
    }
    let filter = SobelFilter::new();
    bytes(
        desk,
        "sobel, bytes",
        ROUNDS,
        |image| vendor::apply(&filter, image),
        |pixels, sides, lent| ours::sobel(pixels, sides, CLAMP, &mut lent.out),
    )
}

/// What stands between the stages of a whole run with 9 taps, as each side holds it.
struct Inside {
    blurred: SilvestreImage,
    floats: (Vec<f32>, Vec<f32>),
    whole: (Vec<i16>, Vec<i16>),
    magnitude: Vec<f32>,
    direction: Vec<f32>,
    thin: Vec<f32>,
}

impl Inside {
    /// By the vendor's stages; the gradients are whole numbers, and ours holds them as such.
    fn of(frame: &Frame) -> Result<Inside, String> {
        let blurred = vendor::apply(&vendor::blur(SIGMAS[1].1), &frame.image);
        let floats = oracle_sobel_gradients(&blurred, BorderMode::Clamp);
        let whole = (numbers(&floats.0), numbers(&floats.1));
        if !same_numbers(&floats.0, &whole.0) || !same_numbers(&floats.1, &whole.1) {
            return Err(format!("the vendor's gradients of the {} frame are not whole numbers", frame.name));
        }
        let (magnitude, direction) = oracle_magnitude(&floats.0, &floats.1);
        let thin = oracle_non_maximum_suppression(&magnitude, &direction, frame.width, frame.height);
        Ok(Inside { blurred, floats, whole, magnitude, direction, thin })
    }
}

fn numbers(floats: &[f32]) -> Vec<i16> {
    floats.iter().map(|&v| v as i16).collect()
}

fn gradients(desk: &mut Desk, inside: &Inside) -> Done {
    let sides = desk.frame.sides();
    desk.pair(
        "sobel, gradients",
        QUICK_ROUNDS,
        || oracle_sobel_gradients(black_box(&inside.blurred), BorderMode::Clamp),
        |lent| ours::sobel_gradients(black_box(inside.blurred.pixels()), sides, CLAMP, &mut lent.gx, &mut lent.gy),
        |(gx, gy), lent| same_numbers(gx, &lent.gx) && same_numbers(gy, &lent.gy),
    )
}

/// Magnitude and suppression, each and both: the vendor works out a direction in the one, we a sector in the other.
fn magnitudes(desk: &mut Desk, inside: &Inside) -> Done {
    let sides = desk.frame.sides();
    let ((fx, fy), (gx, gy)) = (&inside.floats, &inside.whole);
    desk.pair(
        "magnitude (the vendor's with direction)",
        QUICK_ROUNDS,
        || oracle_magnitude(black_box(fx), black_box(fy)),
        |lent| ours::gradient_magnitude(black_box(gx), black_box(gy), sides, &mut lent.magnitude),
        |(magnitude, _), lent| same_bits(magnitude, &lent.magnitude),
    )?;
    desk.pair(
        "suppression (ours with sector)",
        QUICK_ROUNDS,
        || oracle_non_maximum_suppression(black_box(&inside.magnitude), black_box(&inside.direction), sides.0, sides.1),
        |lent| ours::non_maximum_suppression(black_box(&inside.magnitude), black_box(gx), black_box(gy), sides, &mut lent.thin),
        |thin, lent| same_bits(thin, &lent.thin),
    )?;
    desk.pair(
        "magnitude and suppression together",
        QUICK_ROUNDS,
        || {
            let (magnitude, direction) = oracle_magnitude(black_box(fx), black_box(fy));
            oracle_non_maximum_suppression(&magnitude, &direction, sides.0, sides.1)
        },
        |lent| {
            let first = ours::gradient_magnitude(black_box(gx), black_box(gy), sides, &mut lent.magnitude);
            first | ours::non_maximum_suppression(&lent.magnitude, gx, gy, sides, &mut lent.thin)
        },
        |thin, lent| same_bits(thin, &lent.thin),
    )
}

fn walks(desk: &mut Desk, inside: &Inside) -> Done {
    let sides = desk.frame.sides();
    for (low, high) in THRESHOLDS {
        desk.pair(
            &format!("hysteresis, {low} and {high}"),
            QUICK_ROUNDS,
            || oracle_hysteresis(black_box(&inside.thin), sides.0, sides.1, low, high),
            |lent| lent.hysteresis(black_box(&inside.thin), sides, (low, high)),
            |map, lent| *map == lent.out && lent.walk.pending == 0,
        )?;
    }
    Ok(())
}
