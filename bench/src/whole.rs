//! The whole run beside the vendor's: every frame, tap count and pair of thresholds at 640 by 480, and how it grows with the picture.
//! Then the vendor's two texts of it beside each other.

use std::hint::black_box;

use crate::frames::{Frame, NAMES};
use crate::lent::Lent;
use crate::pairs::{Desk, Row};
use crate::timing::{alternate, median, span};
use crate::vendor;

pub const THRESHOLDS: [(f32, f32); 2] = [(20.0, 60.0), (50.0, 100.0)];

/// The sizes of the growth, the smallest first.
const SIZES: [(usize, usize); 4] = [(160, 120), (320, 240), (640, 480), (640, 640)];

const ROUNDS: usize = 21;

/// How often the growth goes through its sizes.
const PASSES: usize = 7;

pub fn rows(wanted: &str) -> Result<Vec<Row>, String> {
    let mut rows = Vec::new();
    for name in NAMES {
        let frame = Frame::named(name, 640, 480);
        let mut desk = Desk::new(&frame, wanted);
        for (count, sigma) in vendor::SIGMAS {
            for thresholds in THRESHOLDS {
                let what = format!("whole run, {count} taps, {} and {}", thresholds.0, thresholds.1);
                run(&mut desk, &what, ROUNDS, (count, sigma), thresholds)?;
            }
        }
        rows.extend(desk.rows());
    }
    Ok(rows)
}

/// The sizes come in turn, a few rounds of each at a time, so that a busy moment does not fall on one size only.
pub fn growth(wanted: &str) -> Result<Vec<Row>, String> {
    let mut rows = Vec::new();
    for name in NAMES {
        let frames = SIZES.map(|(width, height)| Frame::named(name, width, height));
        let mut desks = frames.each_ref().map(|frame| Desk::new(frame, wanted));
        for _ in 0..PASSES {
            for desk in &mut desks {
                let (width, height) = desk.frame.sides();
                // Small pictures are quick and their times uneven: more rounds.
                let rounds = if width < 640 { 9 } else { 3 };
                run(desk, &format!("whole run, {width} by {height}"), rounds, vendor::SIGMAS[1], THRESHOLDS[1])?;
            }
        }
        rows.extend(desks.into_iter().filter_map(Desk::joined));
    }
    Ok(rows)
}

/// One row of a whole run. Its map, its count and its cleared scratch are looked at.
fn run(desk: &mut Desk, what: &str, rounds: usize, taps: (usize, f32), thresholds: (f32, f32)) -> Result<(), String> {
    let frame = desk.frame;
    let filter = vendor::canny(taps.1, thresholds);
    let taps = vendor::taps(taps.0, taps.1)?;
    desk.pair(
        what,
        rounds,
        || vendor::apply(&filter, black_box(&frame.image)),
        |lent| lent.canny(black_box(frame), black_box(&taps), thresholds),
        |edges, lent| {
            let count = edges.pixels().iter().filter(|&&pixel| pixel == 255).count();
            edges.pixels() == lent.out && lent.count == count && lent.scratch_is_clear()
        },
    )
}

/// The vendor's untouched text beside the copy with the two arms exchanged, which all other rows are compared with: one row, to show that
/// they take the same time. It has more rounds, since the two are alike.
pub fn texts(wanted: &str) -> Vec<Row> {
    let frame = Frame::named("card-like", 640, 480);
    let (count, sigma) = vendor::SIGMAS[1];
    let (low, high) = THRESHOLDS[1];
    let what = format!("whole run, {count} taps, {low} and {high}, the vendor's two texts");
    if !what.contains(wanted) {
        return Vec::new();
    }
    let (untouched, exchanged) = (vendor::untouched_canny(sigma, (low, high)), vendor::canny(sigma, (low, high)));
    let first = || vendor::apply(&untouched, black_box(&frame.image));
    let second = || vendor::apply(&exchanged, black_box(&frame.image));
    // One untimed call of each, as in every row.
    black_box((first(), second()));
    let times = alternate(2 * ROUNDS, first, second);
    vec![Row { what, frame: frame.name, sides: frame.sides(), times }]
}

/// A line on what it takes to put 0 into the whole run's scratch, by itself.
pub fn clearing() -> String {
    let mut lent = Lent::new(640 * 480);
    let spans: Vec<f64> = (0..2 * ROUNDS).map(|_| span(&mut || black_box(&mut lent).clear_scratch())).collect();
    format!(
        "\nZeroing the seven scratch buffers of 640 by 480 by itself, by Rust's `fill`: {:.2} ms.\n",
        1000.0 * median(&spans)
    )
}
