//! The stages, one after another, each with its own stream of random numbers.

mod canny;
mod filters;
mod forged;
mod gradients;
mod kernels;
mod magnitude;
mod resolve;
mod roots;
mod sector;
mod suppression;
mod taps;
mod untouched;
mod walk;

use crate::pictures::list;
use crate::refusals::Refusals;
use crate::runner::{run, Plan, Totals};

/// Fewer comparisons than this make a stage fail.
pub const LEAST: u64 = 20_000;

/// Random cases of a stage in a run of factor 1.
pub const RANDOM: usize = 40_000;

/// Runs every stage and returns the sums, and the number of stages that compared too little.
pub fn run_all(plan: &Plan) -> (Totals, usize) {
    let each = [
        run(&resolve::Resolve, 1, plan),
        run(&kernels::Kernels, 2, plan),
        run(&taps::Separable, 3, plan),
        run(&taps::Gaussian, 4, plan),
        run(&filters::BOX, 5, plan),
        run(&filters::SHARPEN, 6, plan),
        run(&gradients::Gradients, 7, plan),
        run(&filters::SOBEL, 8, plan),
        run(&magnitude::Magnitude, 9, plan),
        run(&roots::Roots, 10, plan),
        sector::run(plan),
        run(&suppression::Suppression, 12, plan),
        run(&walk::Hysteresis, 13, plan),
        run(&filters::MEDIAN, 14, plan),
        run(&canny::Canny, 15, plan),
        run(&forged::Forged, 16, plan),
        run(&Refusals, 17, plan),
    ];
    let short = each.iter().filter(|totals| totals.compared < LEAST).count();
    let sums = Totals { compared: each.iter().map(|t| t.compared).sum(), differ: each.iter().map(|t| t.differ).sum() };
    (sums, short)
}

/// An accepted call.
pub fn accepted(answer: u8) -> Result<(), String> {
    if answer == 0 {
        Ok(())
    } else {
        Err(format!("ours refuses {answer}, the vendor runs"))
    }
}

/// Our bytes beside the vendor's.
pub fn same_bytes(ours: &[u8], vendors: Option<Vec<u8>>) -> Result<(), String> {
    match vendors {
        None => Err("ours runs, the vendor gives an error".into()),
        Some(vendors) if ours == vendors => Ok(()),
        Some(vendors) => Err(format!("ours {} vendor {}", list(ours), list(&vendors))),
    }
}
