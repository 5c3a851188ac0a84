//! sector for all 4,165,681 pairs within 1020, beside the vendor's angle; a disagreement gets a mark that says whether its parity can
//! occur in a picture. Then any 16 bits beside document 01's rule.

use crate::model;
use crate::ours;
use crate::random::Random;
use crate::runner::{print_line, Plan, Totals};
use crate::vendor;

/// Pairs whose disagreement is printed, of each kind.
const SHOWN: u64 = 20;

/// Random pairs of any 16 bits in a run of factor 1.
const WIDE: usize = 2_000_000;

pub fn run(plan: &Plan) -> Totals {
    println!("sector: 4165681 pairs within 1020, then pairs of any 16 bits");
    let (mut totals, mut marks) = (Totals::default(), 0);
    for gx in -1020..=1020 {
        let column: Vec<i16> = (-1020..=1020).collect();
        let directions = vendor::magnitude(&vec![gx; column.len()], &column).1;
        for (&gy, &direction) in column.iter().zip(&directions) {
            totals.compared += 1;
            let (own, vendors) = (ours::sector(gx, gy), vendor::sector(direction));
            if own != model::sector(gx, gy) {
                totals.differ += 1;
                show(totals.differ, gx, gy, &format!("ours {own}, 01 gives {}", model::sector(gx, gy)));
            } else if own != vendors && (gx ^ gy) & 1 == 0 {
                totals.differ += 1;
                show(totals.differ, gx, gy, &format!("ours {own}, vendor {vendors}; one parity: it can occur"));
            } else if own != vendors {
                marks += 1;
                show(marks, gx, gy, &format!("ours {own}, vendor {vendors}; mark: parities differ, it cannot occur"));
            }
        }
    }
    println!("sector: {marks} marks (pairs that no picture has, on which the vendor's angle falls in another sector)");
    wide(plan, &mut totals);
    print_line("sector", &totals);
    totals
}

/// Pairs of any 16 bits beside 01's rule: random ones, and all that lie next to a line between two sectors. The vendor has no such pairs;
/// where its angle would fall elsewhere is only told.
fn wide(plan: &Plan, totals: &mut Totals) {
    let mut random = Random::new(plan.seed, 11, 0);
    let any = (0..WIDE * plan.factor).map(|_| (random.next() as i16, random.next() as i16));
    let mut elsewhere = Vec::new();
    for (gx, gy) in any.chain(near_lines()) {
        totals.compared += 1;
        let own = ours::sector(gx, gy);
        if own != model::sector(gx, gy) {
            totals.differ += 1;
            show(totals.differ, gx, gy, &format!("ours {own}, 01 gives {}", model::sector(gx, gy)));
        }
        let vendors = vendor::sector(f32::from(gy).atan2(f32::from(gx)));
        if own != vendors && gx.unsigned_abs().max(gy.unsigned_abs()) > 1020 {
            elsewhere.push((gx, gy, own, vendors));
        }
    }
    println!("sector: {} pairs beyond 1020 on which the vendor's angle would fall in another sector (told, not counted)", elsewhere.len());
    let reach = |&&(gx, gy, _, _): &&(i16, i16, u8, u8)| (gx.unsigned_abs().max(gy.unsigned_abs()), gx < 0, gy < 0);
    if let Some((gx, gy, own, vendors)) = elsewhere.iter().min_by_key(reach) {
        println!("  the smallest: ({gx}, {gy}): ours {own}, vendor {vendors}");
    }
}

/// All pairs within one step of a line between two sectors, on every side.
fn near_lines() -> impl Iterator<Item = (i16, i16)> {
    (-32_768..=32_767i64).flat_map(|long| {
        let short = (long as f64 * (2f64.sqrt() - 1.0)).round() as i64;
        [-1, 0, 1].into_iter().flat_map(move |step| {
            let short = short + step;
            [(long, short), (long, -short), (short, long), (-short, long)].map(|(x, y)| (x as i16, y as i16))
        })
    })
}

fn show(number: u64, gx: i16, gy: i16, what: &str) {
    if number <= SHOWN {
        println!("  ({gx}, {gy}): {what}");
    }
}
