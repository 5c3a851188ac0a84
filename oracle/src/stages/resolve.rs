//! resolve_coord: each side from 1 to 640 with the coordinates around it, and random ones of all 64 bits.

use crate::numbers::BORDERS;
use crate::ours;
use crate::pictures::MAX_SIDE;
use crate::random::Random;
use crate::runner::{Case, Stage};
use crate::vendor;

use super::RANDOM;

pub struct Resolve;

/// A point and the sides of its picture; `sweep` also tries every x up to three sides away.
pub struct Point {
    x: i64,
    y: i64,
    width: usize,
    height: usize,
    border: u8,
    sweep: bool,
}

impl Stage for Resolve {
    type Case = Point;

    fn name(&self) -> &'static str {
        "resolve_coord"
    }

    fn count(&self, factor: usize) -> usize {
        3 * MAX_SIDE + RANDOM * factor
    }

    fn case(&self, index: usize, random: &mut Random) -> Point {
        let border = BORDERS[index % 3];
        if index < 3 * MAX_SIDE {
            return Point { x: 0, y: 0, width: 1 + index / 3, height: 1, border, sweep: true };
        }
        let (width, height) = (1 + random.below(MAX_SIDE), 1 + random.below(MAX_SIDE));
        Point { x: coordinate(width, random), y: coordinate(height, random), width, height, border, sweep: false }
    }
}

fn coordinate(side: usize, random: &mut Random) -> i64 {
    match random.below(4) {
        0 => random.next() as i64,
        1 => random.pick(&[i64::MIN, i64::MIN + 1, i64::MAX, i64::MAX - 1, -1, 0, 1 << 32, -(1 << 32), i64::from(i32::MIN)]),
        _ => random.between(-4 * side as i64, 4 * side as i64),
    }
}

impl Case for Point {
    fn compare(&self, random: &mut Random) -> Result<u64, String> {
        if !self.sweep {
            return self.compare_point(random);
        }
        let reach = 3 * self.width as i64 + 2;
        for x in -reach..=reach {
            Point { x, sweep: false, ..*self }.compare_point(random).map_err(|how| format!("x {x}: {how}"))?;
        }
        Ok(2 * reach as u64 + 1)
    }

    fn show(&self) -> String {
        format!("x {} y {} in {} by {}, border {}", self.x, self.y, self.width, self.height, self.border)
    }
}

impl Point {
    fn compare_point(&self, random: &mut Random) -> Result<u64, String> {
        let place = |coord, side, poison: u64| {
            let mut place = poison as usize;
            let answer = ours::resolve_coord(coord, side, self.border, &mut place);
            super::accepted(answer).map(|()| if place == side { None } else { Some(place) })
        };
        let x = place(self.x, self.width, random.next())?;
        let y = place(self.y, self.height, random.next())?;
        let ours = x.zip(y);
        let vendors = vendor::resolve_coord(self.x, self.y, self.width, self.height, self.border);
        if ours == vendors {
            Ok(1)
        } else {
            Err(format!("ours {ours:?} vendor {vendors:?}"))
        }
    }
}
