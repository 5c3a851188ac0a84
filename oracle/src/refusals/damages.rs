//! What can be wrong with a request, or just barely right: each damage is one change at a boundary of document 01's table.

use crate::random::Random;
use crate::vendor;

use super::asked::{Asked, Call, BLURRED, GX, GY, MAGNITUDE, MARKS, OUT, STACK, WORK};

pub type Damage = fn(&mut Asked, &mut Random);

pub const DAMAGES: [(&str, Damage); 87] = [
    ("border 3", |a, _| a.border = 3),
    ("border 4 to 254", |a, r| a.border = r.between(4, 254) as u8),
    ("border 255", |a, _| a.border = 255),
    ("width 641", |a, _| a.sides.0 = 641),
    ("height 641", |a, _| a.sides.1 = 641),
    ("width 640", |a, _| a.sides.0 = 640),
    ("height 640", |a, _| a.sides.1 = 640),
    ("width 0", |a, _| a.sides.0 = 0),
    ("height 0", |a, _| a.sides.1 = 0),
    ("width greatest", |a, _| a.sides.0 = usize::MAX),
    ("height greatest", |a, _| a.sides.1 = usize::MAX),
    ("both greatest, the product wraps to 1", |a, _| a.sides = (usize::MAX, usize::MAX)),
    ("both 2 to the 32, the product wraps to 0", |a, _| a.sides = (1 << 32, 1 << 32)),
    ("a width whose product wraps to the area", |a, _| wrap(a)),
    ("a width that is right in its low 32 bits", |a, _| a.sides.0 |= 1 << 32),
    ("picture one short", |a, _| a.inputs[0] = a.inputs[0].saturating_sub(1)),
    ("picture one long", |a, _| a.inputs[0] += 1),
    ("picture empty", |a, _| a.inputs[0] = 0),
    ("gx one short", |a, _| a.inputs[1] = a.inputs[1].saturating_sub(1)),
    ("gx one long", |a, _| a.inputs[1] += 1),
    ("gy one short", |a, _| a.inputs[2] = a.inputs[2].saturating_sub(1)),
    ("gy one long", |a, _| a.inputs[2] += 1),
    ("gy empty", |a, _| a.inputs[2] = 0),
    ("sizes 15", |a, _| resize(a, (15, 15))),
    ("sizes 17", |a, _| resize(a, (17, 17))),
    ("first size 17", |a, _| resize(a, (17, 1))),
    ("second size 17", |a, _| resize(a, (1, 17))),
    ("sizes 16", |a, _| resize(a, (16, 16))),
    ("first size 2", |a, _| resize(a, (2, 1))),
    ("second size 2", |a, _| resize(a, (1, 2))),
    ("sizes 63", |a, _| resize(a, (63, 63))),
    ("sizes 65", |a, _| resize(a, (65, 65))),
    ("first size 65", |a, _| resize(a, (65, 1))),
    ("second size 65", |a, _| resize(a, (1, 65))),
    ("sizes 64", |a, _| resize(a, (64, 64))),
    ("sizes 0", |a, _| resize(a, (0, 0))),
    ("first size 0", |a, _| resize(a, (0, 3))),
    ("second size 0", |a, _| resize(a, (3, 0))),
    ("first size greatest", |a, _| a.sizes.0 = usize::MAX),
    ("second size greatest", |a, _| a.sizes.1 = usize::MAX),
    ("sizes whose product wraps to 1", |a, _| wrap_sizes(a)),
    ("weights one short", |a, _| a.weights.truncate(a.weights.len().saturating_sub(1))),
    ("weights one long", |a, _| a.weights.push(1.0)),
    ("weights empty", |a, _| a.weights.clear()),
    ("vertical one short", |a, _| a.vertical.truncate(a.vertical.len().saturating_sub(1))),
    ("vertical one long", |a, _| a.vertical.push(1.0)),
    ("first weight NaN", |a, _| set(&mut a.weights, 0, f32::NAN)),
    ("last weight infinite", |a, _| set_last(&mut a.weights, f32::INFINITY)),
    ("last weight minus infinite", |a, _| set_last(&mut a.weights, f32::NEG_INFINITY)),
    ("some weight a NaN of some pattern", |a, r| spoil(&mut a.weights, r)),
    ("last vertical NaN", |a, _| set_last(&mut a.vertical, f32::NAN)),
    ("some vertical a NaN of some pattern", |a, r| spoil(&mut a.vertical, r)),
    ("the vendor's taps of a vanishing sigma", |a, _| vanish(a)),
    ("last weight greatest", |a, _| set_last(&mut a.weights, f32::MAX)),
    ("low NaN", |a, _| a.thresholds.0 = f32::NAN),
    ("high NaN", |a, _| a.thresholds.1 = f32::NAN),
    ("low just below 0", |a, _| a.thresholds.0 = -1e-45),
    ("high just over 255", |a, _| a.thresholds.1 = 255.00002),
    ("high 255", |a, _| a.thresholds.1 = 255.0),
    ("low minus 0", |a, _| a.thresholds.0 = -0.0),
    ("low 0, high minus 0", |a, _| a.thresholds = (0.0, -0.0)),
    ("high infinite", |a, _| a.thresholds.1 = f32::INFINITY),
    ("low minus infinite", |a, _| a.thresholds.0 = f32::NEG_INFINITY),
    ("low just over high", |a, _| a.thresholds = (f32::from_bits(100f32.to_bits() + 1), 100.0)),
    ("low equal to high", |a, _| a.thresholds = (100.0, 100.0)),
    ("work one short", |a, _| shorten(a, WORK)),
    ("magnitude one short", |a, _| shorten(a, MAGNITUDE)),
    ("gx as output one short", |a, _| shorten(a, GX)),
    ("gy as output one short", |a, _| shorten(a, GY)),
    ("blurred one short", |a, _| shorten(a, BLURRED)),
    ("marks one short", |a, _| shorten(a, MARKS)),
    ("stack one short", |a, _| shorten(a, STACK)),
    ("out one short", |a, _| shorten(a, OUT)),
    ("no room at all", |a, _| a.room = [0; 8]),
    ("room exactly", |a, _| a.room = [a.area; 8]),
    ("budget 0", |a, _| a.budget = 0),
    ("budget greatest", |a, _| a.budget = usize::MAX),
    ("pending one too many", |a, _| a.pending = a.area + 1),
    ("pending greatest", |a, _| a.pending = usize::MAX),
    ("pending 1", |a, _| a.pending = 1),
    ("everything pending", |a, _| a.pending = a.area),
    ("a mark 4", |a, r| mark(a, r, 4)),
    ("a mark 255", |a, r| mark(a, r, 255)),
    ("all marks 1", |a, _| a.marks[..a.area].fill(1)),
    ("a pending index at the end", |a, r| index(a, r, a.area as u32)),
    ("a pending index far beyond", |a, r| index(a, r, u32::MAX)),
    ("a place beyond the pending ones out of range", |a, _| beyond(a)),
];

/// Sides over the limit whose wrapped product is the honest area.
fn wrap(a: &mut Asked) {
    if a.sides.1.is_multiple_of(2) {
        a.sides.0 = a.sides.0.wrapping_add(1 << 63);
    } else {
        a.sides = (a.sides.0.wrapping_add(1 << 63), a.sides.1.wrapping_mul(2));
    }
}

/// Odd sizes whose wrapped product is 1, with one weight.
fn wrap_sizes(a: &mut Asked) {
    a.sizes = (usize::MAX, usize::MAX);
    a.weights = vec![1.0];
}

/// Sizes with as many weights and taps as they ask for.
fn resize(a: &mut Asked, sizes: (usize, usize)) {
    a.sizes = sizes;
    let count = if a.call == Call::Kernel { sizes.0 * sizes.1 } else { sizes.0 };
    a.weights.resize(count, 0.25);
    a.vertical.resize(sizes.1, 0.25);
}

/// A sigma whose square is 0 in f32 gives the vendor NaN taps, which it does not take.
fn vanish(a: &mut Asked) {
    a.weights = vendor::gaussian_1d(1e-30, 3);
    a.sizes.0 = 3;
}

fn set(list: &mut [f32], place: usize, value: f32) {
    if let Some(entry) = list.get_mut(place) {
        *entry = value;
    }
}

fn set_last(list: &mut [f32], value: f32) {
    if let Some(entry) = list.last_mut() {
        *entry = value;
    }
}

/// One entry becomes a quiet or a signalling NaN, of either sign.
fn spoil(list: &mut [f32], r: &mut Random) {
    if !list.is_empty() {
        let place = r.below(list.len());
        list[place] = f32::from_bits(r.pick(&[0x7F80_0001, 0xFF80_0001, 0x7FC0_1234, 0xFFFF_FFFF, 0x7FBF_FFFF]));
    }
}

fn shorten(a: &mut Asked, place: usize) {
    a.room[place] = a.area.saturating_sub(1);
}

fn mark(a: &mut Asked, r: &mut Random, value: u8) {
    if a.area > 0 {
        let place = r.below(a.area);
        a.marks[place] = value;
    }
}

/// One of the pending places gets this index, or the first place where nothing is pending.
fn index(a: &mut Asked, r: &mut Random, value: u32) {
    let place = r.below(a.pending.clamp(1, a.area + 1));
    a.stack[place] = value;
}

fn beyond(a: &mut Asked) {
    let place = a.pending.min(a.area);
    a.stack[place] = u32::MAX;
}
