//! Writes a sample of the vendor's answers as a text of numbers, for a program that replays it against the proved crates without Rust.
//! Suppression and the whole run are those of the copy of canny.rs with the diagonal arms exchanged.

use std::fmt::Write;

use crate::numbers;
use crate::pictures::Picture;
use crate::random::Random;
use crate::vendor::{self, Text};

/// Where the sample goes, seen from the folder of the oracle.
const FILE: &str = "../crates/vectors_run/stdin";

const SHAPES: [(usize, usize); 25] = [
    (1, 1), (1, 2), (2, 1), (2, 2), (3, 3), (1, 9), (9, 1), (5, 4), (4, 5), (7, 3), (3, 7), (2, 11), (11, 2), (5, 5), (13, 8), (8, 13),
    (1, 31), (31, 1), (3, 1), (1, 3), (6, 6), (9, 9), (17, 23), (20, 20), (0, 3),
];

const ONE_NAN: u32 = 2_143_289_344;

/// One case: a line of the text.
struct Line {
    stage: u32,
    sides: (usize, usize),
    border: u8,
    p: u32,
    q: u32,
    inputs: [Vec<u32>; 3],
    expected: Vec<u32>,
}

/// Writes the file and says how many cases it has.
pub fn write(seed: u64) -> Result<usize, String> {
    let mut text = String::from("# A sample of the vendor's answers, stage by stage, made by `oracle/run vectors` from the published\n");
    text += "# Rust, with the two diagonal arms of canny.rs exchanged, and never from our library.\n";
    let _ = writeln!(text, "# Seed {seed}. Each line: stage, width, height, border, P, Q, three input lists and the expected list,");
    text += "# a list being its count and its numbers; f32 by bits (a NaN as 2143289344), i16 by its 16 bits.\n";
    let mut count = 0;
    for stage in 1..=14 {
        for (index, &sides) in SHAPES.iter().enumerate() {
            let mut random = Random::new(seed, 1000 + u64::from(stage), index as u64);
            let line = case(stage, index, sides, &mut random);
            text += &show(&line);
            count += 1;
        }
    }
    std::fs::create_dir_all("../crates/vectors_run").map_err(|e| format!("{FILE}: {e}"))?;
    std::fs::write(FILE, text).map_err(|e| format!("{FILE}: {e}"))?;
    Ok(count)
}

fn show(line: &Line) -> String {
    let mut text = format!("{} {} {} {} {} {}", line.stage, line.sides.0, line.sides.1, line.border, line.p, line.q);
    for list in line.inputs.iter().chain([&line.expected]) {
        let _ = write!(text, " {}", list.len());
        for number in list {
            let _ = write!(text, " {number}");
        }
    }
    text.push('\n');
    text
}

fn case(stage: u32, index: usize, sides: (usize, usize), random: &mut Random) -> Line {
    let picture = Picture::sized(sides.0, sides.1, random);
    let border = numbers::BORDERS[index % 3];
    let mut line = Line { stage, sides, border, p: 0, q: 0, inputs: [vec![], vec![], vec![]], expected: vec![] };
    match stage {
        1 => resolve(&mut line, random),
        2..=4 => convolution(&mut line, &picture, random),
        5..=9 => filter(&mut line, &picture, random),
        10..=12 => gradient(&mut line, random),
        _ => edges(&mut line, &picture, random),
    }
    line
}

fn resolve(line: &mut Line, random: &mut Random) {
    let most = if random.once_in(2) { 5 } else { 640 };
    let side = 1 + random.below(most);
    let coord = match random.below(4) {
        0 => random.next() as i64,
        1 => random.pick(&[i64::MIN, i64::MAX, -1, 0, side as i64 - 1, side as i64, i64::MIN + 1]),
        _ => random.between(-3 * side as i64, 3 * side as i64),
    };
    line.sides = (0, 0);
    line.p = side as u32;
    line.inputs[0] = vec![coord as u32, (coord >> 32) as u32];
    let place = vendor::resolve_coord(coord, 0, side, 1, line.border).map_or(side, |(x, _)| x);
    line.expected = vec![place as u32];
}

fn convolution(line: &mut Line, picture: &Picture, random: &mut Random) {
    line.inputs[0] = wide(&picture.pixels);
    let answer = match line.stage {
        2 => {
            let sides = (numbers::odd(15, random), numbers::odd(15, random));
            let weights = numbers::weights(sides.0 * sides.1, random);
            (line.p, line.q) = (sides.0 as u32, sides.1 as u32);
            line.inputs[1] = bits(&weights);
            vendor::apply_kernel(picture, sides, &weights, line.border)
        }
        3 => {
            let (across, down) = numbers::two_kinds(random);
            let (horizontal, vertical) = (taps(across, random), taps(down, random));
            line.inputs[1] = bits(&horizontal);
            line.inputs[2] = bits(&vertical);
            vendor::separable(picture, &horizontal, &vertical, line.border)
        }
        _ if random.once_in(2) => {
            let sigma = numbers::sigma(random);
            line.inputs[1] = bits(&vendor::taps(sigma).expect("taps of an ordinary sigma"));
            vendor::gaussian(picture, sigma, line.border)
        }
        _ => {
            let kind = numbers::kind(random);
            let taps = taps(kind, random);
            line.inputs[1] = bits(&taps);
            vendor::separable(picture, &taps, &taps, line.border)
        }
    };
    line.expected = wide(&answer.expect("the vendor takes these"));
}

fn taps(kind: usize, random: &mut Random) -> Vec<f32> {
    let count = numbers::odd(63, random);
    numbers::weights_of(kind, count, random)
}

fn filter(line: &mut Line, picture: &Picture, random: &mut Random) {
    line.inputs[0] = wide(&picture.pixels);
    let border = line.border;
    let answer = match line.stage {
        5 => vendor::box_blur(picture, border),
        6 => vendor::sharpen(picture, border),
        7 => {
            line.p = numbers::odd(15, random) as u32;
            vendor::median(picture, line.p as usize, border)
        }
        8 => vendor::sobel(picture, border),
        _ => {
            let (gx, gy) = vendor::sobel_gradients(picture, border);
            line.expected = gx.iter().chain(&gy).map(|&g| u32::from(g as i16 as u16)).collect();
            return;
        }
    };
    line.expected = wide(&answer.expect("the vendor takes these"));
}

fn gradient(line: &mut Line, random: &mut Random) {
    line.border = 1;
    let (width, height) = line.sides;
    let n = width * height;
    let (gx, gy) = numbers::gradient_pairs(n, random);
    let (magnitude, direction) = vendor::magnitude(&gx, &gy);
    let lists = [halves(&gx), halves(&gy)];
    match line.stage {
        10 => {
            line.expected = bits(&magnitude);
            line.inputs = [lists[0].clone(), lists[1].clone(), vec![]];
        }
        11 => {
            line.sides = (n, 1);
            line.expected = direction.iter().map(|&d| u32::from(vendor::sector(d))).collect();
            line.inputs = [lists[0].clone(), lists[1].clone(), vec![]];
        }
        _ => {
            let lent = if random.once_in(2) { magnitude } else { numbers::magnitudes(n, random) };
            line.expected = bits(&vendor::suppression(Text::Exchanged, &lent, &gx, &gy, width, height));
            line.inputs = [bits(&lent), lists[0].clone(), lists[1].clone()];
        }
    }
}

fn edges(line: &mut Line, picture: &Picture, random: &mut Random) {
    line.border = 1;
    let (width, height) = line.sides;
    let (low, high) = numbers::thresholds(random);
    (line.p, line.q) = (low.to_bits(), high.to_bits());
    if line.stage == 13 {
        let magnitudes = numbers::magnitudes(width * height, random);
        line.expected = wide(&vendor::hysteresis(&magnitudes, width, height, low, high));
        line.inputs[0] = bits(&magnitudes);
        return;
    }
    let sigma = numbers::sigma(random);
    line.inputs[0] = wide(&picture.pixels);
    line.inputs[1] = bits(&vendor::taps(sigma).expect("taps of an ordinary sigma"));
    line.expected = wide(&vendor::canny(Text::Exchanged, picture, sigma, low, high).expect("the vendor takes these"));
}

fn wide(values: &[u8]) -> Vec<u32> {
    values.iter().map(|&v| u32::from(v)).collect()
}

fn halves(values: &[i16]) -> Vec<u32> {
    values.iter().map(|&v| u32::from(v as u16)).collect()
}

fn bits(values: &[f32]) -> Vec<u32> {
    values.iter().map(|v| if v.is_nan() { ONE_NAN } else { v.to_bits() }).collect()
}
