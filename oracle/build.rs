//! Brings the vendor's published texts into the build, unchanged, with accessors appended below them, canny.rs a second time with two
//! arms exchanged, and names the static library to link. Nothing of those texts is kept in the repository.

use std::env;
use std::fs;
use std::ops::Range;
use std::path::{Path, PathBuf};

/// The folders and files whose text is compiled, by their place in the vendor's tree.
const TEXTS: [(&str, &str); 8] = [
    ("filters", "box_blur"),
    ("filters", "canny"),
    ("filters", "convolution"),
    ("filters", "gaussian"),
    ("filters", "median"),
    ("filters", "sharpen"),
    ("filters", "sobel"),
    ("effects", "grayscale"),
];

/// Where the magnitude loop of canny.rs starts and what follows it. The text between the two is lifted into a function.
const LOOP_START: &str = "let mut magnitude = vec![0.0_f32; len];";
const LOOP_END: &str = "// 4. Non-maximum suppression.";

/// Where canny.rs chooses the two neighbours, and the two arms there whose bodies change places in the copy: of 45, and of all that is
/// left, which is 135.
const CHOICE: &str = "fn gradient_neighbors(";
const ARMS: [&str; 2] = ["45 => {", "_ => {"];

fn main() {
    println!("cargo:rerun-if-changed=build.rs");
    bring_texts();
    name_library();
}

fn bring_texts() {
    println!("cargo:rerun-if-env-changed=SILVESTRE_SRC");
    let folder = match env::var_os("SILVESTRE_SRC") {
        Some(named) if !named.is_empty() => PathBuf::from(named),
        _ => manifest_folder().join("../../shared/docs/src"),
    };
    let out = PathBuf::from(env::var_os("OUT_DIR").expect("cargo sets OUT_DIR"));
    for group in ["filters", "effects"] {
        let mut modules = String::new();
        for (_, name) in TEXTS.iter().filter(|(of, _)| *of == group) {
            let text = read_text(&folder, group, name);
            let below = appended(name, &text);
            modules += &module(&out, group, name, &text, &below);
            if *name == "canny" {
                modules += &module(&out, group, "canny_exchanged", &exchanged(&text), &below);
            }
        }
        write(&out.join(format!("{group}.rs")), &modules);
    }
}

/// Writes a text with what stands below it as a module of its group, and answers the line that names the module.
fn module(out: &Path, group: &str, name: &str, text: &str, below: &str) -> String {
    let file = out.join(format!("{group}_{name}.rs"));
    write(&file, &format!("{text}\n{below}"));
    format!("#[path = {file:?}]\npub mod {name};\n")
}

/// The published text of one file, under its flattened name or at its place in a tree.
fn read_text(folder: &Path, group: &str, name: &str) -> String {
    let places = [
        format!("src--silvestre-core--src--{group}--{name}.rs.txt"),
        format!("silvestre-core/src/{group}/{name}.rs"),
        format!("src/{group}/{name}.rs"),
        format!("{group}/{name}.rs"),
    ];
    for place in &places {
        let path = folder.join(place);
        if path.is_file() {
            println!("cargo:rerun-if-changed={}", path.display());
            return fs::read_to_string(&path).unwrap_or_else(|e| stop(&format!("{}: {e}", path.display())));
        }
    }
    stop(&format!(
        "the published text of {group}/{name}.rs is not in {}; set SILVESTRE_SRC to the folder that has it as {}",
        folder.display(),
        places.join(" or ")
    ))
}

/// What is written below one text: functions that hand its private items to the oracle, and the lifted loop of canny.rs.
fn appended(name: &str, text: &str) -> String {
    match name {
        "canny" => {
            for needed in ["fn non_maximum_suppression(", "fn normalize_angle(", "fn hysteresis("] {
                need(text, name, needed);
            }
            format!("{CANNY}{}", lifted_loop(text))
        }
        "convolution" => {
            need(text, name, "fn resolve_coord(");
            CONVOLUTION.to_string()
        }
        "gaussian" => {
            need(text, name, "fn gaussian_1d(");
            GAUSSIAN.to_string()
        }
        "sobel" => {
            need(text, name, "fn sobel_gradients(");
            SOBEL.to_string()
        }
        _ => String::new(),
    }
}

const CONVOLUTION: &str = "
// ---- Appended by oracle/build.rs.
pub fn oracle_resolve_coord(x: i64, y: i64, width: u32, height: u32, border: BorderMode) -> Option<(usize, usize)> {
    resolve_coord(x, y, width, height, border)
}
";

const SOBEL: &str = "
// ---- Appended by oracle/build.rs.
pub fn oracle_sobel_gradients(image: &SilvestreImage, border: BorderMode) -> (Vec<f32>, Vec<f32>) {
    sobel_gradients(image, border)
}
";

const GAUSSIAN: &str = "
// ---- Appended by oracle/build.rs.
pub fn oracle_gaussian_1d(sigma: f32, size: usize) -> Vec<f32> {
    gaussian_1d(sigma, size)
}

pub fn oracle_taps_of(filter: &GaussianFilter) -> &[f32] {
    filter.kernel.horizontal()
}
";

const CANNY: &str = "
// ---- Appended by oracle/build.rs.
pub fn oracle_non_maximum_suppression(magnitude: &[f32], direction: &[f32], width: usize, height: usize) -> Vec<f32> {
    non_maximum_suppression(magnitude, direction, width, height)
}

pub fn oracle_normalize_angle(angle: f32) -> u8 {
    normalize_angle(angle)
}

pub fn oracle_hysteresis(suppressed: &[f32], width: usize, height: usize, low: f32, high: f32) -> Vec<u8> {
    hysteresis(suppressed, width, height, low, high)
}
";

/// The magnitude and direction loop of canny.rs, cut out by its text and put into a function of the gradients.
fn lifted_loop(text: &str) -> String {
    need(text, "canny", LOOP_START);
    need(text, "canny", LOOP_END);
    let from = text.find(LOOP_START).unwrap_or(0);
    let to = text.find(LOOP_END).unwrap_or(0);
    if to <= from {
        stop("canny.rs: the magnitude loop does not stand where it did");
    }
    let body = text[from..to].trim_end();
    format!(
        "
// Lifted from the text above by oracle/build.rs.
pub fn oracle_magnitude(gx: &[f32], gy: &[f32]) -> (Vec<f32>, Vec<f32>) {{
        let len = gx.len();
        {body}
        (magnitude, direction)
}}
"
    )
}

/// canny.rs with the bodies of the two diagonal arms exchanged, as document 02, item 2 wants them, and nothing else changed.
fn exchanged(text: &str) -> String {
    need(text, "canny", CHOICE);
    let start = text.find(CHOICE).unwrap_or(0);
    let end = text[start..].find("\n}").map_or(start, |length| start + length);
    let [one, other] = ARMS.map(|arm| body(text, arm));
    if one.start < start || other.start < one.end || end < other.end {
        stop("canny.rs: the two diagonal arms do not stand where they did");
    }
    let between = &text[one.end..other.start];
    [&text[..one.start], &text[other.clone()], between, &text[one.clone()], &text[other.end..]].concat()
}

/// Where the body of an arm stands, between its braces. It has no braces of its own.
fn body(text: &str, arm: &str) -> Range<usize> {
    need(text, "canny", arm);
    let start = text.find(arm).unwrap_or(0) + arm.len();
    let end = text[start..].find('}').map_or(start, |length| start + length);
    if end == start || text[start..end].contains('{') {
        stop(&format!("canny.rs: the body of `{arm}` is not as it was"));
    }
    start..end
}

/// Stops the build unless the text has exactly one place that reads so.
fn need(text: &str, name: &str, anchor: &str) {
    if text.matches(anchor).count() != 1 {
        stop(&format!("{name}.rs as published must have `{anchor}` exactly once, and does not"));
    }
}

fn name_library() {
    println!("cargo:rerun-if-env-changed=KELONTSIRA_LIB");
    let folder = match env::var_os("KELONTSIRA_LIB") {
        Some(named) if !named.is_empty() => PathBuf::from(named),
        _ => manifest_folder().join("../target/staticlib"),
    };
    let archive = folder.join("libkelontsira.a");
    println!("cargo:rerun-if-changed={}", archive.display());
    if !archive.is_file() {
        stop(&format!(
            "{} is missing; build it with `tools/staticlib`, or set KELONTSIRA_LIB to its folder",
            archive.display()
        ));
    }
    println!("cargo:rustc-link-search=native={}", folder.display());
}

fn manifest_folder() -> PathBuf {
    PathBuf::from(env::var_os("CARGO_MANIFEST_DIR").expect("cargo sets CARGO_MANIFEST_DIR"))
}

fn write(path: &Path, text: &str) {
    fs::write(path, text).unwrap_or_else(|e| stop(&format!("{}: {e}", path.display())));
}

fn stop(message: &str) -> ! {
    eprintln!("oracle: {message}");
    std::process::exit(1);
}
