//! Times the proved library beside the vendor's published Rust, its two diagonal arms exchanged, in turn and in one process, and prints
//! the tables of docs/BENCH.md. Fails before it times anything of a pair whose two outputs differ. Built by `bench/run --beside OLD.a` it
//! times two archives instead.

mod beside;
mod frames;
mod lent;
#[allow(dead_code)]
#[path = "../../oracle/src/ours.rs"]
mod ours;
mod pairs;
#[allow(dead_code)]
#[path = "../../oracle/src/random.rs"]
mod random;
mod stages;
mod table;
mod timing;
mod vendor;
mod whole;

use std::process::ExitCode;
use std::time::Instant;

use beside::HAS_OLD;

fn main() -> ExitCode {
    let arguments: Vec<String> = std::env::args().skip(1).collect();
    let wanted = match arguments.as_slice() {
        [] => "",
        [rows, text] if rows == "--rows" => text,
        _ => {
            eprintln!("bench: usage: bench/run [--beside OLD.a] [--rows TEXT]");
            return ExitCode::from(2);
        }
    };
    let since = Instant::now();
    match if HAS_OLD { two_archives(wanted) } else { tables(wanted) } {
        Ok(text) => {
            print!("{text}");
            println!("\nThe bench took {:.0} seconds.", since.elapsed().as_secs_f64());
            ExitCode::SUCCESS
        }
        Err(message) => {
            eprintln!("bench: {message}");
            ExitCode::FAILURE
        }
    }
}

/// All tables, and below them where ours is slower and what clearing costs. Of the rows, those whose text has `wanted` in it.
fn tables(wanted: &str) -> Result<String, String> {
    let stages = stages::rows(wanted)?;
    let whole = whole::rows(wanted)?;
    let growth = whole::growth(wanted)?;
    let texts = whole::texts(wanted);
    let mut text = table::timed("The whole run, 640 by 480", &whole);
    text += &table::timed("Each stage, 640 by 480", &stages);
    text += &table::grown("Growth of the whole run, 9 taps, thresholds 50 and 100", &growth);
    text += &table::compared("The vendor's untouched text and the copy with two arms exchanged", ("untouched", "exchanged"), &texts);
    text += &table::slower(&[&whole, &stages, &growth]);
    text += &whole::clearing();
    Ok(text)
}

/// The same rows, of two archives.
fn two_archives(wanted: &str) -> Result<String, String> {
    let stages = stages::rows(wanted)?;
    let whole = whole::rows(wanted)?;
    let growth = whole::growth(wanted)?;
    let mut text = table::compared("New beside old: the whole run, 640 by 480", ("old", "new"), &whole);
    text += &table::compared("New beside old: each stage, 640 by 480", ("old", "new"), &stages);
    text += &table::compared("New beside old: the whole run by size, 9 taps, thresholds 50 and 100", ("old", "new"), &growth);
    Ok(text)
}
