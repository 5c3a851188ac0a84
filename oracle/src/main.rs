//! Compares the proved library with the vendor's published Rust, stage by stage: `oracle [long | FACTOR | vectors] [seed=N]`.
//! Ends in one line, 'N compared, 0 differ', and fails where anything differs or a stage has compared too little.

mod lent;
mod model;
mod numbers;
mod ours;
mod pictures;
mod random;
mod refusals;
mod room;
mod runner;
mod stages;
mod vectors;
mod vendor;

use std::process::ExitCode;
use std::time::Instant;

use runner::Plan;

/// The seed unless another is given.
const SEED: u64 = 20_261_004;

/// How much longer a long run is.
const LONG: usize = 20;

/// What the arguments ask for.
struct Wanted {
    plan: Plan,
    vectors: bool,
}

fn main() -> ExitCode {
    let wanted = match arguments() {
        Ok(wanted) => wanted,
        Err(message) => {
            eprintln!("oracle: {message}; usage: oracle/run [long | FACTOR | vectors] [seed=N]");
            return ExitCode::from(2);
        }
    };
    if wanted.vectors {
        return write_vectors(wanted.plan.seed);
    }
    println!("seed {}, factor {}, {} threads", wanted.plan.seed, wanted.plan.factor, wanted.plan.threads);
    println!("suppression and canny: compared with a copy of canny.rs in which the arms of 45 and 135 are exchanged (document 02, item 2);");
    println!("the untouched text runs beside it, and must give the same wherever no inner pixel has a diagonal gradient");
    let since = Instant::now();
    let (sums, short) = stages::run_all(&wanted.plan);
    if short > 0 {
        println!("{short} stages compared fewer than {}", stages::LEAST);
    }
    println!("in {:.0} seconds", since.elapsed().as_secs_f32());
    println!("{} compared, {} differ", sums.compared, sums.differ);
    ExitCode::from(u8::from(sums.differ > 0 || short > 0))
}

fn arguments() -> Result<Wanted, String> {
    let mut wanted = Wanted { plan: Plan { seed: SEED, factor: 1, threads: 2 }, vectors: false };
    for argument in std::env::args().skip(1) {
        match argument.as_str() {
            "long" => wanted.plan.factor = LONG,
            "vectors" => wanted.vectors = true,
            other => match other.strip_prefix("seed=") {
                Some(seed) => wanted.plan.seed = seed.parse().map_err(|_| format!("{other} is not a seed"))?,
                None => wanted.plan.factor = factor(other)?,
            },
        }
    }
    Ok(wanted)
}

fn factor(text: &str) -> Result<usize, String> {
    match text.parse() {
        Ok(factor) if (1..=10_000).contains(&factor) => Ok(factor),
        _ => Err(format!("{text} is not a factor from 1 to 10000")),
    }
}

fn write_vectors(seed: u64) -> ExitCode {
    match vectors::write(seed) {
        Ok(count) => {
            println!("{count} cases written");
            ExitCode::SUCCESS
        }
        Err(message) => {
            eprintln!("oracle: {message}");
            ExitCode::FAILURE
        }
    }
}
