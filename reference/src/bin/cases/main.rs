//! `cases NAME SEED COUNT FOLDER` writes random and damaged inputs 00000.in, 00001.in, .. for the program NAME.

mod fields;
mod plans;
mod rng;
mod tables;
mod ticks;

use std::path::Path;
use std::process::ExitCode;
use std::{env, fs, io};

use rng::Rng;

fn main() -> ExitCode {
    let words: Vec<String> = env::args().skip(1).collect();
    match run(&words) {
        Some(Ok(())) => ExitCode::SUCCESS,
        Some(Err(fault)) => {
            eprintln!("cases: {fault}");
            ExitCode::FAILURE
        }
        None => {
            eprintln!("usage: cases lister|plan_writer|runner|replay SEED COUNT FOLDER");
            ExitCode::from(2)
        }
    }
}

/// Writes the cases that the words ask for.
fn run(words: &[String]) -> Option<io::Result<()>> {
    let [name, seed, count, folder] = words else {
        return None;
    };
    let make: fn(&mut Rng) -> Vec<u8> = match name.as_str() {
        "lister" | "plan_writer" => tables::input,
        "runner" => plans::input,
        "replay" => ticks::input,
        _ => return None,
    };
    let (seed, count) = (seed.parse().ok()?, count.parse().ok()?);
    Some(write(make, name, seed, count, Path::new(folder)))
}

/// Writes the cases 0 to count; each depends on name, seed and its own number alone.
fn write(
    make: fn(&mut Rng) -> Vec<u8>,
    name: &str,
    seed: u64,
    count: u64,
    folder: &Path,
) -> io::Result<()> {
    for number in 0..count {
        let input = make(&mut Rng::of(name, seed, number));
        fs::write(folder.join(format!("{number:05}.in")), input)?;
    }
    Ok(())
}
