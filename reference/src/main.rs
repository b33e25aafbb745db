//! `reference NAME` is one of the programs; `reference NAME FOLDER` writes each NUMBER.in's NUMBER.out there.

use std::io::{Read, Result, Write};
use std::path::Path;
use std::process::ExitCode;
use std::{env, fs, io};

use reference::programs::program;

fn main() -> ExitCode {
    let words: Vec<String> = env::args().skip(1).collect();
    let done = match words.as_slice() {
        [name] if program(name, &[]).is_some() => one(name),
        [name, folder] if program(name, &[]).is_some() => all(name, Path::new(folder)),
        _ => {
            eprintln!("usage: reference lister|plan_writer|runner|replay [FOLDER]");
            return ExitCode::from(2);
        }
    };
    match done {
        Ok(()) => ExitCode::SUCCESS,
        Err(fault) => {
            eprintln!("reference: {fault}");
            ExitCode::FAILURE
        }
    }
}

/// Runs the program on standard input.
fn one(name: &str) -> Result<()> {
    let mut input = Vec::new();
    io::stdin().read_to_end(&mut input)?;
    io::stdout().write_all(&program(name, &input).unwrap_or_default())
}

/// Runs the program on each input file of a folder.
fn all(name: &str, folder: &Path) -> Result<()> {
    for entry in fs::read_dir(folder)? {
        let path = entry?.path();
        if path.extension().is_some_and(|end| end == "in") {
            let written = program(name, &fs::read(&path)?).unwrap_or_default();
            fs::write(path.with_extension("out"), written)?;
        }
    }
    Ok(())
}
