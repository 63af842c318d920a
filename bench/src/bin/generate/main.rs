//! `generate FOLDER SEED`: writes the determinant files of the benchmark. The same seed gives the same files, to the last byte.

mod day_file;
mod figure;
mod market;
mod random;

use day_file::{DAY, DayFile};
use market::RESOURCES;
use std::env;
use std::error::Error;
use std::fs;
use std::path::Path;
use std::process::ExitCode;

fn main() -> ExitCode {
    let words: Vec<String> = env::args().skip(1).collect();
    let [folder, seed] = words.as_slice() else {
        eprintln!("usage: generate FOLDER SEED");
        return ExitCode::FAILURE;
    };
    match generate(Path::new(folder), seed) {
        Ok(()) => ExitCode::SUCCESS,
        Err(error) => {
            eprintln!("generate: {error}");
            ExitCode::FAILURE
        }
    }
}

fn generate(folder: &Path, seed: &str) -> Result<(), Box<dyn Error>> {
    let seed: u64 = seed.parse()?;
    let new = || DayFile::new(seed);
    let files = [
        ("bare", new().day(0)?),
        ("eighth", new().day(RESOURCES / 8)?),
        ("half", new().day(RESOURCES / 2)?),
        ("day", new().day(RESOURCES)?),
        ("limit", new().corrections(RESOURCES)?),
        ("days", new().days(RESOURCES)?),
    ];
    for (name, file) in files {
        let path = folder.join(format!("{name}.txt"));
        fs::write(path, file.into_text())?;
    }
    println!("day {DAY}");
    Ok(())
}
