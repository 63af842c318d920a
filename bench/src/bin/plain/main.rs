//! `plain FILE DAY`: settles a day of a determinant file and prints what `settle work FILE DAY` prints. It is written for speed,
//! with nothing but `std`; nothing is proved of it.

mod determinant;
mod figures;
mod reader;
mod report;
mod scanner;
mod settlement;

use std::env;
use std::error::Error;
use std::fs::File;
use std::io::{self, Read, Write};
use std::process::ExitCode;

const LAST_DAY: usize = 65_535;

fn main() -> ExitCode {
    let words: Vec<String> = env::args().skip(1).collect();
    let [path, day] = words.as_slice() else {
        eprintln!("usage: plain FILE DAY");
        return ExitCode::FAILURE;
    };
    match run(path, day) {
        Ok(true) => ExitCode::SUCCESS,
        Ok(false) => ExitCode::FAILURE,
        Err(error) => {
            eprintln!("plain: {error}");
            ExitCode::FAILURE
        }
    }
}

/// False where the file is refused or the run stops.
fn run(path: &str, day: &str) -> Result<bool, Box<dyn Error>> {
    let day: usize = day.parse()?;
    if day > LAST_DAY {
        return Err(format!("a day is a number from 0 to {LAST_DAY}").into());
    }
    let mut out = String::new();
    let is_through = settle(path, day, &mut out)?;
    io::stdout().write_all(out.as_bytes())?;
    Ok(is_through)
}

fn settle(path: &str, day: usize, out: &mut String) -> Result<bool, Box<dyn Error>> {
    let bytes = load(path)?;
    match reader::read(&bytes, day) {
        Err(refusal) => {
            report::write_refusal(out, path, refusal)?;
            Ok(false)
        }
        Ok(reading) => {
            report::write_accepted(out, path, reading.value_lines)?;
            let sheet = settlement::settle(&reading.figures);
            report::write_sheet(out, &sheet, day)?;
            Ok(sheet.stop.is_none())
        }
    }
}

/// The bytes of a file, or one more than a file may have.
fn load(path: &str) -> io::Result<Vec<u8>> {
    let file = File::open(path)?;
    let enough = reader::MOST_BYTES as u64 + 1;
    let expected = file.metadata()?.len().min(enough);
    let mut bytes = Vec::with_capacity(expected as usize);
    file.take(enough).read_to_end(&mut bytes)?;
    Ok(bytes)
}
