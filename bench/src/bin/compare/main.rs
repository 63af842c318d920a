//! `compare PLAIN SETTLE FOLDER DAY TURNS NAME...`: runs both programs on FOLDER/NAME.txt, as often as TURNS says, sees that they
//! print the same, and prints what they took. It must itself stay small, since a child is told to have taken what its parent had.

mod child;
mod measure;
mod spread;
mod tables;

use measure::{Job, Measured, Programs};
use std::env;
use std::error::Error;
use std::fs;
use std::process::ExitCode;

fn main() -> ExitCode {
    let words: Vec<String> = env::args().skip(1).collect();
    let [plain, settle, folder, day, turns, names @ ..] = words.as_slice() else {
        eprintln!("usage: compare PLAIN SETTLE FOLDER DAY TURNS NAME...");
        return ExitCode::FAILURE;
    };
    let programs = Programs {
        plain: plain.clone(),
        settle: settle.clone(),
    };
    match compare(&programs, folder, day, turns, names) {
        Ok(()) => ExitCode::SUCCESS,
        Err(error) => {
            eprintln!("compare: {error}");
            ExitCode::FAILURE
        }
    }
}

fn compare(
    programs: &Programs,
    folder: &str,
    day: &str,
    turns: &str,
    names: &[String],
) -> Result<(), Box<dyn Error>> {
    let turns: usize = turns.parse()?;
    println!("Load before: {}", load()?);
    let all = names
        .iter()
        .map(|name| {
            let path = format!("{folder}/{name}.txt");
            let job = Job {
                name,
                path,
                day,
                turns,
            };
            job.measure(programs)
        })
        .collect::<Result<Vec<Measured>, _>>()?;
    println!("Load after: {}", load()?);
    println!("Each file {turns} times with each program, in turn; what they print is the same.");
    println!();
    tables::print_times(&all);
    println!();
    tables::print_growth(&all);
    println!();
    tables::print_memory(&all);
    Ok(())
}

/// How many processes were at work, over the last minute, the last five and the last fifteen.
fn load() -> Result<String, Box<dyn Error>> {
    let text = fs::read_to_string("/proc/loadavg")?;
    let three: Vec<&str> = text.split(' ').take(3).collect();
    Ok(three.join(" "))
}
