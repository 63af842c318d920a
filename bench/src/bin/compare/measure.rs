//! Both programs on one file, turn by turn.

use crate::child::{Call, Took};
use crate::spread::Spread;
use std::error::Error;
use std::fs;

/// The two programs.
pub struct Programs {
    pub plain: String,
    pub settle: String,
}

/// A file and the day that is settled from it.
pub struct Job<'a> {
    pub name: &'a str,
    pub path: String,
    pub day: &'a str,
    /// How often both are run.
    pub turns: usize,
}

/// What a program took in all turns.
pub struct Figures {
    pub milliseconds: Spread,
    pub most_memory_kib: u64,
}

/// What both took for a file.
pub struct Measured {
    pub name: String,
    pub bytes: u64,
    pub plain: Figures,
    pub settle: Figures,
    /// The time of `settle` in that of the plain program, turn by turn.
    pub ratio: Spread,
}

/// Both runs of a turn.
struct Turn {
    plain: Took,
    settle: Took,
}

impl Job<'_> {
    /// Runs both once without counting it, compares what they print, and then measures them.
    pub fn measure(&self, programs: &Programs) -> Result<Measured, Box<dyn Error>> {
        self.turn(programs, 0)?;
        self.compare_outputs()?;
        let turns = (0..self.turns)
            .map(|number| self.turn(programs, number))
            .collect::<Result<Vec<Turn>, _>>()?;
        self.compare_outputs()?;
        Ok(Measured {
            name: self.name.to_string(),
            bytes: fs::metadata(&self.path)?.len(),
            plain: figures(turns.iter().map(|turn| turn.plain)),
            settle: figures(turns.iter().map(|turn| turn.settle)),
            ratio: Spread::of(turns.iter().map(Turn::ratio)),
        })
    }

    fn output(&self, program: &str) -> String {
        format!("{}.{program}.out", self.path)
    }

    /// Runs both; which is first changes from turn to turn.
    fn turn(&self, programs: &Programs, number: usize) -> Result<Turn, Box<dyn Error>> {
        let plain = || self.run(&programs.plain, &[&self.path, self.day], "plain");
        let settle = || self.run(&programs.settle, &["work", &self.path, self.day], "settle");
        if number.is_multiple_of(2) {
            let plain = plain()?;
            let settle = settle()?;
            Ok(Turn { plain, settle })
        } else {
            let settle = settle()?;
            let plain = plain()?;
            Ok(Turn { plain, settle })
        }
    }

    fn run(&self, program: &str, arguments: &[&str], label: &str) -> Result<Took, Box<dyn Error>> {
        let call = Call {
            program,
            arguments,
            output: &self.output(label),
        };
        Ok(call.run()?)
    }

    /// An error where the two have not printed the same, byte by byte.
    fn compare_outputs(&self) -> Result<(), Box<dyn Error>> {
        let plain = self.output("plain");
        let settle = self.output("settle");
        if fs::read(&plain)? == fs::read(&settle)? {
            Ok(())
        } else {
            Err(format!("{plain} and {settle} differ").into())
        }
    }
}

impl Turn {
    fn ratio(&self) -> f64 {
        self.settle.time.as_secs_f64() / self.plain.time.as_secs_f64()
    }
}

fn figures(runs: impl Iterator<Item = Took> + Clone) -> Figures {
    Figures {
        milliseconds: Spread::of(runs.clone().map(|took| took.time.as_secs_f64() * 1e3)),
        most_memory_kib: runs.map(|took| took.most_memory_kib).max().unwrap_or(0),
    }
}
