//! What is printed, in the lines of `settle work`.

use crate::reader::Refusal;
use crate::settlement::{Amounts, Sheet, Warning};
use std::fmt::{Display, Error, Write};

const HEADING: &str = "QSE            VSSVARAMT              VSSEAMT             LAVSSAMT";

/// The line for a file that is refused, without the sentence that explains it.
pub fn write_refusal(out: &mut String, path: &str, refusal: Refusal) -> Result<(), Error> {
    let Refusal { answer, line } = refusal;
    writeln!(out, "{path}: refused, answer {answer} at line {line}")
}

pub fn write_accepted(out: &mut String, path: &str, value_lines: u32) -> Result<(), Error> {
    writeln!(out, "{path}: accepted, {value_lines} value lines")
}

fn write_warning(out: &mut String, warning: &Warning, day: usize) -> Result<(), Error> {
    let Warning {
        determinant,
        resource,
        hour,
    } = *warning;
    let name = determinant.name();
    writeln!(
        out,
        "warning: {name} of Resource {resource} is missing at the start of hour {hour} of day {day}; \
         VSSEAMT is zero in every interval that lacks it"
    )
}

fn write_line(out: &mut String, label: impl Display, amounts: Amounts) -> Result<(), Error> {
    let Amounts {
        reactive,
        held,
        load,
    } = amounts;
    writeln!(out, "{label:>3} {reactive:>20} {held:>20} {load:>20}")
}

fn write_sums(out: &mut String, sheet: &Sheet) -> Result<(), Error> {
    let total = sheet.total();
    writeln!(out, "intervals worked: {}", sheet.intervals)?;
    writeln!(out, "charged shares: {}", sheet.charged)?;
    writeln!(out, "sum of payments: {}", total.reactive + total.held)?;
    writeln!(out, "sum of charges: {}", total.load)
}

fn write_table(out: &mut String, sheet: &Sheet) -> Result<(), Error> {
    writeln!(out, "{HEADING}")?;
    for (entity, amounts) in sheet.entities.into_iter().enumerate() {
        if amounts != Amounts::default() {
            write_line(out, entity, amounts)?;
        }
    }
    write_line(out, "TOT", sheet.total())
}

/// The warnings, where the run stopped, the sums and the table; the sentence that explains a stop is left out.
pub fn write_sheet(out: &mut String, sheet: &Sheet, day: usize) -> Result<(), Error> {
    for warning in &sheet.warnings {
        write_warning(out, warning, day)?;
    }
    if let Some((stop, interval)) = sheet.stop {
        let answer = stop as u32;
        writeln!(out, "stopped, answer {answer} at interval {}", interval + 1)?;
    }
    write_sums(out, sheet)?;
    write_table(out, sheet)
}
