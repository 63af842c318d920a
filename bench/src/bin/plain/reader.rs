//! Reading a determinant file in one pass: it is checked, and the figures of one day are kept.

use crate::determinant::{COUNT, Determinant};
use crate::figures::{ABSENT, Figures, INTERVALS, Row, UNITS};
use crate::scanner::{End, Fault, Scanner};

/// The most bytes that a file may have.
pub const MOST_BYTES: usize = 16_777_216;

const MOST_LINE: usize = 255;
const LAST_DAY: u64 = 65_535;
const HEADINGS: [&[u8]; 3] = [b"DAY", b"UNIT", b"INT"];

/// Why a file is refused, and at which line.
#[derive(Clone, Copy, Debug, PartialEq, Eq)]
pub struct Refusal {
    pub answer: u32,
    pub line: u32,
}

impl Refusal {
    const TOO_LONG: Refusal = Refusal { answer: 1, line: 0 };
    const NAMES: Refusal = Refusal { answer: 2, line: 1 };

    const fn shape(line: u32) -> Refusal {
        Refusal { answer: 3, line }
    }

    const fn at(fault: Fault, line: u32) -> Refusal {
        let answer = match fault {
            Fault::Form => 4,
            Fault::Beyond => 5,
        };
        Refusal { answer, line }
    }
}

/// What a file says of the day.
pub struct Reading {
    pub value_lines: u32,
    pub figures: Figures,
}

/// The determinants of the columns, from left to right.
struct Columns {
    determinants: [Determinant; COUNT],
    count: usize,
}

/// A line's intervals.
#[derive(Clone, Copy)]
enum Span {
    Every,
    /// One interval, counted from zero.
    At(usize),
}

/// What a value line says; `values` are by column.
struct ValueLine {
    day: usize,
    unit: usize,
    span: Span,
    values: [i32; COUNT],
}

impl Columns {
    /// The columns of a names line.
    fn of(line: &[u8]) -> Option<Columns> {
        if line.len() > MOST_LINE {
            return None;
        }
        let mut fields = line.split(|byte| *byte == b' ');
        if !HEADINGS.iter().all(|name| fields.next() == Some(name)) {
            return None;
        }
        let mut columns = Columns {
            determinants: [Determinant::Owner; COUNT],
            count: 0,
        };
        for name in fields {
            columns.push(Determinant::named(name)?)?;
        }
        (columns.count > 0).then_some(columns)
    }

    /// Puts one more after these; none where it stands there already.
    fn push(&mut self, determinant: Determinant) -> Option<()> {
        if self.as_slice().contains(&determinant) {
            return None;
        }
        self.determinants[self.count] = determinant;
        self.count += 1;
        Some(())
    }

    fn as_slice(&self) -> &[Determinant] {
        &self.determinants[..self.count]
    }

    /// Reads a value line, field by field.
    #[inline]
    fn read(&self, scanner: &mut Scanner) -> Result<ValueLine, Fault> {
        let mut line = ValueLine {
            day: scanner.number(0, LAST_DAY)?,
            unit: scanner.number(0, UNITS as u64 - 1)?,
            span: read_span(scanner)?,
            values: [ABSENT; COUNT],
        };
        let (last, others) = self.determinants[..self.count]
            .split_last()
            .ok_or(Fault::Form)?;
        for (value, determinant) in line.values.iter_mut().zip(others) {
            *value = scanner.figure(determinant.decimals(), End::Space)?;
        }
        line.values[others.len()] = scanner.figure(last.decimals(), End::LineFeed)?;
        Ok(line)
    }

    /// Keeps what a line gives a row.
    #[inline]
    fn keep(&self, line: &ValueLine, row: &mut Row) {
        for (determinant, value) in self.as_slice().iter().zip(line.values) {
            if value != ABSENT {
                row.put(*determinant, value);
            }
        }
    }
}

#[inline]
fn read_span(scanner: &mut Scanner) -> Result<Span, Fault> {
    if scanner.star() {
        return Ok(Span::Every);
    }
    let number = scanner.number(1, INTERVALS as u64)?;
    Ok(Span::At(number - 1))
}

/// Takes in what a line of the day gives.
#[inline]
fn take_in(figures: &mut Figures, columns: &Columns, line: &ValueLine) {
    match line.span {
        Span::At(interval) => columns.keep(line, figures.row(interval, line.unit)),
        Span::Every => {
            for row in figures.rows_of(line.unit) {
                columns.keep(line, row);
            }
        }
    }
}

/// The refusal of a line with a fault: its shape comes before its fields, however far these were read.
#[cold]
fn refuse(line: &[u8], columns: &Columns, fault: Fault, number: u32) -> Refusal {
    let Some(length) = line.iter().position(|byte| *byte == b'\n') else {
        return Refusal::shape(number);
    };
    let fields = line[..length].split(|byte| *byte == b' ').count();
    if length > MOST_LINE || fields != HEADINGS.len() + columns.count {
        return Refusal::shape(number);
    }
    Refusal::at(fault, number)
}

/// Reads the value lines, which begin at `start`.
fn read_lines(
    bytes: &[u8],
    start: usize,
    columns: &Columns,
    day: usize,
) -> Result<Reading, Refusal> {
    let mut figures = Figures::new();
    let mut scanner = Scanner::new(bytes, start);
    let mut number = 1;
    while !scanner.is_at_end() {
        number += 1;
        let at = scanner.at();
        let line = columns
            .read(&mut scanner)
            .map_err(|fault| refuse(&bytes[at..], columns, fault, number))?;
        // The line feed stands in the line's last byte.
        if scanner.at() - at > MOST_LINE + 1 {
            return Err(Refusal::shape(number));
        }
        if line.day == day {
            take_in(&mut figures, columns, &line);
        }
    }
    Ok(Reading {
        value_lines: number - 1,
        figures,
    })
}

/// Checks a file and reads what it says of the day.
pub fn read(bytes: &[u8], day: usize) -> Result<Reading, Refusal> {
    if bytes.len() > MOST_BYTES {
        return Err(Refusal::TOO_LONG);
    }
    let length = bytes
        .iter()
        .position(|byte| *byte == b'\n')
        .ok_or(Refusal::NAMES)?;
    let columns = Columns::of(&bytes[..length]).ok_or(Refusal::NAMES)?;
    read_lines(bytes, length + 1, &columns, day)
}
