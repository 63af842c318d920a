//! The figures of a day, as one dense array.

use crate::determinant::Determinant;

pub const UNITS: usize = 128;
pub const INTERVALS: usize = 96;

/// Stands where no figure is given; no stored number is as low.
pub const ABSENT: i32 = i32::MIN;

/// Places in a row: thirteen are used, and sixteen numbers fill one line of the cache.
const PLACES: usize = 16;

/// The figures of a unit in an interval, by determinant.
#[derive(Clone, Copy)]
#[repr(align(64))]
pub struct Row([i32; PLACES]);

impl Row {
    const EMPTY: Row = Row([ABSENT; PLACES]);

    /// The stored number of a determinant, where one is given.
    pub fn get(&self, determinant: Determinant) -> Option<i32> {
        let number = self.0[determinant as usize];
        (number != ABSENT).then_some(number)
    }

    pub fn put(&mut self, determinant: Determinant, number: i32) {
        self.0[determinant as usize] = number;
    }
}

/// The rows of a day, interval by interval.
pub struct Figures {
    rows: Vec<Row>,
}

impl Figures {
    pub fn new() -> Figures {
        Figures {
            rows: vec![Row::EMPTY; INTERVALS * UNITS],
        }
    }

    /// The rows of all units in an interval, which is counted from zero.
    pub fn interval(&self, interval: usize) -> &[Row] {
        &self.rows[interval * UNITS..][..UNITS]
    }

    /// The row of a unit in an interval, which is counted from zero.
    pub fn row(&mut self, interval: usize, unit: usize) -> &mut Row {
        &mut self.rows[interval * UNITS + unit]
    }

    /// The rows of a unit in all intervals.
    pub fn rows_of(&mut self, unit: usize) -> impl Iterator<Item = &mut Row> {
        self.rows.iter_mut().skip(unit).step_by(UNITS)
    }
}
