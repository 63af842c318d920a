//! Writing determinant files.

use crate::figure::Figure;
use crate::market::{ENTITIES, Market, READINGS};
use crate::random::Random;
use std::fmt::{Error, Write};

/// The most bytes that a determinant file may have.
const MOST_BYTES: usize = 16_777_216;

/// The day that is settled.
pub const DAY: u32 = 20_100;

const INTERVALS: u32 = 96;
const NAMES: &str = "DAY UNIT INT OWNER VSSVARIOL URLLAG URLLEAD RTVAR HSL LSL RTSPP RTHSLAIEC RTVSSAIEC RTMG LRS VSSVARPR\n";
const REACTIVE_PRICE: i64 = 265;

/// A file of a market that comes to be, line by line.
pub struct DayFile {
    market: Market,
    random: Random,
    text: String,
}

impl DayFile {
    pub fn new(seed: u64) -> DayFile {
        let mut random = Random::new(seed);
        DayFile {
            market: Market::new(&mut random),
            random,
            text: NAMES.to_string(),
        }
    }

    pub fn into_text(self) -> String {
        self.text
    }

    /// A day of the first `resources` Resources: the price and the shares for every interval, and a line for each Resource and interval.
    pub fn day(mut self, resources: usize) -> Result<DayFile, Error> {
        self.write_day(DAY, resources)?;
        Ok(self)
    }

    /// The day over and over, each time with other figures, up to the limit of a file.
    pub fn corrections(mut self, resources: usize) -> Result<DayFile, Error> {
        while !self.is_full() {
            self.write_day(DAY, resources)?;
        }
        self.cut_to_limit();
        Ok(self)
    }

    /// Many days, of which the one that is settled comes first, up to the limit of a file.
    pub fn days(mut self, resources: usize) -> Result<DayFile, Error> {
        let mut day = DAY;
        while !self.is_full() {
            self.write_day(day, resources)?;
            day += 1;
        }
        self.cut_to_limit();
        Ok(self)
    }

    fn is_full(&self) -> bool {
        self.text.len() >= MOST_BYTES
    }

    /// Takes away the lines that a file has no room for.
    fn cut_to_limit(&mut self) {
        let room = &self.text[..self.text.len().min(MOST_BYTES)];
        let end = room.rfind('\n').map_or(0, |at| at + 1);
        self.text.truncate(end);
    }

    fn write_day(&mut self, day: u32, resources: usize) -> Result<(), Error> {
        self.write_price(day)?;
        for entity in 0..ENTITIES {
            self.write_share(day, entity)?;
        }
        for unit in 0..resources {
            for interval in 1..=INTERVALS {
                self.write_readings(day, unit, interval)?;
            }
        }
        Ok(())
    }

    fn write_price(&mut self, day: u32) -> Result<(), Error> {
        let price = Figure::price(REACTIVE_PRICE);
        write!(self.text, "{day} 0 *")?;
        self.write_figures(&[Figure::DASH; READINGS])?;
        self.write_last(Figure::DASH, price)
    }

    fn write_share(&mut self, day: u32, entity: usize) -> Result<(), Error> {
        let share = Figure::share(self.market.shares[entity]);
        write!(self.text, "{day} {entity} *")?;
        self.write_figures(&[Figure::DASH; READINGS])?;
        self.write_last(share, Figure::DASH)
    }

    fn write_readings(&mut self, day: u32, unit: usize, interval: u32) -> Result<(), Error> {
        let readings = self.market.resources[unit].readings(&mut self.random);
        write!(self.text, "{day} {unit} {interval}")?;
        self.write_figures(&readings)?;
        self.write_last(Figure::DASH, Figure::DASH)
    }

    fn write_figures(&mut self, figures: &[Figure; READINGS]) -> Result<(), Error> {
        for figure in figures {
            write!(self.text, " {figure}")?;
        }
        Ok(())
    }

    /// The last two columns, and the end of the line.
    fn write_last(&mut self, share: Figure, price: Figure) -> Result<(), Error> {
        writeln!(self.text, " {share} {price}")
    }
}
