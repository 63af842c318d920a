//! Figures as they are written in a file.

use std::fmt;

/// A stored number and its decimals; none is a dash.
#[derive(Clone, Copy)]
pub struct Figure {
    number: Option<i64>,
    decimals: u32,
}

impl Figure {
    pub const DASH: Figure = Figure {
        number: None,
        decimals: 0,
    };

    /// A whole number, as a code is.
    pub const fn code(number: i64) -> Figure {
        Figure::with(number, 0)
    }

    /// Cents, as a price in dollars.
    pub const fn price(cents: i64) -> Figure {
        Figure::with(cents, 2)
    }

    /// Thousandths, as a power or an energy.
    pub const fn power(thousandths: i64) -> Figure {
        Figure::with(thousandths, 3)
    }

    /// Millionths, as a share.
    pub const fn share(millionths: i64) -> Figure {
        Figure::with(millionths, 6)
    }

    const fn with(number: i64, decimals: u32) -> Figure {
        Figure {
            number: Some(number),
            decimals,
        }
    }
}

impl fmt::Display for Figure {
    fn fmt(&self, f: &mut fmt::Formatter<'_>) -> fmt::Result {
        let Some(number) = self.number else {
            return f.write_str("-");
        };
        let size = number.unsigned_abs();
        let sign = if number < 0 { "-" } else { "" };
        let one = 10u64.pow(self.decimals);
        write!(f, "{sign}{}", size / one)?;
        if self.decimals > 0 {
            let width = self.decimals as usize;
            write!(f, ".{:0width$}", size % one)?;
        }
        Ok(())
    }
}
