//! The thirteen determinants: how their figures are written and what range they have.

/// The number of determinants.
pub const COUNT: usize = 13;

/// A determinant; as a number it is its place in a row of figures.
#[derive(Clone, Copy, Debug, PartialEq, Eq)]
pub enum Determinant {
    Owner,
    Vssvariol,
    Urllag,
    Urllead,
    Rtvar,
    Hsl,
    Lsl,
    Rtspp,
    Rthslaiec,
    Rtvssaiec,
    Rtmg,
    Lrs,
    Vssvarpr,
}

/// What is fixed of a determinant.
struct Terms {
    name: &'static str,
    decimals: usize,
    low: i32,
    high: i32,
}

const fn terms(name: &'static str, decimals: usize, low: i32, high: i32) -> Terms {
    Terms {
        name,
        decimals,
        low,
        high,
    }
}

const TERMS: [Terms; COUNT] = [
    terms("OWNER", 0, 0, 63),
    terms("VSSVARIOL", 3, -2_000_000, 2_000_000),
    terms("URLLAG", 3, 0, 2_000_000),
    terms("URLLEAD", 3, -2_000_000, 0),
    terms("RTVAR", 3, -1_000_000, 1_000_000),
    terms("HSL", 3, 0, 2_000_000),
    terms("LSL", 3, 0, 2_000_000),
    terms("RTSPP", 2, -1_000_000, 1_000_000),
    terms("RTHSLAIEC", 2, -1_000_000, 1_000_000),
    terms("RTVSSAIEC", 2, -1_000_000, 1_000_000),
    terms("RTMG", 3, -1_000_000, 1_000_000),
    terms("LRS", 6, 0, 1_000_000),
    terms("VSSVARPR", 2, 0, 1_000_000),
];

impl Determinant {
    const ALL: [Determinant; COUNT] = [
        Determinant::Owner,
        Determinant::Vssvariol,
        Determinant::Urllag,
        Determinant::Urllead,
        Determinant::Rtvar,
        Determinant::Hsl,
        Determinant::Lsl,
        Determinant::Rtspp,
        Determinant::Rthslaiec,
        Determinant::Rtvssaiec,
        Determinant::Rtmg,
        Determinant::Lrs,
        Determinant::Vssvarpr,
    ];

    const fn terms(self) -> &'static Terms {
        &TERMS[self as usize]
    }

    pub const fn name(self) -> &'static str {
        self.terms().name
    }

    pub const fn decimals(self) -> usize {
        self.terms().decimals
    }

    /// Whether a stored number lies in the determinant's own range.
    pub const fn admits(self, number: i32) -> bool {
        self.terms().low <= number && number <= self.terms().high
    }

    pub fn named(name: &[u8]) -> Option<Determinant> {
        Determinant::ALL
            .into_iter()
            .find(|determinant| determinant.name().as_bytes() == name)
    }
}
