//! A made-up market: what stays the same of it all day, and a Resource's readings in an interval.

use crate::figure::Figure;
use crate::random::Random;

pub const ENTITIES: usize = 64;
pub const RESOURCES: usize = 128;

/// How many figures a Resource has in an interval.
pub const READINGS: usize = 11;

const WHOLE_LOAD: i64 = 1_000_000;

/// These Resources lack a cost, one of every so many.
const LACKING_EVERY: usize = 43;
const FIRST_LACKING: usize = 7;

/// What is fixed of a Resource; powers are in thousandths, costs in cents.
#[derive(Clone, Copy)]
pub struct Resource {
    owner: i64,
    high: i64,
    low: i64,
    lag_limit: i64,
    lead_limit: i64,
    cost: i64,
    lacks_cost: bool,
}

/// The market of a seed.
pub struct Market {
    pub shares: [i64; ENTITIES],
    pub resources: Vec<Resource>,
}

/// The figures of a Resource in an interval, in the order of the columns.
pub type Readings = [Figure; READINGS];

impl Market {
    pub fn new(random: &mut Random) -> Market {
        Market {
            shares: shares(random),
            resources: (0..RESOURCES)
                .map(|unit| Resource::new(unit, random))
                .collect(),
        }
    }
}

/// A share for each entity, none of them zero; together they are the whole load.
fn shares(random: &mut Random) -> [i64; ENTITIES] {
    let even = WHOLE_LOAD / ENTITIES as i64;
    let mut shares = [even; ENTITIES];
    for pair in shares.chunks_exact_mut(2) {
        let moved = random.between(0, even - 1);
        pair[0] += moved;
        pair[1] -= moved;
    }
    shares
}

impl Resource {
    fn new(unit: usize, random: &mut Random) -> Resource {
        let high = random.between(300_000, 1_500_000);
        Resource {
            owner: random.between(0, ENTITIES as i64 - 1),
            high,
            low: high * random.between(20, 40) / 100,
            lag_limit: random.between(100_000, 400_000),
            lead_limit: -random.between(100_000, 400_000),
            cost: random.between(5_000, 15_000),
            lacks_cost: unit % LACKING_EVERY == FIRST_LACKING,
        }
    }

    /// The instructed and the metered reactive power of a quarter of an hour: leading and lagging alike often, now and then none
    /// instructed, and now and then nothing given.
    fn reactive(&self, random: &mut Random) -> [Figure; 2] {
        if random.once_in(24) {
            return [Figure::DASH, Figure::DASH];
        }
        if random.once_in(24) {
            return [Figure::power(0), Figure::power(0)];
        }
        let limit = if random.once_in(2) {
            self.lag_limit
        } else {
            self.lead_limit
        };
        let instructed = limit * random.between(80, 150) / 100;
        let metered = instructed * random.between(80, 110) / 400;
        [Figure::power(instructed), Figure::power(metered)]
    }

    /// The cost at the metered output, which some Resources lack.
    fn cost_made(&self, random: &mut Random) -> Figure {
        let cost = Figure::price(self.cost + random.between(-300, 300));
        if self.lacks_cost { Figure::DASH } else { cost }
    }

    pub fn readings(&self, random: &mut Random) -> Readings {
        let [instructed, metered] = self.reactive(random);
        let generated = self.high * random.between(50, 105) / 400;
        [
            Figure::code(self.owner),
            instructed,
            Figure::power(self.lag_limit),
            Figure::power(self.lead_limit),
            metered,
            Figure::power(self.high),
            Figure::power(self.low),
            Figure::price(random.between(-2_000, 25_000)),
            Figure::price(self.cost + random.between(-300, 300)),
            self.cost_made(random),
            Figure::power(generated),
        ]
    }
}
