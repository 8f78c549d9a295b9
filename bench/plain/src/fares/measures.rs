//! The five measures.

use reference::timetable::Hop;

pub type Gauges = [u32; 4];

pub trait Measure {
    type Weight: Copy;

    fn neutral(&self) -> Self::Weight;
    fn start(&self, zone: u8) -> Self::Weight;
    /// What a hop to a stop in this zone adds.
    fn hop(&self, hop: &Hop, zone: u8) -> Self::Weight;
    fn plus(&self, weight: Self::Weight, added: Self::Weight) -> Self::Weight;
    fn at_most(&self, weight: Self::Weight, other: Self::Weight) -> bool;
    fn gauges(&self, weight: Self::Weight) -> Gauges;
}

pub struct Metres;

impl Measure for Metres {
    type Weight = u32;

    fn neutral(&self) -> u32 {
        0
    }

    fn start(&self, _zone: u8) -> u32 {
        0
    }

    fn hop(&self, hop: &Hop, _zone: u8) -> u32 {
        hop.metres
    }

    fn plus(&self, weight: u32, added: u32) -> u32 {
        weight.saturating_add(added)
    }

    fn at_most(&self, weight: u32, other: u32) -> bool {
        weight <= other
    }

    fn gauges(&self, weight: u32) -> Gauges {
        [weight, 0, 0, 0]
    }
}

pub struct Stops;

impl Measure for Stops {
    type Weight = u32;

    fn neutral(&self) -> u32 {
        0
    }

    fn start(&self, _zone: u8) -> u32 {
        0
    }

    fn hop(&self, _hop: &Hop, _zone: u8) -> u32 {
        1
    }

    fn plus(&self, weight: u32, added: u32) -> u32 {
        weight.saturating_add(added)
    }

    fn at_most(&self, weight: u32, other: u32) -> bool {
        weight <= other
    }

    fn gauges(&self, weight: u32) -> Gauges {
        [0, weight, 0, 0]
    }
}

/// Sets of the zones 0 to 63, a bit for each.
pub struct Zones;

fn zone_set(zone: u8) -> u64 {
    1u64.checked_shl(u32::from(zone)).unwrap_or(0)
}

impl Measure for Zones {
    type Weight = u64;

    fn neutral(&self) -> u64 {
        0
    }

    fn start(&self, zone: u8) -> u64 {
        zone_set(zone)
    }

    fn hop(&self, _hop: &Hop, zone: u8) -> u64 {
        zone_set(zone)
    }

    fn plus(&self, weight: u64, added: u64) -> u64 {
        weight | added
    }

    fn at_most(&self, weight: u64, other: u64) -> bool {
        weight & !other == 0
    }

    fn gauges(&self, weight: u64) -> Gauges {
        [0, 0, weight.count_ones(), 0]
    }
}

pub struct Level;

const LEVEL_MOST: u8 = 7;

impl Measure for Level {
    type Weight = u8;

    fn neutral(&self) -> u8 {
        0
    }

    fn start(&self, _zone: u8) -> u8 {
        0
    }

    fn hop(&self, hop: &Hop, _zone: u8) -> u8 {
        hop.level.min(LEVEL_MOST)
    }

    fn plus(&self, weight: u8, added: u8) -> u8 {
        weight.max(added)
    }

    fn at_most(&self, weight: u8, other: u8) -> bool {
        weight <= other
    }

    fn gauges(&self, weight: u8) -> Gauges {
        [0, 0, 0, u32::from(weight)]
    }
}

/// Two measures side by side.
pub struct Pair<A, B>(pub A, pub B);

impl<A: Measure, B: Measure> Measure for Pair<A, B> {
    type Weight = (A::Weight, B::Weight);

    fn neutral(&self) -> Self::Weight {
        (self.0.neutral(), self.1.neutral())
    }

    fn start(&self, zone: u8) -> Self::Weight {
        (self.0.start(zone), self.1.start(zone))
    }

    fn hop(&self, hop: &Hop, zone: u8) -> Self::Weight {
        (self.0.hop(hop, zone), self.1.hop(hop, zone))
    }

    fn plus(&self, weight: Self::Weight, added: Self::Weight) -> Self::Weight {
        (self.0.plus(weight.0, added.0), self.1.plus(weight.1, added.1))
    }

    fn at_most(&self, weight: Self::Weight, other: Self::Weight) -> bool {
        self.0.at_most(weight.0, other.0) && self.1.at_most(weight.1, other.1)
    }

    fn gauges(&self, weight: Self::Weight) -> Gauges {
        let (first, second) = (self.0.gauges(weight.0), self.1.gauges(weight.1));
        std::array::from_fn(|gauge| first[gauge].max(second[gauge]))
    }
}
