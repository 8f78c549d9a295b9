//! Measures, tariffs and fare states. Only what the next ticket is: nothing here asks whether one
//! ticket covers another.

use crate::refusal::Refusal;
use crate::timetable::Hop;

pub const PRICE_MOST: u32 = 9_999_999;
const CHANGE: u8 = 1;

const LADDER_TOP: u8 = 15;

#[derive(Clone, Copy, Debug, PartialEq, Eq)]
pub enum Measure {
    Metres,
    Stops,
    Zones,
    Level,
    All,
}

/// The weight of every measure: a part that the measure does not have stays 0, so its gauge shows 0,
/// and the pairs of `All` are the four parts side by side.
#[derive(Clone, Copy, Debug, Default, PartialEq, Eq, PartialOrd, Ord, Hash)]
pub struct Weight {
    metres: u32,
    stops: u32,
    zones: u64,
    level: u8,
}

impl Weight {
    fn plus(self, other: Weight) -> Weight {
        Weight {
            metres: self.metres.saturating_add(other.metres),
            stops: self.stops.saturating_add(other.stops),
            zones: self.zones | other.zones,
            level: self.level.max(other.level),
        }
    }

    fn gauges(self) -> [u32; 4] {
        [self.metres, self.stops, self.zones.count_ones(), u32::from(self.level)]
    }
}

impl Measure {
    fn has(self, part: Measure) -> bool {
        self == part || self == Measure::All
    }

    fn start(self, zone: u8) -> Weight {
        Weight { zones: if self.has(Measure::Zones) { zone_set(zone) } else { 0 }, ..Weight::default() }
    }

    fn hop(self, hop: &Hop, arrival_zone: u8) -> Weight {
        Weight {
            metres: if self.has(Measure::Metres) { hop.metres } else { 0 },
            stops: if self.has(Measure::Stops) { 1 } else { 0 },
            zones: if self.has(Measure::Zones) { zone_set(arrival_zone) } else { 0 },
            level: if self.has(Measure::Level) { hop.level.min(7) } else { 0 },
        }
    }
}

fn zone_set(zone: u8) -> u64 {
    if zone < 64 {
        1 << zone
    } else {
        0
    }
}

#[derive(Clone, Copy, Debug, PartialEq, Eq)]
pub struct Rule {
    pub ticket: u8,
    pub target: u8,
    pub events: u16,
    pub minima: [u32; 4],
}

impl Rule {
    fn met(&self, gauges: [u32; 4], event: u8) -> bool {
        event < 16
            && self.events & (1 << event) != 0
            && (0..4).all(|gauge| gauges[gauge] >= self.minima[gauge])
    }
}

#[derive(Clone, Debug)]
pub enum BaseTariff {
    Table { starts: [u8; 4], prices: Vec<u32>, rules: Vec<Rule> },
    Ladder { first: u32, step: u32 },
}

impl BaseTariff {
    pub fn open(&self) -> Result<(), Refusal> {
        match self {
            BaseTariff::Table { starts, prices, rules } => open_table(starts, prices, rules),
            BaseTariff::Ladder { first, step } if *first > 999_999 || *step > 99_999 => {
                Err(Refusal::TariffLimits)
            }
            BaseTariff::Ladder { .. } => Ok(()),
        }
    }

    fn start(&self, class: u8) -> u8 {
        match self {
            BaseTariff::Table { starts, .. } => starts.get(usize::from(class)).copied().unwrap_or(0),
            BaseTariff::Ladder { .. } => 0,
        }
    }

    fn price(&self, ticket: u8) -> u32 {
        match self {
            BaseTariff::Table { prices, .. } => prices.get(usize::from(ticket)).copied().unwrap_or(0),
            BaseTariff::Ladder { first, step } => first + u32::from(ticket) * step,
        }
    }

    fn next(&self, ticket: u8, gauges: [u32; 4], event: u8) -> u8 {
        match self {
            BaseTariff::Table { rules, .. } => rules
                .iter()
                .filter(|rule| rule.ticket == ticket && rule.met(gauges, event))
                .map(|rule| rule.target)
                .max()
                .unwrap_or(ticket),
            BaseTariff::Ladder { .. } => {
                let rung = gauges[2].saturating_sub(1).min(u32::from(LADDER_TOP)) as u8;
                ticket.max(rung)
            }
        }
    }
}

fn open_table(starts: &[u8; 4], prices: &[u32], rules: &[Rule]) -> Result<(), Refusal> {
    let rest = (1..=32).contains(&prices.len())
        && rules.len() <= 128
        && prices.iter().all(|&price| price <= PRICE_MOST)
        && starts.iter().all(|&start| usize::from(start) < prices.len());
    if !rest {
        return Err(Refusal::TableLimits(128));
    }
    match rules.iter().position(|rule| !leads_up(rule, prices)) {
        Some(place) => Err(Refusal::TableLimits(place)),
        None => Ok(()),
    }
}

fn leads_up(rule: &Rule, prices: &[u32]) -> bool {
    let price = prices.get(usize::from(rule.ticket));
    let target_price = prices.get(usize::from(rule.target));
    match (price, target_price) {
        (Some(price), Some(target_price)) => rule.target > rule.ticket && target_price >= price,
        _ => false,
    }
}

#[derive(Clone, Copy, Debug)]
pub struct Surcharge {
    pub event: u8,
    pub amount: u32,
}

impl Surcharge {
    pub fn open(&self) -> Result<(), Refusal> {
        if (2..=15).contains(&self.event) && (1..=99_999).contains(&self.amount) {
            Ok(())
        } else {
            Err(Refusal::TariffLimits)
        }
    }
}

/// A ticket of the table or ladder, and the surcharge's mark; without a surcharge it is never set.
#[derive(Clone, Copy, Debug, PartialEq, Eq, PartialOrd, Ord, Hash)]
pub struct Ticket {
    pub number: u8,
    pub marked: bool,
}

#[derive(Clone, Copy, Debug, PartialEq, Eq, PartialOrd, Ord, Hash)]
pub struct FareState {
    pub ticket: Ticket,
    pub weight: Weight,
}

/// A board's measure and tariff, which have been opened.
#[derive(Clone, Debug)]
pub struct Fares {
    pub measure: Measure,
    pub base: BaseTariff,
    pub surcharge: Option<Surcharge>,
}

impl Fares {
    pub fn start(&self, class: u8, zone: u8) -> FareState {
        let ticket = Ticket { number: self.base.start(class), marked: false };
        FareState { ticket, weight: self.measure.start(zone) }
    }

    /// A change of vehicle: event 1 with the neutral weight.
    pub fn change(&self, state: FareState) -> FareState {
        self.update(state, Weight::default(), CHANGE)
    }

    pub fn ride_hop(&self, state: FareState, hop: &Hop, arrival_zone: u8) -> FareState {
        self.update(state, self.measure.hop(hop, arrival_zone), hop.event)
    }

    pub fn price(&self, ticket: Ticket) -> u32 {
        let price = self.base.price(ticket.number);
        match self.surcharge {
            Some(surcharge) if ticket.marked => (price + surcharge.amount).min(PRICE_MOST),
            _ => price,
        }
    }

    /// Adds the weight first, and then takes the next ticket at the gauges of the sum.
    fn update(&self, state: FareState, weight: Weight, event: u8) -> FareState {
        let weight = state.weight.plus(weight);
        let sets_mark = self.surcharge.is_some_and(|surcharge| surcharge.event == event);
        let ticket = Ticket {
            number: self.base.next(state.ticket.number, weight.gauges(), event),
            marked: state.ticket.marked || sets_mark,
        };
        FareState { ticket, weight }
    }
}

#[cfg(test)]
mod tests {
    use super::*;

    const NO_EVENT: u8 = 0;
    const NIGHT: u8 = 2;

    fn table(minima: [[u32; 4]; 2]) -> BaseTariff {
        let rule = |ticket, target, minima| Rule { ticket, target, events: 0xffff, minima };
        BaseTariff::Table {
            starts: [0; 4],
            prices: vec![200, 300, 450],
            rules: vec![rule(0, 1, minima[0]), rule(0, 2, minima[1]), rule(1, 2, minima[1])],
        }
    }

    fn by_zones() -> BaseTariff {
        table([[0, 0, 2, 0], [0, 0, 3, 0]])
    }

    fn by_distance() -> BaseTariff {
        table([[2_000, 0, 0, 0], [5_000, 0, 0, 0]])
    }

    /// Two hops, each given by arrival zone, metres and event, with a change between them.
    fn ridden(base: BaseTariff, measure: Measure, hops: [(u8, u32, u8); 2]) -> (u8, bool, u32) {
        let fares = Fares { measure, base, surcharge: Some(Surcharge { event: NIGHT, amount: 75 }) };
        let hop = |metres, event| Hop {
            trip: 0,
            from: 0,
            to: 0,
            departure: 0,
            arrival: 1,
            metres,
            level: 0,
            event,
            runs: true,
        };
        let first = fares.ride_hop(fares.start(0, 0), &hop(hops[0].1, hops[0].2), hops[0].0);
        let last = fares.ride_hop(fares.change(first), &hop(hops[1].1, hops[1].2), hops[1].0);
        (last.ticket.number, last.ticket.marked, fares.price(last.ticket))
    }

    #[test]
    fn fares_worked_by_hand() {
        let zones =
            |base, first, last, event| ridden(base, Measure::Zones, [(first, 0, 0), (last, 0, event)]);
        let metres =
            |first, last, event| ridden(by_distance(), Measure::Metres, [(0, first, 0), (0, last, event)]);
        let ladder = || BaseTariff::Ladder { first: 100, step: 50 };
        assert_eq!(zones(by_zones(), 0, 0, 0), (0, false, 200));
        assert_eq!(zones(by_zones(), 1, 0, 0), (1, false, 300));
        assert_eq!(zones(by_zones(), 1, 2, 0), (2, false, 450));
        assert_eq!(metres(1_000, 999, 0), (0, false, 200));
        assert_eq!(metres(1_000, 1_000, 0), (1, false, 300));
        assert_eq!(metres(3_000, 2_000, NIGHT), (2, true, 525));
        assert_eq!(zones(ladder(), 1, 2, 0), (2, false, 200));
        assert_eq!(zones(ladder(), 1, 2, NIGHT), (2, true, 275));
    }

    #[test]
    fn a_marked_ticket_is_held_at_the_highest_price() {
        let fares = Fares {
            measure: Measure::All,
            base: BaseTariff::Table { starts: [0; 4], prices: vec![9_999_900], rules: vec![] },
            surcharge: Some(Surcharge { event: 5, amount: 99_999 }),
        };
        assert_eq!(fares.price(Ticket { number: 0, marked: true }), PRICE_MOST);
        assert_eq!(fares.price(Ticket { number: 0, marked: false }), 9_999_900);
    }

    #[test]
    fn gauges_of_all_measures() {
        let hop = Hop {
            trip: 0,
            from: 0,
            to: 0,
            departure: 0,
            arrival: 1,
            metres: 700,
            level: 5,
            event: 0,
            runs: true,
        };
        let gauges = |measure: Measure| measure.start(3).plus(measure.hop(&hop, 4)).gauges();
        assert_eq!(gauges(Measure::Metres), [700, 0, 0, 0]);
        assert_eq!(gauges(Measure::Stops), [0, 1, 0, 0]);
        assert_eq!(gauges(Measure::Zones), [0, 0, 2, 0]);
        assert_eq!(gauges(Measure::Level), [0, 0, 0, 5]);
        assert_eq!(gauges(Measure::All), [700, 1, 2, 5]);
        assert_eq!(zone_set(64), 0);
        assert_eq!(zone_set(63), 1 << 63);
    }

    #[test]
    fn the_ladder_stops_at_fifteen() {
        let ladder = BaseTariff::Ladder { first: 0, step: 1 };
        assert_eq!(ladder.next(0, [0, 0, 0, 0], NO_EVENT), 0);
        assert_eq!(ladder.next(0, [0, 0, 1, 0], NO_EVENT), 0);
        assert_eq!(ladder.next(4, [0, 0, 3, 0], NO_EVENT), 4);
        assert_eq!(ladder.next(4, [0, 0, 16, 0], NO_EVENT), 15);
        assert_eq!(ladder.next(4, [0, 0, 64, 0], NO_EVENT), 15);
    }

    #[test]
    fn the_highest_met_rule_wins() {
        let rule = |target, events, most| Rule { ticket: 0, target, events, minima: [most, 0, 0, 0] };
        let base = BaseTariff::Table {
            starts: [0; 4],
            prices: vec![1, 1, 1, 1],
            rules: vec![rule(2, 2, 0), rule(1, 3, 0), rule(3, 1, 5), rule(3, 0, 0)],
        };
        assert_eq!(base.next(0, [0; 4], NO_EVENT), 1);
        assert_eq!(base.next(0, [0; 4], CHANGE), 2);
        assert_eq!(base.next(0, [5, 0, 0, 0], NO_EVENT), 3);
        assert_eq!(base.next(0, [9; 4], 7), 0);
        assert_eq!(base.next(3, [9; 4], NO_EVENT), 3);
    }

    #[test]
    fn tables_and_ladders_at_their_limits() {
        let open = |starts, prices: &[u32], rules: &[Rule]| open_table(&starts, prices, rules).err();
        let rule = |ticket, target| Rule { ticket, target, events: 0, minima: [0; 4] };
        let rest = Some(Refusal::TableLimits(128));
        assert_eq!(open([0; 4], &[], &[]), rest);
        assert_eq!(open([0; 4], &[1; 32], &[]), None);
        assert_eq!(open([0; 4], &[1; 33], &[]), rest);
        assert_eq!(open([0; 4], &[1; 2], &[rule(0, 1); 128]), None);
        assert_eq!(open([0; 4], &[1; 2], &[rule(0, 1); 129]), rest);
        assert_eq!(open([0; 4], &[PRICE_MOST], &[]), None);
        assert_eq!(open([0; 4], &[PRICE_MOST + 1], &[]), rest);
        assert_eq!(open([0, 0, 0, 1], &[1], &[rule(0, 0)]), rest);
        let place = |place| Some(Refusal::TableLimits(place));
        assert_eq!(open([0; 4], &[1, 1], &[rule(0, 1), rule(0, 2)]), place(1));
        assert_eq!(open([0; 4], &[1, 1], &[rule(2, 3), rule(0, 2)]), place(0));
        assert_eq!(open([0; 4], &[1, 1], &[rule(1, 1)]), place(0));
        assert_eq!(open([0; 4], &[1, 1], &[rule(1, 0)]), place(0));
        assert_eq!(open([0; 4], &[2, 1], &[rule(0, 1)]), place(0));
        let ladder = |first, step| BaseTariff::Ladder { first, step }.open().is_ok();
        assert!(ladder(0, 0) && ladder(999_999, 99_999));
        assert!(!ladder(1_000_000, 0) && !ladder(0, 100_000));
        let surcharge = |event, amount| Surcharge { event, amount }.open().is_ok();
        assert!(surcharge(2, 1) && surcharge(15, 99_999));
        assert!(!surcharge(1, 1) && !surcharge(16, 1) && !surcharge(2, 0) && !surcharge(2, 100_000));
    }
}
