//! Hops, the timetable rule, and the two kinds of timetable that are handed in. Both are kept as
//! the list of hops that they mean.

use crate::refusal::Refusal;

pub const DAY_END: u32 = 172_800;
/// Counts of hops and trips are answered up to this number.
pub const COUNT_HELD: usize = 65_536;

const METRES_MOST: u32 = 100_000;
const LEVEL_MOST: u8 = 7;
const EVENT_MOST: u8 = 15;

#[derive(Clone, Copy, Debug, PartialEq, Eq)]
pub struct Hop {
    pub trip: u32,
    pub from: u32,
    pub to: u32,
    pub departure: u32,
    pub arrival: u32,
    pub metres: u32,
    pub level: u8,
    pub event: u8,
    pub runs: bool,
}

impl Hop {
    fn keeps_ranges(&self) -> bool {
        self.departure < self.arrival
            && self.arrival <= DAY_END
            && self.metres <= METRES_MOST
            && self.level <= LEVEL_MOST
            && self.event <= EVENT_MOST
    }
}

#[derive(Debug)]
pub struct Timetable {
    hops: Vec<Hop>,
}

impl Timetable {
    pub fn open_list(hops: &[Hop]) -> Result<Timetable, Refusal> {
        match first_breach(hops) {
            Some(place) => Err(Refusal::BrokenRule(place)),
            None => Ok(Timetable { hops: hops.to_vec() }),
        }
    }

    pub fn open_line(pattern: &[Hop], interval: u32, trips: u32) -> Result<Timetable, Refusal> {
        let inside = (1..=16).contains(&pattern.len())
            && pattern.iter().all(|hop| hop.runs && hop.trip == 0)
            && first_breach(pattern).is_none()
            && (60..=7_200).contains(&interval)
            && (1..=200).contains(&trips);
        if !inside {
            return Err(Refusal::IntervalLimits);
        }
        let hops: Vec<Hop> = (0..trips).flat_map(|trip| trip_of_line(pattern, interval, trip)).collect();
        if hops.iter().any(|hop| hop.arrival > DAY_END) {
            return Err(Refusal::IntervalLimits);
        }
        Ok(Timetable { hops })
    }

    pub fn hops(&self) -> &[Hop] {
        &self.hops
    }

    pub fn trips(&self) -> usize {
        match self.hops.last() {
            Some(hop) => (hop.trip as usize + 1).min(COUNT_HELD),
            None => 0,
        }
    }
}

/// The sums stay small: the pattern keeps the rule and the interval and trips are within limits.
fn trip_of_line(pattern: &[Hop], interval: u32, trip: u32) -> Vec<Hop> {
    let later = trip * interval;
    pattern
        .iter()
        .map(|hop| Hop { trip, departure: hop.departure + later, arrival: hop.arrival + later, ..*hop })
        .collect()
}

/// The least place whose hop, with those before it, breaks the timetable rule.
fn first_breach(hops: &[Hop]) -> Option<usize> {
    (0..hops.len()).find(|&place| {
        let before = if place == 0 { None } else { Some(&hops[place - 1]) };
        !keeps_rule(before, &hops[place])
    })
}

fn keeps_rule(before: Option<&Hop>, hop: &Hop) -> bool {
    let numbered = match before {
        None => hop.trip == 0,
        Some(before) => hop.trip == before.trip || u64::from(hop.trip) == u64::from(before.trip) + 1,
    };
    let in_range = !hop.runs || hop.keeps_ranges();
    let meets = match before {
        Some(before) if before.trip == hop.trip && before.runs && hop.runs => {
            before.to == hop.from && before.arrival <= hop.departure
        }
        _ => true,
    };
    numbered && in_range && meets
}

#[cfg(test)]
mod tests {
    use super::*;

    fn hop(trip: u32, from: u32, to: u32, departure: u32, arrival: u32) -> Hop {
        Hop { trip, from, to, departure, arrival, metres: 0, level: 0, event: 0, runs: true }
    }

    fn breach(hops: &[Hop]) -> Option<usize> {
        match Timetable::open_list(hops) {
            Ok(_) => None,
            Err(Refusal::BrokenRule(place)) => Some(place),
            Err(other) => panic!("a list is never refused with {other}"),
        }
    }

    #[test]
    fn lists_at_each_part_of_the_rule() {
        assert_eq!(breach(&[]), None);
        assert_eq!(breach(&[hop(1, 0, 1, 0, 1)]), Some(0));
        assert_eq!(breach(&[hop(0, 0, 1, 0, 1), hop(2, 0, 1, 0, 1)]), Some(1));
        assert_eq!(breach(&[hop(0, 0, 1, 0, 1), hop(1, 0, 1, 0, 1), hop(0, 0, 1, 0, 1)]), Some(2));
        assert_eq!(breach(&[hop(0, 0, 1, 5, 5)]), Some(0));
        assert_eq!(breach(&[hop(0, 0, 1, 5, DAY_END)]), None);
        assert_eq!(breach(&[hop(0, 0, 1, 5, DAY_END + 1)]), Some(0));
        assert_eq!(breach(&[Hop { metres: 100_001, ..hop(0, 0, 1, 5, 6) }]), Some(0));
        assert_eq!(breach(&[Hop { level: 8, ..hop(0, 0, 1, 5, 6) }]), Some(0));
        assert_eq!(breach(&[Hop { event: 16, ..hop(0, 0, 1, 5, 6) }]), Some(0));
        assert_eq!(breach(&[hop(0, 0, 1, 5, 6), hop(0, 2, 1, 6, 7)]), Some(1));
        assert_eq!(breach(&[hop(0, 0, 1, 5, 7), hop(0, 1, 2, 6, 8)]), Some(1));
        assert_eq!(breach(&[hop(0, 0, 1, 5, 7), hop(0, 1, 2, 7, 8)]), None);
    }

    #[test]
    fn a_hop_that_does_not_run_owes_only_its_trip() {
        let still = Hop { runs: false, level: 200, ..hop(0, 9, 9, 9, 1) };
        assert_eq!(breach(&[hop(0, 0, 1, 5, 7), still, hop(0, 3, 2, 1, 8)]), None);
        assert_eq!(breach(&[Hop { trip: 1, ..still }]), Some(0));
    }

    #[test]
    fn a_line_means_its_trips() {
        let pattern = [hop(0, 0, 1, 600, 900), hop(0, 1, 2, 900, 1000)];
        let line = Timetable::open_line(&pattern, 600, 2).expect("inside limits");
        let meant = [
            hop(0, 0, 1, 600, 900),
            hop(0, 1, 2, 900, 1000),
            hop(1, 0, 1, 1200, 1500),
            hop(1, 1, 2, 1500, 1600),
        ];
        assert_eq!(line.hops(), meant);
        assert_eq!(line.trips(), 2);
    }

    #[test]
    fn lines_at_their_limits() {
        let pattern = [hop(0, 0, 1, 0, 1)];
        let opens = |pattern: &[Hop], interval, trips| Timetable::open_line(pattern, interval, trips).is_ok();
        assert!(opens(&pattern, 60, 1) && !opens(&pattern, 59, 1));
        assert!(opens(&pattern, 7_200, 1) && !opens(&pattern, 7_201, 1));
        assert!(opens(&pattern, 60, 200) && !opens(&pattern, 60, 201) && !opens(&pattern, 60, 0));
        assert!(!opens(&[], 60, 1));
        assert!(opens(&[hop(0, 0, 1, 0, DAY_END - 60)], 60, 2));
        assert!(!opens(&[hop(0, 0, 1, 0, DAY_END - 59)], 60, 2));
        assert!(!opens(&[Hop { runs: false, ..pattern[0] }], 60, 2));
        assert!(!opens(&[pattern[0], hop(1, 0, 1, 0, 1)], 60, 2));
        let long: Vec<Hop> = (0..17).map(|at| hop(0, 0, 0, at, at + 1)).collect();
        assert!(opens(&long[..16], 60, 1) && !opens(&long, 60, 1));
    }
}
