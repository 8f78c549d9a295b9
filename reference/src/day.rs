//! The day state: the cancelled trips and each trip's delay, and what the hops then are.

use std::collections::{BTreeMap, BTreeSet};

use crate::refusal::Refusal;
use crate::timetable::{Hop, Timetable, DAY_END};

const LISTED_MOST: usize = 32;
const DELAY_MOST: u32 = 7_200;

#[derive(Debug, Default)]
pub struct Day {
    cancelled: BTreeSet<u32>,
    /// Only delays above 0 are listed.
    delays: BTreeMap<u32, u32>,
}

impl Day {
    pub fn cancel(&mut self, timetable: &Timetable, trip: u32) -> Result<(), Refusal> {
        known(timetable, trip)?;
        if !self.cancelled.contains(&trip) && self.cancelled.len() >= LISTED_MOST {
            return Err(Refusal::TableFull(trip));
        }
        self.cancelled.insert(trip);
        Ok(())
    }

    pub fn reinstate(&mut self, timetable: &Timetable, trip: u32) -> Result<(), Refusal> {
        known(timetable, trip)?;
        if self.cancelled.remove(&trip) {
            Ok(())
        } else {
            Err(Refusal::NotCancelled(trip))
        }
    }

    pub fn delay(&mut self, timetable: &Timetable, trip: u32, seconds: u32) -> Result<(), Refusal> {
        known(timetable, trip)?;
        if seconds == 0 {
            self.delays.remove(&trip);
            return Ok(());
        }
        if !self.delays.contains_key(&trip) && self.delays.len() >= LISTED_MOST {
            return Err(Refusal::TableFull(trip));
        }
        if seconds > DELAY_MOST {
            return Err(Refusal::LongDelay(trip));
        }
        self.delays.insert(trip, seconds);
        Ok(())
    }

    /// The hops that the board means on this day: cancelled trips do not run, then delayed ones move.
    pub fn hops(&self, timetable: &Timetable) -> Vec<Hop> {
        timetable.hops().iter().map(|hop| self.delayed(self.cancelled_hop(*hop))).collect()
    }

    fn cancelled_hop(&self, hop: Hop) -> Hop {
        Hop { runs: hop.runs && !self.cancelled.contains(&hop.trip), ..hop }
    }

    fn delayed(&self, hop: Hop) -> Hop {
        let seconds = match self.delays.get(&hop.trip) {
            Some(&seconds) if hop.runs => seconds,
            _ => return hop,
        };
        if hop.arrival + seconds > DAY_END {
            return Hop { runs: false, ..hop };
        }
        Hop { departure: hop.departure + seconds, arrival: hop.arrival + seconds, ..hop }
    }
}

fn known(timetable: &Timetable, trip: u32) -> Result<(), Refusal> {
    if (trip as usize) < timetable.trips() {
        Ok(())
    } else {
        Err(Refusal::NoSuchTrip(trip))
    }
}

#[cfg(test)]
mod tests {
    use super::*;

    fn hop(trip: u32, departure: u32, arrival: u32) -> Hop {
        Hop { trip, from: 0, to: 0, departure, arrival, metres: 0, level: 0, event: 0, runs: true }
    }

    fn trips(count: u32) -> Timetable {
        let hops: Vec<Hop> = (0..count).map(|trip| hop(trip, 0, 1)).collect();
        Timetable::open_list(&hops).expect("keeps the rule")
    }

    #[test]
    fn cancellations_full_freed_and_filled() {
        let timetable = trips(40);
        let mut day = Day::default();
        assert_eq!(day.cancel(&timetable, 40), Err(Refusal::NoSuchTrip(40)));
        assert_eq!(day.reinstate(&timetable, 40), Err(Refusal::NoSuchTrip(40)));
        assert_eq!(day.reinstate(&timetable, 3), Err(Refusal::NotCancelled(3)));
        for trip in 0..32 {
            assert_eq!(day.cancel(&timetable, trip), Ok(()));
        }
        assert_eq!(day.cancel(&timetable, 32), Err(Refusal::TableFull(32)));
        assert_eq!(day.cancel(&timetable, 31), Ok(()));
        assert_eq!(day.reinstate(&timetable, 7), Ok(()));
        assert_eq!(day.reinstate(&timetable, 7), Err(Refusal::NotCancelled(7)));
        assert_eq!(day.cancel(&timetable, 32), Ok(()));
        assert_eq!(day.cancel(&timetable, 7), Err(Refusal::TableFull(7)));
        let still: Vec<u32> =
            day.hops(&timetable).iter().filter(|hop| hop.runs).map(|hop| hop.trip).collect();
        assert_eq!(still, [7, 33, 34, 35, 36, 37, 38, 39]);
    }

    #[test]
    fn delays_full_replaced_and_removed() {
        let timetable = trips(40);
        let mut day = Day::default();
        assert_eq!(day.delay(&timetable, 40, 0), Err(Refusal::NoSuchTrip(40)));
        assert_eq!(day.delay(&timetable, 0, 7_201), Err(Refusal::LongDelay(0)));
        for trip in 0..32 {
            assert_eq!(day.delay(&timetable, trip, 7_200), Ok(()));
        }
        assert_eq!(day.delay(&timetable, 32, 1), Err(Refusal::TableFull(32)));
        assert_eq!(day.delay(&timetable, 32, 9_000), Err(Refusal::TableFull(32)));
        assert_eq!(day.delay(&timetable, 31, 9_000), Err(Refusal::LongDelay(31)));
        assert_eq!(day.delay(&timetable, 32, 0), Ok(()));
        assert_eq!(day.delay(&timetable, 31, 1), Ok(()));
        assert_eq!(day.delay(&timetable, 0, 0), Ok(()));
        assert_eq!(day.delay(&timetable, 32, 5), Ok(()));
        let hops = day.hops(&timetable);
        assert_eq!((hops[0].departure, hops[1].departure), (0, 7_200));
        assert_eq!((hops[31].arrival, hops[32].arrival), (2, 6));
    }

    #[test]
    fn a_hop_past_the_end_stays_unmoved_and_does_not_run() {
        let hops = [hop(0, 172_000, 172_500), hop(0, 172_500, 172_600)];
        let timetable = Timetable::open_list(&hops).expect("keeps the rule");
        let mut day = Day::default();
        assert_eq!(day.delay(&timetable, 0, 200), Ok(()));
        assert_eq!(day.hops(&timetable)[1], hop(0, 172_700, DAY_END));
        assert_eq!(day.delay(&timetable, 0, 201), Ok(()));
        let moved = day.hops(&timetable);
        assert_eq!(moved[0], hop(0, 172_201, 172_701));
        assert_eq!(moved[1], Hop { runs: false, ..hops[1] });
        assert_eq!(day.cancel(&timetable, 0), Ok(()));
        assert_eq!(day.hops(&timetable)[0], Hop { runs: false, ..hops[0] });
    }
}
