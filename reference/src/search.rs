//! All offers of journeys to the destination, found by looking at every journey, or at every
//! rider state that a journey reaches. No state is ever dropped for another that is better.

use std::collections::{BTreeMap, HashMap, HashSet};

use crate::fares::{FareState, Fares};
use crate::network::{Network, Question};
use crate::refusal::Refusal;
use crate::sheet::{self, Offer, ROWS_MOST};
use crate::timetable::Hop;

/// Above so many journeys the search goes over states instead.
const JOURNEYS_FEW: usize = 2_000;
/// Above so many states the search gives up: this program is for small questions.
const STATES_MOST: usize = 3_000_000;

#[derive(Clone, Copy, Debug, PartialEq, Eq, PartialOrd, Ord, Hash)]
pub enum Kind {
    Walk,
    Ride,
}

#[derive(Clone, Copy, Debug, PartialEq, Eq, PartialOrd, Ord, Hash)]
pub struct Leg {
    pub kind: Kind,
    pub first: usize,
    pub last: usize,
}

#[derive(Clone, Copy, Debug, PartialEq, Eq, Hash)]
pub struct Rider {
    pub stop: u32,
    pub time: u32,
    pub rides: u32,
    pub on_foot: bool,
    pub fare: FareState,
}

/// A state, and the place of the state before it with the leg that led on from there.
struct Reached {
    rider: Rider,
    by: Option<(usize, Leg)>,
}

/// Each offer of a journey to the destination, with the journey that is shown for it: of those
/// with the fewest legs the first by the order of `Leg`, leg by leg.
pub type Offers = BTreeMap<Offer, Vec<Leg>>;

#[derive(Debug, PartialEq, Eq)]
pub struct Answer {
    pub rows: Vec<Offer>,
    pub journeys: Vec<Vec<Leg>>,
}

impl Answer {
    pub fn sheet(&self) -> Vec<u8> {
        sheet::write(&self.rows)
    }
}

#[derive(Debug)]
pub enum Shortfall {
    TooManyStates,
}

/// One question over the hops of the day, within limits.
pub struct Search<'a> {
    hops: &'a [Hop],
    network: &'a Network,
    fares: &'a Fares,
    question: Question,
    hops_from: HashMap<u32, Vec<usize>>,
    paths_from: HashMap<u32, Vec<usize>>,
}

impl<'a> Search<'a> {
    pub fn new(hops: &'a [Hop], network: &'a Network, fares: &'a Fares, question: Question) -> Search<'a> {
        let mut hops_from: HashMap<u32, Vec<usize>> = HashMap::new();
        for (place, hop) in hops.iter().enumerate().filter(|(_, hop)| hop.runs) {
            hops_from.entry(hop.from).or_default().push(place);
        }
        let mut paths_from: HashMap<u32, Vec<usize>> = HashMap::new();
        for (place, path) in network.paths.iter().enumerate() {
            paths_from.entry(path.from).or_default().push(place);
        }
        Search { hops, network, fares, question, hops_from, paths_from }
    }

    pub fn answer(&self) -> Result<Result<Answer, Refusal>, Shortfall> {
        let offers = match self.by_journeys(JOURNEYS_FEW) {
            Some(offers) => offers,
            None => self.by_states(STATES_MOST).ok_or(Shortfall::TooManyStates)?,
        };
        Ok(answer_of(best(&offers)))
    }

    /// Every journey one by one; nothing if there are more than `most`.
    pub fn by_journeys(&self, most: usize) -> Option<Offers> {
        let mut offers = Offers::new();
        let mut left = most;
        let complete = self.extend(self.start(), &mut Vec::new(), &mut left, &mut offers);
        complete.then_some(offers)
    }

    fn extend(&self, rider: Rider, legs: &mut Vec<Leg>, left: &mut usize, offers: &mut Offers) -> bool {
        if *left == 0 {
            return false;
        }
        *left -= 1;
        if let Some(offer) = self.offer(&rider) {
            keep_shown(offers, offer, legs);
        }
        for (leg, next) in self.legs_from(&rider) {
            legs.push(leg);
            let complete = self.extend(next, legs, left, offers);
            legs.pop();
            if !complete {
                return false;
            }
        }
        true
    }

    /// Every distinct rider state, by rising number of legs; nothing if there are more than `most`.
    ///
    /// States are taken up in the order of the journeys first reaching them, so the first state
    /// with an offer has the journey that is shown for it.
    pub fn by_states(&self, most: usize) -> Option<Offers> {
        let start = self.start();
        let mut known = HashSet::from([start]);
        let mut reached = vec![Reached { rider: start, by: None }];
        let mut offers = Offers::new();
        let mut place = 0;
        while let Some(&Reached { rider, .. }) = reached.get(place) {
            if let Some(offer) = self.offer(&rider) {
                offers.entry(offer).or_insert_with(|| legs_to(&reached, place));
            }
            for (leg, next) in self.legs_from(&rider) {
                if known.insert(next) {
                    reached.push(Reached { rider: next, by: Some((place, leg)) });
                }
            }
            if reached.len() > most {
                return None;
            }
            place += 1;
        }
        Some(offers)
    }

    pub fn start(&self) -> Rider {
        let Question { origin, departure, .. } = self.question;
        let stop = self.network.stops[origin as usize];
        let fare = self.fares.start(stop.class, stop.zone);
        Rider { stop: origin, time: departure, rides: 0, on_foot: false, fare }
    }

    /// The offer of a rider at the destination.
    pub fn offer(&self, rider: &Rider) -> Option<Offer> {
        if rider.stop != self.question.destination {
            return None;
        }
        let price = if rider.rides == 0 { 0 } else { self.fares.price(rider.fare.ticket) };
        Some(Offer { arrival: rider.time, price })
    }

    /// All legs that may follow, in the order of `Leg`, with where they take the rider.
    fn legs_from(&self, rider: &Rider) -> Vec<(Leg, Rider)> {
        let mut legs = Vec::new();
        for &path in places(&self.paths_from, rider.stop) {
            if let Some(next) = self.walk(rider, path) {
                legs.push((Leg { kind: Kind::Walk, first: path, last: path }, next));
            }
        }
        for &first in places(&self.hops_from, rider.stop) {
            let mut aboard = self.board(rider, first);
            let mut last = first;
            while let Some(next) = aboard {
                legs.push((Leg { kind: Kind::Ride, first, last }, next));
                aboard = self.stay(&next, last);
                last += 1;
            }
        }
        legs
    }

    /// Where a leg takes the rider, if she can take it.
    pub fn follow(&self, rider: &Rider, leg: &Leg) -> Option<Rider> {
        match leg.kind {
            Kind::Walk if leg.first == leg.last => self.walk(rider, leg.first),
            Kind::Walk => None,
            Kind::Ride if leg.first <= leg.last => {
                let boarded = self.board(rider, leg.first)?;
                (leg.first..leg.last).try_fold(boarded, |aboard, place| self.stay(&aboard, place))
            }
            Kind::Ride => None,
        }
    }

    fn walk(&self, rider: &Rider, path: usize) -> Option<Rider> {
        let path = self.network.paths.get(path)?;
        if rider.on_foot || path.from != rider.stop {
            return None;
        }
        Some(Rider { stop: path.to, time: rider.time + path.seconds, on_foot: true, ..*rider })
    }

    /// The rider after the first hop of a ride.
    fn board(&self, rider: &Rider, place: usize) -> Option<Rider> {
        let hop = self.hops.get(place)?;
        let boards = hop.runs
            && hop.from == rider.stop
            && hop.departure >= rider.time
            && rider.rides < self.question.rides;
        if !boards {
            return None;
        }
        let fare = if rider.rides == 0 { rider.fare } else { self.fares.change(rider.fare) };
        Some(self.ridden(hop, rider.rides + 1, fare))
    }

    /// A rider who stays on after the hop at `place`, after the next one.
    fn stay(&self, aboard: &Rider, place: usize) -> Option<Rider> {
        let hop = self.hops.get(place)?;
        let next = self.hops.get(place + 1)?;
        if !next.runs || next.trip != hop.trip {
            return None;
        }
        Some(self.ridden(next, aboard.rides, aboard.fare))
    }

    fn ridden(&self, hop: &Hop, rides: u32, fare: FareState) -> Rider {
        let zone = self.network.stops[hop.to as usize].zone;
        let fare = self.fares.ride_hop(fare, hop, zone);
        Rider { stop: hop.to, time: hop.arrival, rides, on_foot: false, fare }
    }
}

fn places(map: &HashMap<u32, Vec<usize>>, stop: u32) -> &[usize] {
    map.get(&stop).map_or(&[], Vec::as_slice)
}

fn keep_shown(offers: &mut Offers, offer: Offer, legs: &[Leg]) {
    let shown = offers.entry(offer).or_insert_with(|| legs.to_vec());
    if (legs.len(), legs) < (shown.len(), shown.as_slice()) {
        *shown = legs.to_vec();
    }
}

fn legs_to(reached: &[Reached], place: usize) -> Vec<Leg> {
    let mut legs = Vec::new();
    let mut at = place;
    while let Some((before, leg)) = reached[at].by {
        legs.push(leg);
        at = before;
    }
    legs.reverse();
    legs
}

fn beats(one: &Offer, other: &Offer) -> bool {
    one.arrival <= other.arrival && one.price <= other.price && one != other
}

/// The offers that no other beats.
pub fn best(offers: &Offers) -> Offers {
    offers
        .iter()
        .filter(|(offer, _)| !offers.keys().any(|other| beats(other, offer)))
        .map(|(offer, legs)| (*offer, legs.clone()))
        .collect()
}

fn answer_of(best: Offers) -> Result<Answer, Refusal> {
    if best.len() > ROWS_MOST {
        return Err(Refusal::ManyOffers(best.len()));
    }
    let (rows, journeys) = best.into_iter().unzip();
    Ok(Answer { rows, journeys })
}
