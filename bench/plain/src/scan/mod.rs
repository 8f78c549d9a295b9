//! Labels, and the scan that fills a label store.

mod paths;
mod stores;

use paths::PathTable;
pub use stores::{Chains, Columns, Rows, Store};

use reference::network::{Network, Question, Room};
use reference::timetable::Hop;

use crate::fares::Fares;

/// How a part journey came to its stop; `from` is the place of the label that it came from.
#[derive(Clone, Copy, Debug, PartialEq, Eq)]
pub enum Way {
    Origin,
    Walked { path: u32, from: u32 },
    Rode { first: u32, last: u32, from: u32 },
}

/// A part journey that was found.
#[derive(Clone, Copy, Debug)]
pub struct Label<S> {
    pub stop: u32,
    pub time: u32,
    pub rides: u32,
    pub way: Way,
    pub state: S,
}

impl<S> Label<S> {
    pub fn is_on_foot(&self) -> bool {
        matches!(self.way, Way::Walked { .. })
    }
}

/// Somebody aboard: the label that boarded, the hop it boarded at, and its fare so far.
#[derive(Clone, Copy, Debug)]
pub struct Passenger<S> {
    label: u32,
    first: u32,
    state: S,
}

/// All that a question is put over; it is within limits.
pub struct Given<'a, F> {
    pub fares: &'a F,
    pub hops: &'a [Hop],
    pub network: &'a Network,
    pub question: Question,
    pub room: Room,
}

impl<F: Fares> Given<'_, F> {
    fn origin(&self) -> Label<F::State> {
        let Question { origin, departure, .. } = self.question;
        let stop = self.network.stops[origin as usize];
        let state = self.fares.start(stop.class, stop.zone);
        Label { stop: origin, time: departure, rides: 0, way: Way::Origin, state }
    }
}

/// A list that is full.
#[derive(Clone, Copy, Debug, PartialEq, Eq)]
pub enum Full {
    Store,
    /// The place of the hop that somebody would board.
    Aboard(u32),
}

/// Whether a label at a candidate's stop is no worse, now and however the journey goes on.
#[inline]
fn covers<F: Fares>(fares: &F, label: &Label<F::State>, candidate: &Label<F::State>) -> bool {
    label.time <= candidate.time
        && label.rides <= candidate.rides
        && (!label.is_on_foot() || candidate.is_on_foot())
        && (label.rides > 0 || candidate.rides == 0)
        && fares.covers(&label.state, &candidate.state)
}

/// Fills the store, which is emptied first.
pub fn scan<F: Fares, L: Store<F::State>>(
    given: &Given<F>,
    store: &mut L,
    aboard: &mut Vec<Passenger<F::State>>,
) -> Result<(), Full> {
    store.clear(given.network.stops.len());
    let paths = PathTable::over(&given.network.paths, given.network.stops.len());
    let mut scan = Scan { given, paths, store, aboard };
    scan.offer(given.origin())?;
    scan.walks(0)?;
    for round in 1..=given.question.rides {
        scan.pass_hops(round)?;
        scan.walks(round)?;
    }
    Ok(())
}

struct Scan<'a, F: Fares, L> {
    given: &'a Given<'a, F>,
    paths: PathTable,
    store: &'a mut L,
    aboard: &'a mut Vec<Passenger<F::State>>,
}

impl<F: Fares, L: Store<F::State>> Scan<'_, F, L> {
    /// Writes a candidate next unless an earlier label covers it.
    fn offer(&mut self, candidate: Label<F::State>) -> Result<(), Full> {
        let covered =
            self.store.at(candidate.stop).any(|(_, label)| covers(self.given.fares, label, &candidate));
        if covered {
            return Ok(());
        }
        if self.store.labels().len() == self.given.room.labels as usize {
            return Err(Full::Store);
        }
        self.store.push(candidate);
        Ok(())
    }

    fn pass_hops(&mut self, round: u32) -> Result<(), Full> {
        self.aboard.clear();
        let mut trip = 0;
        for (place, hop) in self.given.hops.iter().enumerate() {
            if hop.trip != trip || !hop.runs {
                self.aboard.clear();
                trip = hop.trip;
            }
            if hop.runs {
                self.board(round, place as u32, hop)?;
                self.ride(hop);
                self.alight(round, place as u32, hop)?;
            }
        }
        Ok(())
    }

    /// The labels of the round before board, in store order.
    fn board(&mut self, round: u32, place: u32, hop: &Hop) -> Result<(), Full> {
        let Given { fares, room, .. } = self.given;
        let aboard = &mut *self.aboard;
        for (from, label) in self.store.at(hop.from) {
            if label.time > hop.departure || label.rides + 1 != round {
                continue;
            }
            let state = if round == 1 { label.state } else { fares.change(label.state) };
            if aboard.iter().any(|passenger| fares.covers(&passenger.state, &state)) {
                continue;
            }
            if aboard.len() == room.aboard as usize {
                return Err(Full::Aboard(place));
            }
            aboard.push(Passenger { label: from as u32, first: place, state });
        }
        Ok(())
    }

    fn ride(&mut self, hop: &Hop) {
        let zone = self.given.network.stops[hop.to as usize].zone;
        for passenger in self.aboard.iter_mut() {
            passenger.state = self.given.fares.ride(passenger.state, hop, zone);
        }
    }

    /// All aboard are offered, in order, at the stop to which the hop leads.
    fn alight(&mut self, round: u32, place: u32, hop: &Hop) -> Result<(), Full> {
        for at in 0..self.aboard.len() {
            let Passenger { label, first, state } = self.aboard[at];
            let way = Way::Rode { first, last: place, from: label };
            self.offer(Label { stop: hop.to, time: hop.arrival, rides: round, way, state })?;
        }
        Ok(())
    }

    /// The labels that the round has reached, but not on foot, are offered along the footpaths.
    fn walks(&mut self, round: u32) -> Result<(), Full> {
        for from in 0..self.store.labels().len() {
            let label = self.store.labels()[from];
            if label.rides == round && !label.is_on_foot() {
                self.walk(from as u32, &label)?;
            }
        }
        Ok(())
    }

    fn walk(&mut self, from: u32, label: &Label<F::State>) -> Result<(), Full> {
        let mut at = self.paths.first(label.stop);
        while let Some(path) = at {
            let footpath = self.given.network.paths[path as usize];
            let time = label.time.saturating_add(footpath.seconds);
            self.offer(Label { stop: footpath.to, time, way: Way::Walked { path, from }, ..*label })?;
            at = self.paths.next(path);
        }
        Ok(())
    }
}
