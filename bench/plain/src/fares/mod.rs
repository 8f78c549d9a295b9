//! Fare states over any measure and any tariff. Both are types, so a scan is compiled for each pair.

mod measures;
mod tariffs;

pub use measures::{Level, Measure, Metres, Pair, Stops, Zones};
pub use tariffs::{Ladder, Surcharge, Table, Tariff};

use reference::timetable::Hop;

/// The event of a change of vehicle.
const CHANGE: u8 = 1;

#[derive(Clone, Copy, Debug)]
pub struct FareState<K, W> {
    pub ticket: K,
    pub weight: W,
}

/// What a scan asks of fares.
pub trait Fares {
    type State: Copy;

    fn start(&self, class: u8, zone: u8) -> Self::State;
    /// The state after a change of vehicle.
    fn change(&self, state: Self::State) -> Self::State;
    /// The state after a hop to a stop in this zone.
    fn ride(&self, state: Self::State, hop: &Hop, zone: u8) -> Self::State;
    fn covers(&self, state: &Self::State, other: &Self::State) -> bool;
    fn price(&self, state: &Self::State) -> u32;
}

/// A measure under a tariff.
pub struct Under<M, T> {
    pub measure: M,
    pub tariff: T,
}

impl<M: Measure, T: Tariff> Under<M, T> {
    /// Adds the weight first, and then takes the next ticket at the gauges of the sum.
    fn update(
        &self,
        state: FareState<T::Ticket, M::Weight>,
        weight: M::Weight,
        event: u8,
    ) -> FareState<T::Ticket, M::Weight> {
        let weight = self.measure.plus(state.weight, weight);
        let ticket = self.tariff.next(state.ticket, &self.measure.gauges(weight), event);
        FareState { ticket, weight }
    }
}

impl<M: Measure, T: Tariff> Fares for Under<M, T> {
    type State = FareState<T::Ticket, M::Weight>;

    fn start(&self, class: u8, zone: u8) -> Self::State {
        FareState { ticket: self.tariff.start(class), weight: self.measure.start(zone) }
    }

    fn change(&self, state: Self::State) -> Self::State {
        self.update(state, self.measure.neutral(), CHANGE)
    }

    fn ride(&self, state: Self::State, hop: &Hop, zone: u8) -> Self::State {
        self.update(state, self.measure.hop(hop, zone), hop.event)
    }

    fn covers(&self, state: &Self::State, other: &Self::State) -> bool {
        self.tariff.covers(state.ticket, other.ticket) && self.measure.at_most(state.weight, other.weight)
    }

    fn price(&self, state: &Self::State) -> u32 {
        self.tariff.price(state.ticket)
    }
}
