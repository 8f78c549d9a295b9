//! A board's planner: its measure and tariff, chosen when it opens, and the lists that it works in.

use reference::fares::{self as read, BaseTariff};
use reference::network::{Network, Question, Room};
use reference::timetable::Hop;

use crate::answer::{answer, Answer, Refused};
use crate::fares::{Fares, Ladder, Level, Metres, Pair, Stops, Surcharge, Table, Tariff, Under, Zones};
use crate::scan::{Chains, Columns, Given, Passenger, Rows, Store};

/// One planner for each measure and tariff, so that nothing is looked up while it scans.
pub trait Planner {
    fn answer(
        &mut self,
        hops: &[Hop],
        network: &Network,
        question: Question,
        room: Room,
    ) -> Result<Answer, Refused>;
}

/// Which label store a planner works in.
#[derive(Clone, Copy, Debug, PartialEq, Eq)]
pub enum Kind {
    Rows,
    Columns,
    Chains,
}

/// The lists are kept from one question to the next.
struct Over<F: Fares, L> {
    fares: F,
    store: L,
    aboard: Vec<Passenger<F::State>>,
}

impl<F: Fares, L: Store<F::State>> Planner for Over<F, L> {
    fn answer(
        &mut self,
        hops: &[Hop],
        network: &Network,
        question: Question,
        room: Room,
    ) -> Result<Answer, Refused> {
        let given = Given { fares: &self.fares, hops, network, question, room };
        answer(&given, &mut self.store, &mut self.aboard)
    }
}

/// The planner for fares that have been opened.
pub fn planner(fares: &read::Fares, kind: Kind) -> Box<dyn Planner> {
    match &fares.base {
        BaseTariff::Table { starts, prices, rules } => {
            with_surcharge(fares, Table::new(*starts, prices, rules), kind)
        }
        BaseTariff::Ladder { first, step } => {
            with_surcharge(fares, Ladder { first: *first, step: *step }, kind)
        }
    }
}

fn with_surcharge<T: Tariff + 'static>(fares: &read::Fares, tariff: T, kind: Kind) -> Box<dyn Planner> {
    match fares.surcharge {
        None => with_measure(fares.measure, tariff, kind),
        Some(read::Surcharge { event, amount }) => {
            with_measure(fares.measure, Surcharge { below: tariff, event, amount }, kind)
        }
    }
}

fn with_measure<T: Tariff + 'static>(measure: read::Measure, tariff: T, kind: Kind) -> Box<dyn Planner> {
    match measure {
        read::Measure::Metres => with_store(Under { measure: Metres, tariff }, kind),
        read::Measure::Stops => with_store(Under { measure: Stops, tariff }, kind),
        read::Measure::Zones => with_store(Under { measure: Zones, tariff }, kind),
        read::Measure::Level => with_store(Under { measure: Level, tariff }, kind),
        read::Measure::All => {
            with_store(Under { measure: Pair(Pair(Metres, Stops), Pair(Zones, Level)), tariff }, kind)
        }
    }
}

fn with_store<F: Fares + 'static>(fares: F, kind: Kind) -> Box<dyn Planner> {
    match kind {
        Kind::Rows => over::<F, Rows<F::State>>(fares),
        Kind::Columns => over::<F, Columns<F::State>>(fares),
        Kind::Chains => over::<F, Chains<F::State>>(fares),
    }
}

fn over<F: Fares + 'static, L: Store<F::State> + 'static>(fares: F) -> Box<dyn Planner> {
    Box::new(Over { fares, store: L::default(), aboard: Vec::new() })
}
