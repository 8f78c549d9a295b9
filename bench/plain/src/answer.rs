//! Best offers out of the labels, and the legs that lead to them.

use std::fmt;

use reference::refusal::Refusal;
use reference::search::{Kind, Leg};
use reference::sheet::{Offer, ROWS_MOST};

use crate::fares::Fares;
use crate::scan::{scan, Full, Given, Label, Passenger, Store, Way};

/// One more than the highest price.
const PRICE_BOUND: u32 = 10_000_000;

pub struct Answer {
    pub rows: Vec<Offer>,
    pub labels: usize,
    /// Those of each row, in its order.
    pub legs: Vec<Vec<Leg>>,
}

#[derive(Debug, PartialEq, Eq)]
pub enum Refused {
    /// By what can be known without a scan, or by the number of best offers.
    By(Refusal),
    StoreFull(u32),
    AboardFull(u32),
}

/// The line of a record.
impl fmt::Display for Refused {
    fn fmt(&self, out: &mut fmt::Formatter<'_>) -> fmt::Result {
        match self {
            Refused::By(refusal) => refusal.fmt(out),
            Refused::StoreFull(labels) => write!(out, "refused 12 {labels}"),
            Refused::AboardFull(hop) => write!(out, "refused 13 {hop}"),
        }
    }
}

/// Answers a question, if it is within limits.
pub fn answer<F: Fares, L: Store<F::State>>(
    given: &Given<F>,
    store: &mut L,
    aboard: &mut Vec<Passenger<F::State>>,
) -> Result<Answer, Refused> {
    given.network.admit(given.hops, &given.question, &given.room).map_err(Refused::By)?;
    scan(given, store, aboard).map_err(|full| match full {
        Full::Store => Refused::StoreFull(given.room.labels),
        Full::Aboard(hop) => Refused::AboardFull(hop),
    })?;
    let labels = store.labels();
    let picked = select(given.fares, labels, given.question.destination)?;
    Ok(Answer {
        rows: picked.iter().map(|picked| picked.offer).collect(),
        labels: labels.len(),
        legs: picked.iter().map(|picked| legs_to(labels, picked.place)).collect(),
    })
}

/// An offer with the place of its first label.
#[derive(Clone, Copy)]
struct Picked {
    offer: Offer,
    place: usize,
}

fn select<F: Fares>(fares: &F, labels: &[Label<F::State>], destination: u32) -> Result<Vec<Picked>, Refused> {
    let there = offers_at(fares, labels, destination);
    let mut picked = Vec::new();
    let mut bound = PRICE_BOUND;
    while let Some(next) = first_below(&there, bound) {
        bound = next.offer.price;
        picked.push(next);
    }
    if picked.len() > ROWS_MOST {
        return Err(Refused::By(Refusal::ManyOffers(picked.len())));
    }
    Ok(picked)
}

fn offers_at<F: Fares>(fares: &F, labels: &[Label<F::State>], destination: u32) -> Vec<Picked> {
    let there = labels.iter().enumerate().filter(|(_, label)| label.stop == destination);
    there
        .map(|(place, label)| {
            let price = if label.rides == 0 { 0 } else { fares.price(&label.state) };
            Picked { offer: Offer { arrival: label.time, price }, place }
        })
        .collect()
}

/// The first by arrival, then price, then place, of those that cost less than the bound.
fn first_below(offers: &[Picked], bound: u32) -> Option<Picked> {
    let cheaper = offers.iter().filter(|picked| picked.offer.price < bound);
    cheaper.min_by_key(|picked| (picked.offer.arrival, picked.offer.price, picked.place)).copied()
}

/// Traces the label at a place back to the origin.
fn legs_to<S>(labels: &[Label<S>], place: usize) -> Vec<Leg> {
    let mut legs = Vec::new();
    let mut at = place;
    loop {
        let (leg, from) = match labels[at].way {
            Way::Origin => break,
            Way::Walked { path, from } => {
                (Leg { kind: Kind::Walk, first: path as usize, last: path as usize }, from)
            }
            Way::Rode { first, last, from } => {
                (Leg { kind: Kind::Ride, first: first as usize, last: last as usize }, from)
            }
        };
        legs.push(leg);
        at = from as usize;
    }
    legs.reverse();
    legs
}
