//! The refusals that can be known without the planner's working lists: 1 to 11 and 14.

use std::fmt;

#[derive(Clone, Copy, Debug, PartialEq, Eq)]
pub enum Refusal {
    BrokenRule(usize),
    IntervalLimits,
    TableLimits(usize),
    TariffLimits,
    NoSuchTrip(u32),
    TableFull(u32),
    NotCancelled(u32),
    LongDelay(u32),
    CannotAsk(usize),
    ListLimits(usize, usize),
    ShortOutput(usize),
    ManyOffers(usize),
}

impl Refusal {
    pub fn number(&self) -> usize {
        match self {
            Refusal::BrokenRule(_) => 1,
            Refusal::IntervalLimits => 2,
            Refusal::TableLimits(_) => 3,
            Refusal::TariffLimits => 4,
            Refusal::NoSuchTrip(_) => 5,
            Refusal::TableFull(_) => 6,
            Refusal::NotCancelled(_) => 7,
            Refusal::LongDelay(_) => 8,
            Refusal::CannotAsk(_) => 9,
            Refusal::ListLimits(..) => 10,
            Refusal::ShortOutput(_) => 11,
            Refusal::ManyOffers(_) => 14,
        }
    }

    fn values(&self) -> Vec<usize> {
        match *self {
            Refusal::IntervalLimits | Refusal::TariffLimits => vec![],
            Refusal::BrokenRule(value)
            | Refusal::TableLimits(value)
            | Refusal::CannotAsk(value)
            | Refusal::ShortOutput(value)
            | Refusal::ManyOffers(value) => vec![value],
            Refusal::NoSuchTrip(trip)
            | Refusal::TableFull(trip)
            | Refusal::NotCancelled(trip)
            | Refusal::LongDelay(trip) => vec![trip as usize],
            Refusal::ListLimits(list, value) => vec![list, value],
        }
    }
}

/// The line of a record.
impl fmt::Display for Refusal {
    fn fmt(&self, out: &mut fmt::Formatter<'_>) -> fmt::Result {
        write!(out, "refused {}", self.number())?;
        for value in self.values() {
            write!(out, " {value}")?;
        }
        Ok(())
    }
}
