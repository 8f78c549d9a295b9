//! What comes with a question besides the hops: stops, footpaths, room; and the limits of all of it.

use crate::refusal::Refusal;
use crate::timetable::{Hop, COUNT_HELD, DAY_END};

const LIST_MOST: usize = 4_096;

#[derive(Clone, Copy, Debug, PartialEq, Eq)]
pub struct Stop {
    pub zone: u8,
    pub class: u8,
}

#[derive(Clone, Copy, Debug, PartialEq, Eq)]
pub struct Footpath {
    pub from: u32,
    pub to: u32,
    pub seconds: u32,
}

#[derive(Clone, Debug, Default)]
pub struct Network {
    pub stops: Vec<Stop>,
    pub paths: Vec<Footpath>,
}

/// The room of the label store and of the list of those aboard is known, but not how much of it
/// the planner needs.
#[derive(Clone, Copy, Debug, PartialEq, Eq)]
pub struct Room {
    pub labels: u32,
    pub aboard: u32,
    pub bytes: u32,
    pub legs: u32,
}

impl Default for Room {
    fn default() -> Room {
        Room { labels: 4_096, aboard: 256, bytes: 225, legs: 544 }
    }
}

#[derive(Clone, Copy, Debug, PartialEq, Eq)]
pub struct Question {
    pub origin: u32,
    pub destination: u32,
    pub departure: u32,
    pub rides: u32,
}

impl Network {
    pub fn is_stop(&self, number: u32) -> bool {
        (number as usize) < self.stops.len()
    }

    /// Refusals 9, 10 and 11, in this order; `hops` are those of the day so far.
    pub fn admit(&self, hops: &[Hop], question: &Question, room: &Room) -> Result<(), Refusal> {
        self.admit_question(hops, question)?;
        self.admit_stops()?;
        self.admit_paths()?;
        self.admit_hops(hops)?;
        admit_room(room)
    }

    fn admit_question(&self, hops: &[Hop], question: &Question) -> Result<(), Refusal> {
        let fields = [
            self.is_stop(question.origin),
            self.is_stop(question.destination),
            question.departure <= DAY_END,
            (1..=8).contains(&question.rides),
            hops.len() < COUNT_HELD,
        ];
        match fields.iter().position(|good| !good) {
            Some(field) => Err(Refusal::CannotAsk(field)),
            None => Ok(()),
        }
    }

    fn admit_stops(&self) -> Result<(), Refusal> {
        if self.stops.len() > LIST_MOST {
            return Err(Refusal::ListLimits(0, self.stops.len()));
        }
        first_bad(0, &self.stops, |stop| stop.zone <= 63 && stop.class <= 3)
    }

    fn admit_paths(&self) -> Result<(), Refusal> {
        if self.paths.len() > LIST_MOST {
            return Err(Refusal::ListLimits(1, self.paths.len()));
        }
        first_bad(1, &self.paths, |path| {
            self.is_stop(path.from)
                && self.is_stop(path.to)
                && path.from != path.to
                && (1..=3_600).contains(&path.seconds)
        })
    }

    fn admit_hops(&self, hops: &[Hop]) -> Result<(), Refusal> {
        first_bad(2, hops, |hop| !hop.runs || (self.is_stop(hop.from) && self.is_stop(hop.to)))
    }
}

fn first_bad<T>(list: usize, items: &[T], good: impl Fn(&T) -> bool) -> Result<(), Refusal> {
    match items.iter().position(|item| !good(item)) {
        Some(place) => Err(Refusal::ListLimits(list, place)),
        None => Ok(()),
    }
}

fn admit_room(room: &Room) -> Result<(), Refusal> {
    if room.bytes < 225 {
        return Err(Refusal::ShortOutput(0));
    }
    if room.legs < 544 {
        return Err(Refusal::ShortOutput(1));
    }
    Ok(())
}
