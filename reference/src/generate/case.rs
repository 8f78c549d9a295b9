//! The text of one board, line by line.

use crate::fares::Rule;
use crate::timetable::Hop;

pub const EVERY_EVENT: u16 = 0xffff;

pub struct Case {
    name: String,
    lines: Vec<String>,
}

impl Case {
    pub fn new(name: impl Into<String>) -> Case {
        Case { name: name.into(), lines: Vec::new() }
    }

    /// Rounds after the first have names of their own.
    pub fn renamed(mut self, round: usize) -> Case {
        self.name = format!("{}-{round}", self.name);
        self
    }

    pub fn text(&self) -> String {
        format!("case {}\n{}", self.name, self.body())
    }

    pub fn len(&self) -> usize {
        self.lines.len()
    }

    pub fn insert(mut self, place: usize, line: &str) -> Case {
        self.lines.insert(place, line.to_string());
        self
    }

    /// The words of one line changed.
    pub fn altered(mut self, place: usize, change: impl FnOnce(&mut Vec<String>)) -> Case {
        let mut words: Vec<String> = self.lines[place].split(' ').map(str::to_string).collect();
        change(&mut words);
        self.lines[place] = words.join(" ");
        self
    }

    /// No lines that begin with one of these words.
    pub fn without(mut self, first_words: &[&str]) -> Case {
        self.lines.retain(|line| !line.split(' ').next().is_some_and(|word| first_words.contains(&word)));
        self
    }

    fn body(&self) -> String {
        self.lines.iter().map(|line| format!("{line}\n")).collect()
    }

    pub fn line(mut self, line: impl Into<String>) -> Case {
        self.lines.push(line.into());
        self
    }

    pub fn lines<T: Into<String>>(mut self, lines: impl IntoIterator<Item = T>) -> Case {
        self.lines.extend(lines.into_iter().map(Into::into));
        self
    }

    /// Stops of class 0 in these zones.
    pub fn zones(self, zones: &[u32]) -> Case {
        self.lines(zones.iter().map(|zone| format!("stop {zone} 0")))
    }

    pub fn stops(self, count: usize) -> Case {
        self.lines((0..count).map(|_| "stop 0 0"))
    }

    pub fn path(self, from: u32, to: u32, seconds: u32) -> Case {
        self.line(format!("path {from} {to} {seconds}"))
    }

    pub fn hop(self, hop: Hop) -> Case {
        self.line(format!(
            "hop {} {} {} {} {} {} {} {} {}",
            hop.trip,
            hop.from,
            hop.to,
            hop.departure,
            hop.arrival,
            hop.metres,
            hop.level,
            hop.event,
            u32::from(hop.runs),
        ))
    }

    pub fn hops(self, hops: &[Hop]) -> Case {
        hops.iter().fold(self, |case, hop| case.hop(*hop))
    }

    pub fn measure(self, name: &str) -> Case {
        self.line(format!("measure {name}"))
    }

    pub fn table(self, starts: [u32; 4], prices: &[u32]) -> Case {
        let words: Vec<String> = starts.iter().chain(prices).map(u32::to_string).collect();
        self.line(format!("table {}", words.join(" ")))
    }

    pub fn rule(self, rule: Rule) -> Case {
        let [m0, m1, m2, m3] = rule.minima;
        self.line(format!("rule {} {} {} {m0} {m1} {m2} {m3}", rule.ticket, rule.target, rule.events))
    }

    pub fn rules(self, rules: &[Rule]) -> Case {
        rules.iter().fold(self, |case, rule| case.rule(*rule))
    }

    pub fn ladder(self, first: u32, step: u32) -> Case {
        self.line(format!("ladder {first} {step}"))
    }

    pub fn surcharge(self, event: u32, amount: u32) -> Case {
        self.line(format!("surcharge {event} {amount}"))
    }

    pub fn room(self, labels: u32, aboard: u32, bytes: u32, legs: u32) -> Case {
        self.line(format!("room {labels} {aboard} {bytes} {legs}"))
    }

    pub fn cancel(self, trip: u32) -> Case {
        self.line(format!("cancel {trip}"))
    }

    pub fn reinstate(self, trip: u32) -> Case {
        self.line(format!("reinstate {trip}"))
    }

    pub fn delay(self, trip: u32, seconds: u32) -> Case {
        self.line(format!("delay {trip} {seconds}"))
    }

    pub fn ask(self, origin: u32, destination: u32, departure: u32, rides: u32) -> Case {
        self.line(format!("ask {origin} {destination} {departure} {rides}"))
    }
}

/// A running hop of 1,000 metres with no level and no event.
pub fn hop(trip: u32, from: u32, to: u32, departure: u32, arrival: u32) -> Hop {
    Hop { trip, from, to, departure, arrival, metres: 1_000, level: 0, event: 0, runs: true }
}

pub fn rule(ticket: u8, target: u8, minima: [u32; 4]) -> Rule {
    Rule { ticket, target, events: EVERY_EVENT, minima }
}
