//! Boards with everything at random. Most are within all limits; some have one accident.

use super::case::{Case, EVERY_EVENT};
use super::rng::Rng;
use crate::fares::Rule;
use crate::refusal::Refusal;
use crate::replay::{replay, Asked, Listener};
use crate::search::Answer;
use crate::sheet::hexadecimal;
use crate::timetable::{Hop, DAY_END};

/// The least and the most of each, or only the most.
#[derive(Clone, Copy)]
pub struct Size {
    stops: (u32, u32),
    paths: (u32, u32),
    trips: (u32, u32),
    hops: (u32, u32),
    rides: u32,
    tickets: u32,
}

pub const SMALL: Size =
    Size { stops: (2, 6), paths: (0, 5), trips: (1, 8), hops: (1, 4), rides: 4, tickets: 5 };
/// More trips among few stops, so that there are many journeys and more best offers.
pub const DENSE: Size =
    Size { stops: (3, 6), paths: (0, 8), trips: (8, 24), hops: (1, 5), rides: 4, tickets: 8 };

/// In the order of their gauges.
const MEASURES: [&str; 4] = ["metres", "stops", "zones", "level"];

/// Something outside limits.
#[derive(Clone, Copy, PartialEq)]
enum Accident {
    Zone,
    Class,
    PathStop,
    PathSeconds,
    TripNumber,
    Arrival,
    HopStop,
    Interval,
    Trips,
    Pattern,
    Ladder,
    Prices,
    Start,
    Rule,
    Surcharge,
    Bytes,
    Legs,
}

const ACCIDENTS: [Accident; 17] = [
    Accident::Zone,
    Accident::Class,
    Accident::PathStop,
    Accident::PathSeconds,
    Accident::TripNumber,
    Accident::Arrival,
    Accident::HopStop,
    Accident::Interval,
    Accident::Trips,
    Accident::Pattern,
    Accident::Ladder,
    Accident::Prices,
    Accident::Start,
    Accident::Rule,
    Accident::Surcharge,
    Accident::Bytes,
    Accident::Legs,
];

/// What later lines need to know of earlier ones.
struct Frame {
    size: Size,
    accident: Option<Accident>,
    stops: u32,
    trips: u32,
    /// When the vehicles start to run, and the seconds that most times are multiples of.
    base: u32,
    step: u32,
    /// For how many steps trips start.
    window: u32,
    /// Whether what is fast is dear, so that there are early offers and cheap ones.
    express: bool,
}

impl Frame {
    fn new(size: Size, rng: &mut Rng) -> Frame {
        let late = rng.percent(10);
        Frame {
            size,
            accident: rng.percent(10).then(|| rng.one_of(&ACCIDENTS)),
            stops: rng.between(size.stops.0, size.stops.1),
            trips: rng.between(size.trips.0, size.trips.1),
            base: if late { DAY_END - rng.between(600, 5_000) } else { rng.between(0, 20) * 60 },
            step: rng.one_of(&[60, 77, 100, 300]),
            window: rng.between(2, 16),
            express: rng.percent(50),
        }
    }

    fn has(&self, accident: Accident) -> bool {
        self.accident == Some(accident)
    }

    fn stop(&self, rng: &mut Rng) -> u32 {
        rng.between(0, self.stops - 1)
    }

    fn stop_but(&self, stop: u32, rng: &mut Rng) -> u32 {
        (stop + rng.between(1, self.stops - 1)) % self.stops
    }

    fn time(&self, rng: &mut Rng) -> u32 {
        self.base + self.step * rng.between(0, self.window)
    }
}

pub fn case(name: String, size: Size, rng: &mut Rng) -> Case {
    let frame = Frame::new(size, rng);
    let mut case = stops(Case::new(name), &frame, rng);
    case = paths(case, &frame, rng);
    case = if rng.percent(20) { interval_line(case, &frame, rng) } else { hop_list(case, &frame, rng) };
    case = fares(case, &frame, rng);
    case = room(case, &frame, rng);
    log(case, &frame, rng)
}

fn stops(mut case: Case, frame: &Frame, rng: &mut Rng) -> Case {
    let zone_most = rng.one_of(&[0, 1, 2, 3, 63]);
    let class_most = rng.one_of(&[0, 0, 1, 3]);
    for _ in 1..frame.stops {
        case = case.line(format!("stop {} {}", rng.between(0, zone_most), rng.between(0, class_most)));
    }
    let zone = if frame.has(Accident::Zone) { 64 } else { rng.between(0, zone_most) };
    let class = if frame.has(Accident::Class) { 4 } else { rng.between(0, class_most) };
    case.line(format!("stop {zone} {class}"))
}

fn paths(mut case: Case, frame: &Frame, rng: &mut Rng) -> Case {
    for _ in 0..rng.between(frame.size.paths.0, frame.size.paths.1) {
        let from = frame.stop(rng);
        case = case.path(from, frame.stop_but(from, rng), walk_seconds(rng));
    }
    match frame.accident {
        Some(Accident::PathStop) => case.path(0, rng.one_of(&[0, frame.stops]), 60),
        Some(Accident::PathSeconds) => case.path(0, 1, rng.one_of(&[0, 3_601])),
        _ => case,
    }
}

/// Mostly slower than the vehicles, since a walk costs nothing.
fn walk_seconds(rng: &mut Rng) -> u32 {
    match rng.between(0, 5) {
        0 => rng.between(1, 600),
        1 => rng.one_of(&[1, 60, 100]),
        _ => rng.between(600, 3_600),
    }
}

fn hop_list(mut case: Case, frame: &Frame, rng: &mut Rng) -> Case {
    if rng.percent(50) {
        case = case.line("list");
    }
    for trip in 0..frame.trips {
        let hops = trip_hops(trip, frame, rng);
        case = case.hops(&hops);
    }
    let last = frame.trips - 1;
    let extra = running_hop(last, frame.stop(rng), frame.base, frame, rng);
    match frame.accident {
        Some(Accident::TripNumber) => case.hop(Hop { trip: last + 2, ..extra }),
        Some(Accident::Arrival) => case.hop(Hop { trip: last + 1, arrival: extra.departure, ..extra }),
        Some(Accident::HopStop) => case.hop(Hop { trip: last + 1, to: frame.stops, ..extra }),
        _ => case,
    }
}

fn interval_line(case: Case, frame: &Frame, rng: &mut Rng) -> Case {
    let mut pattern = trip_hops(0, frame, rng);
    // Only by accident does a pattern have a hop that does not run.
    while !frame.has(Accident::Pattern) && pattern.iter().any(|hop| !hop.runs) {
        pattern = trip_hops(0, frame, rng);
    }
    let odd_interval = frame.has(Accident::Interval);
    let interval =
        if odd_interval { rng.one_of(&[59, 7_201]) } else { rng.one_of(&[60, 120, 300, 600, 901]) };
    let trips = if frame.has(Accident::Trips) { rng.one_of(&[0, 201]) } else { frame.trips };
    case.line(format!("line {interval} {trips}")).hops(&pattern)
}

/// Hops that keep the rule; after one that does not run the trip goes on from anywhere.
fn trip_hops(trip: u32, frame: &Frame, rng: &mut Rng) -> Vec<Hop> {
    let mut stop = frame.stop(rng);
    let mut time = frame.time(rng);
    let mut hops = Vec::new();
    for _ in 0..rng.between(frame.size.hops.0, frame.size.hops.1) {
        if rng.percent(8) {
            hops.push(still_hop(trip, frame, rng));
            stop = frame.stop(rng);
            time = frame.time(rng);
            continue;
        }
        let departure = if rng.percent(70) { time } else { time + frame.step };
        let hop = running_hop(trip, stop, departure, frame, rng);
        if hop.arrival > DAY_END {
            hops.push(Hop { runs: false, ..hop });
            continue;
        }
        hops.push(hop);
        stop = hop.to;
        time = hop.arrival;
    }
    hops
}

fn running_hop(trip: u32, from: u32, departure: u32, frame: &Frame, rng: &mut Rng) -> Hop {
    let in_place = rng.percent(3);
    let fast = rng.percent(50);
    let steps = match (frame.express, fast) {
        (true, true) => 1,
        (true, false) => rng.between(3, 8),
        (false, _) => rng.between(1, 4),
    };
    let dear = frame.express && fast;
    Hop {
        trip,
        from,
        to: if in_place { from } else { frame.stop_but(from, rng) },
        departure,
        arrival: departure + frame.step * steps - rng.one_of(&[0, 0, 0, 1]),
        metres: if dear { rng.one_of(&[2_000, 100_000]) } else { rng.one_of(&[0, 500, 1_000, 1_000, 2_000]) },
        level: if dear { rng.between(1, 7) } else { rng.between(0, 3) } as u8,
        event: if dear { rng.one_of(&[2, 2, 3, 15, 0]) } else { rng.one_of(&[0, 0, 0, 0, 1, 2, 3]) },
        runs: true,
    }
}

/// Nothing but the trip number is looked at.
fn still_hop(trip: u32, frame: &Frame, rng: &mut Rng) -> Hop {
    Hop {
        trip,
        from: rng.between(0, frame.stops + 1),
        to: rng.between(0, frame.stops + 1),
        departure: rng.between(0, 4_000),
        arrival: rng.one_of(&[0, 1_000, 172_801, u32::MAX]),
        metres: rng.one_of(&[0, 100_001, u32::MAX]),
        level: rng.one_of(&[0, 7, 8, 255]),
        event: rng.one_of(&[0, 2, 16, 255]),
        runs: false,
    }
}

fn fares(mut case: Case, frame: &Frame, rng: &mut Rng) -> Case {
    let gauge = rng.between(0, 3) as usize;
    // Mostly the measure shows on the gauge that the rules look at.
    match rng.between(0, 9) {
        0 => {}
        1..=3 => case = case.measure("all"),
        4 => case = case.measure(rng.one_of(&MEASURES)),
        _ => case = case.measure(MEASURES[gauge]),
    }
    case = if rng.percent(20) { ladder(case, frame, rng) } else { table(case, gauge, frame, rng) };
    if frame.has(Accident::Surcharge) {
        let (event, amount) = rng.one_of(&[(0, 5), (1, 5), (16, 5), (2, 0), (2, 100_000)]);
        return case.surcharge(event, amount);
    }
    if rng.percent(50) {
        case = case.surcharge(rng.one_of(&[2, 2, 3, 15]), rng.one_of(&[1, 30, 50, 100, 99_999]));
    }
    case
}

fn ladder(case: Case, frame: &Frame, rng: &mut Rng) -> Case {
    if frame.has(Accident::Ladder) {
        let (first, step) = rng.one_of(&[(1_000_000, 0), (0, 100_000)]);
        return case.ladder(first, step);
    }
    case.ladder(rng.between(0, 4) * 100, rng.one_of(&[0, 1, 50, 100, 99_999]))
}

fn table(case: Case, gauge: usize, frame: &Frame, rng: &mut Rng) -> Case {
    let count = rng.between(1, frame.size.tickets).max(if rng.percent(70) { 3 } else { 1 });
    let mut prices: Vec<u32> = (0..count).map(|_| price(rng)).collect();
    prices.sort_unstable();
    if frame.has(Accident::Prices) {
        prices.push(10_000_000);
    }
    let mut start = || rng.one_of(&[0, 0, 0, 0, 0, count / 2]);
    let mut starts = [start(), start(), start(), start()];
    if frame.has(Accident::Start) {
        starts[rng.between(0, 3) as usize] = count;
    }
    let mut case = case.table(starts, &prices).rules(&rules(count, gauge, rng));
    if frame.has(Accident::Rule) {
        case = case.rule(Rule { ticket: 0, target: 0, events: EVERY_EVENT, minima: [0; 4] });
    }
    case
}

fn price(rng: &mut Rng) -> u32 {
    match rng.between(0, 19) {
        0 => 0,
        1 => 9_999_950,
        2..=9 => rng.between(1, 6) * 100,
        _ => rng.between(10, 90) * 10,
    }
}

fn rules(tickets: u32, gauge: usize, rng: &mut Rng) -> Vec<Rule> {
    if tickets < 2 {
        return Vec::new();
    }
    match rng.between(0, 9) {
        0..=4 => graded_rules(tickets, gauge, rng),
        5 | 6 => {
            (0..rng.between(1, 6)).map(|_| Rule { minima: [0; 4], ..loose_rule(tickets, rng) }).collect()
        }
        _ => (0..rng.between(0, 9)).map(|_| loose_rule(tickets, rng)).collect(),
    }
}

/// From each ticket to each higher one, at minima that rise with the target; sometimes with one
/// rule spoiled or left out.
fn graded_rules(tickets: u32, gauge: usize, rng: &mut Rng) -> Vec<Rule> {
    let mut least: Vec<u32> = (0..tickets).map(|_| minimum(gauge, rng)).collect();
    least.sort_unstable();
    let mut rules = Vec::new();
    for ticket in 0..tickets - 1 {
        for target in ticket + 1..tickets {
            let mut minima = [0; 4];
            minima[gauge] = least[target as usize];
            rules.push(Rule { ticket: ticket as u8, target: target as u8, events: EVERY_EVENT, minima });
        }
    }
    let place = rng.between(0, rules.len() as u32 - 1) as usize;
    match rng.between(0, 9) {
        0 => rules[place].events = rng.between(0, 65_535) as u16,
        1 => rules[place].minima[gauge] = minimum(gauge, rng),
        2 => {
            rules.remove(place);
        }
        _ => {}
    }
    rules
}

/// Minima in any order, so that higher tickets may come first.
fn loose_rule(tickets: u32, rng: &mut Rng) -> Rule {
    let ticket = rng.between(0, tickets - 2);
    let target = rng.between(ticket + 1, tickets - 1);
    let events = match rng.between(0, 5) {
        0 => 1 << rng.between(0, 3),
        1 => rng.between(0, 65_535) as u16,
        2 => rng.one_of(&[0, 2, 3, 4]),
        _ => EVERY_EVENT,
    };
    let mut minima = [0; 4];
    // Mostly one gauge counts, sometimes several or none.
    for _ in 0..rng.one_of(&[0, 1, 1, 1, 1, 2]) {
        let gauge = rng.between(0, 3) as usize;
        minima[gauge] = minimum(gauge, rng);
    }
    Rule { ticket: ticket as u8, target: target as u8, events, minima }
}

/// What small journeys reach.
fn minimum(gauge: usize, rng: &mut Rng) -> u32 {
    match gauge {
        0 => rng.one_of(&[500, 1_000, 1_001, 1_500, 2_000, 3_000, 4_000, 100_000]),
        1 => rng.between(1, 6),
        2 => rng.between(1, 5),
        _ => rng.between(1, 3),
    }
}

fn room(case: Case, frame: &Frame, rng: &mut Rng) -> Case {
    match frame.accident {
        Some(Accident::Bytes) => return case.room(4_096, 256, 224, rng.one_of(&[543, 544])),
        Some(Accident::Legs) => return case.room(4_096, 256, 225, 543),
        _ => {}
    }
    if rng.percent(85) {
        return case;
    }
    let labels = rng.one_of(&[0, 1, 2, 5, 10, 40, 4_096]);
    let aboard = rng.one_of(&[0, 1, 2, 4, 8, 256]);
    case.room(labels, aboard, 225, 544)
}

fn log(mut case: Case, frame: &Frame, rng: &mut Rng) -> Case {
    for _ in 0..rng.between(1, 12) {
        let trip = if rng.percent(3) { frame.trips } else { rng.between(0, frame.trips - 1) };
        case = match rng.between(0, 19) {
            0 | 1 => case.cancel(trip),
            // A reinstatement mostly follows a cancellation of the same trip.
            2 => question(case.cancel(trip), frame, rng).reinstate(trip),
            3 => case.reinstate(trip),
            4..=7 => case.delay(trip, delay_seconds(frame, rng)),
            _ => question(case, frame, rng),
        };
    }
    case
}

fn delay_seconds(frame: &Frame, rng: &mut Rng) -> u32 {
    match rng.between(0, 9) {
        0 => 0,
        1 => rng.one_of(&[7_200, 7_201, 9_000]),
        2 => rng.between(1, 7_200),
        3 => frame.step + 1,
        _ => frame.step * rng.between(1, 4),
    }
}

fn question(case: Case, frame: &Frame, rng: &mut Rng) -> Case {
    let origin = if rng.percent(2) { frame.stops } else { frame.stop(rng) };
    let destination = match rng.between(0, 99) {
        0 | 1 => frame.stops,
        2..=6 => origin,
        _ => frame.stop_but(origin, rng),
    };
    let departure = match rng.between(0, 19) {
        0 => rng.one_of(&[0, DAY_END, DAY_END + 1]),
        1..=5 => frame.time(rng),
        _ => frame.base,
    };
    let rides = if rng.percent(3) { rng.one_of(&[0, 8, 9]) } else { rng.between(1, frame.size.rides) };
    let ask = format!("ask {origin} {destination} {departure} {rides}");
    match rng.between(0, 9) {
        0 => case.line(format!("{ask} = 00")),
        1 => {
            let sheet = sheet_of(&case, &ask);
            case.line(format!("{ask} = {sheet}"))
        }
        _ => case.line(ask),
    }
}

/// The bytes that the question gets after the log so far, or a byte that is no sheet.
fn sheet_of(case: &Case, ask: &str) -> String {
    let mut last = LastSheet::default();
    let text = format!("{}{ask}\n", case.text());
    match (replay(&text, &mut last), last.sheet) {
        (Ok(()), Some(sheet)) => hexadecimal(&sheet),
        _ => "ff".to_string(),
    }
}

#[derive(Default)]
struct LastSheet {
    sheet: Option<Vec<u8>>,
}

impl Listener for LastSheet {
    fn case(&mut self, _name: &str) -> Result<(), String> {
        Ok(())
    }

    fn done(&mut self, _outcome: Result<(), Refusal>) -> Result<(), String> {
        Ok(())
    }

    fn asked(&mut self, asked: &Asked) -> Result<(), String> {
        self.sheet = asked.outcome.as_ref().ok().map(Answer::sheet);
        Ok(())
    }
}
