//! Refusals 5 to 8, full tables, and what delays and cancellations do to hops.

use crate::generate::case::{hop, Case};
use crate::generate::rng::Rng;
use crate::timetable::{Hop, DAY_END};

pub fn cases(rng: &mut Rng) -> Vec<Case> {
    let mut cases = trip_numbers(rng);
    cases.extend(full_tables(rng));
    cases.extend(delays(rng));
    cases.extend(past_the_end(rng));
    cases.extend(broken_trips(rng));
    cases
}

/// Trips from stop 0 to stop 1, 60 seconds apart, as a list or as a line.
fn many_trips(name: &str, trips: u32, as_line: bool) -> Case {
    let case = Case::new(format!("log-{name}-{}", if as_line { "line" } else { "list" }))
        .zones(&[0, 1])
        .measure("zones")
        .ladder(200, 100);
    if as_line {
        return case.line(format!("line 60 {trips}")).hop(hop(0, 0, 1, 600, 650));
    }
    let hops: Vec<Hop> = (0..trips).map(|trip| hop(trip, 0, 1, 600 + trip * 60, 650 + trip * 60)).collect();
    case.hops(&hops)
}

fn trip_numbers(rng: &mut Rng) -> Vec<Case> {
    let trips = rng.between(1, 40);
    let mut cases = Vec::new();
    for as_line in [false, true] {
        let mut case = many_trips(&format!("trips-{trips}"), trips, as_line);
        for trip in [trips - 1, trips, trips + 1, 65_535, 65_536, u32::MAX] {
            case = case.reinstate(trip).cancel(trip).reinstate(trip).reinstate(trip);
            case = case.delay(trip, 0).delay(trip, 1).delay(trip, 7_201).delay(trip, 0);
        }
        cases.push(case.ask(0, 1, 600, 1));
    }
    let empty = Case::new("log-no-trips").stops(2).ladder(1, 1);
    cases.push(empty.cancel(0).reinstate(0).delay(0, 0).delay(0, 9_000).ask(0, 1, 0, 1).ask(1, 1, 0, 1));
    cases
}

fn full_tables(rng: &mut Rng) -> Vec<Case> {
    let freed = rng.between(0, 31);
    let mut cases = Vec::new();
    for as_line in [false, true] {
        let mut case = many_trips("full-cancels", 40, as_line).ask(0, 1, 600, 1);
        for trip in 0..34 {
            case = case.cancel(trip);
        }
        case = case.ask(0, 1, 600, 1).cancel(31).cancel(0).delay(39, 60).reinstate(33);
        case = case.reinstate(freed).ask(0, 1, 600, 1).reinstate(freed).cancel(35).cancel(freed).cancel(36);
        cases.push(case.ask(0, 1, 600, 1).reinstate(35).cancel(freed).ask(0, 1, 600, 1));

        let mut case = many_trips("full-delays", 40, as_line).ask(0, 1, 600, 1);
        for trip in 0..34 {
            case = case.delay(trip, 3_000 + trip);
        }
        case = case.ask(0, 1, 600, 1).delay(31, 10).delay(33, 0).delay(33, 7_201).delay(31, 7_201).cancel(39);
        case = case.delay(freed, 0).ask(0, 1, 600, 1).delay(33, 7_201).delay(33, 7_200).delay(freed, 1);
        cases.push(case.delay(33, 0).delay(freed, 1).ask(0, 1, 600, 1).delay(34, 9_000));
    }
    // Order in the tables makes no difference: filled from above.
    let mut case = many_trips("full-from-above", 33, false);
    for trip in (0..33).rev() {
        case = case.cancel(trip).delay(trip, 60);
    }
    cases.push(case.ask(0, 1, 600, 1).reinstate(32).cancel(0).ask(0, 1, 600, 1).delay(0, 60));
    cases
}

/// Trip 0 connects to trip 1 or, when too late, to trip 2.
fn connection(name: &str, start: u32) -> Case {
    Case::new(format!("log-{name}"))
        .zones(&[0, 1, 2])
        .hop(hop(0, 0, 1, start, start + 100))
        .hop(hop(1, 1, 2, start + 400, start + 500))
        .hop(hop(2, 1, 2, start + 8_000, start + 8_100))
        .measure("zones")
        .ladder(100, 50)
}

fn delays(rng: &mut Rng) -> Vec<Case> {
    let start = rng.between(600, 5_000);
    let mut case = connection("delays", start);
    for seconds in [299, 300, 301, 7_199, 7_200, 7_201, 1, 0, u32::MAX] {
        case = case.delay(0, seconds).ask(0, 2, start, 2).ask(0, 2, start + 1, 2);
    }
    let ask = |case: Case| case.ask(0, 2, start, 2);
    let both = ask(ask(connection("cancelled-and-delayed", start).cancel(0)).delay(0, 300));
    let both = ask(ask(ask(both.reinstate(0)).cancel(1)).delay(1, 5)).reinstate(1);
    let again = ask(connection("cancel-twice", start).cancel(1).cancel(1));
    let again = ask(again.reinstate(1)).reinstate(1);
    // Equal delays keep the connection, and a delay of the second trip makes it.
    let alike = ask(ask(connection("alike", start).delay(0, 400)).delay(1, 100));
    vec![case, ask(both), ask(again), ask(ask(alike.delay(1, 99)).delay(0, 0))]
}

fn past_the_end(rng: &mut Rng) -> Vec<Case> {
    let late = rng.between(1, 7_000);
    let mut cases = Vec::new();
    for as_line in [false, true] {
        let end = DAY_END - late;
        let hops = [hop(0, 0, 1, end - 200, end - 100), hop(0, 1, 2, end - 100, end)];
        let name = format!("log-past-the-end-{}", if as_line { "line" } else { "list" });
        let mut case = Case::new(name).zones(&[0, 1, 2]).path(2, 0, 3_600).path(1, 2, 3_600);
        if as_line {
            case = case.line("line 60 1");
        }
        case = case.hops(&hops).measure("zones").ladder(100, 50);
        for seconds in [late - 1, late, late + 1, late + 100, late + 101] {
            case = case.delay(0, seconds);
            case = case.ask(0, 2, end - 200, 1).ask(0, 1, end - 200, 1).ask(1, 0, end - 200, 1);
        }
        // A hop that does not run is unmoved, and nobody rides it at its old time either.
        cases.push(case.ask(1, 2, end - 100, 2).delay(0, 0).ask(1, 2, end - 100, 2));
    }
    let exact = Case::new("log-day-end")
        .stops(3)
        .path(1, 2, 3_600)
        .hop(hop(0, 0, 1, DAY_END - 1, DAY_END))
        .ladder(5, 0)
        .ask(0, 1, DAY_END - 1, 1)
        .ask(0, 1, DAY_END, 1)
        .ask(0, 2, DAY_END - 1, 1)
        .ask(1, 2, DAY_END, 8)
        .delay(0, 1);
    cases.push(exact.ask(0, 1, DAY_END - 1, 1).ask(0, 1, 0, 1));
    cases
}

/// A hop in the middle of a trip does not run: nobody rides across it, but either side is a ride.
fn broken_trips(rng: &mut Rng) -> Vec<Case> {
    let start = rng.between(600, 5_000);
    let still = Hop { runs: false, ..hop(0, 1, 2, start + 100, start + 200) };
    let hops = [
        hop(0, 0, 1, start, start + 100),
        still,
        hop(0, 2, 3, start + 200, start + 300),
        hop(1, 1, 2, start + 100, start + 200),
    ];
    let case = Case::new("log-still-hop").zones(&[0, 1, 2, 3]).hops(&hops).measure("all").ladder(100, 50);
    let mut asked = case;
    for rides in 1..=3 {
        asked = asked.ask(0, 3, start, rides).ask(0, 2, start, rides).ask(1, 2, start, rides);
    }
    // The trip meets itself across the hop that does not run, though no vehicle goes there.
    let meets = [hops[0], Hop { from: 9, to: 9, ..still }, Hop { from: 1, ..hops[2] }];
    let again = Case::new("log-meets-itself").zones(&[0, 1, 2, 3]).hops(&meets).measure("stops").ladder(7, 7);
    let again = again.ask(0, 3, start, 1).ask(0, 3, start, 2).delay(0, 50).ask(0, 3, start, 2);
    vec![asked.delay(0, 1).ask(0, 3, start, 3).cancel(1).ask(0, 3, start, 3), again]
}
