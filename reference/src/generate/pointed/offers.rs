//! Refusal 14, ties, detours, tickets that cover nothing, walks, and journeys without a ride.

use crate::fares::{Rule, PRICE_MOST};
use crate::generate::case::{hop, rule, Case};
use crate::generate::rng::Rng;
use crate::timetable::Hop;

pub fn cases(rng: &mut Rng) -> Vec<Case> {
    let mut cases = many_offers(rng);
    cases.push(full_sheet());
    cases.extend(ties(rng));
    cases.extend(detours(rng));
    cases.extend(uncovered_tickets(rng));
    cases.extend(walks(rng));
    cases.extend(changes(rng));
    cases.extend(gauges(rng));
    cases.extend(rooms(rng));
    cases.push(ferry("ferry", rng.between(0, 50_000)));
    cases
}

/// A table with 32 tickets by distance, 100 cents apart, and a surcharge of 50 for event 2: so 64
/// prices. Direct trips from stop 0 to stop 1 that arrive later and cost less, one by one.
fn falling(name: String, offers: u32, start: u32) -> Case {
    let prices: Vec<u32> = (0..32).map(|ticket| 100 + ticket * 100).collect();
    let rules: Vec<Rule> =
        (1..32).map(|ticket| rule(0, ticket, [u32::from(ticket) * 1_000, 0, 0, 0])).collect();
    let mut case = Case::new(name).stops(3).measure("metres");
    for trip in 0..offers {
        let rank = offers - 1 - trip;
        let ride = hop(trip, 0, 1, start, start + 100 + trip);
        let event = if rank % 2 == 1 { 2 } else { 0 };
        case = case.hop(Hop { metres: rank / 2 * 1_000, event, ..ride });
    }
    case.table([0; 4], &prices).rules(&rules).surcharge(2, 50)
}

fn many_offers(rng: &mut Rng) -> Vec<Case> {
    let start = rng.between(0, 100_000);
    let mut cases = Vec::new();
    for offers in [1, 31, 32, 33, 34, 64] {
        let case = falling(format!("offers-{offers}"), offers, start);
        let case = case.ask(0, 1, start, 1).ask(0, 1, start, 8);
        cases.push(case.cancel(offers / 2).ask(0, 1, start, 1).line(format!("ask 0 1 {start} 1 = 00")));
    }
    // One more offer by walking, and one less where a trip is so late that another beats it.
    for offers in [31, 32] {
        let case = falling(format!("offers-{offers}-and-a-walk"), offers, start).path(0, 1, 3_600);
        let case = case.ask(0, 1, start, 1).delay(0, 1).ask(0, 1, start, 1);
        cases.push(case.delay(0, 4_000).ask(0, 1, start, 1).delay(offers - 1, 3_500).ask(0, 1, start, 1));
    }
    // The ride goes on to stop 2, where the offers are the same: two hops to a row at 32 rows.
    let mut case = falling("offers-32-of-two-rides".to_string(), 32, start);
    case = case.hop(hop(32, 1, 2, start + 120, start + 200)).hop(hop(33, 1, 2, start + 131, start + 201));
    cases.push(case.ask(0, 2, start, 2).ask(0, 2, start, 1));
    cases
}

/// 32 rows of seven bytes each, with eight rides and nine walks each: 225 bytes and 544 legs.
fn full_sheet() -> Case {
    let start = 67_000;
    let prices: Vec<u32> = (0..32).map(|ticket| 0x01_01_01 + ticket * 0x01_01).collect();
    let rules: Vec<Rule> =
        (1..32).map(|ticket| rule(0, ticket, [u32::from(ticket) * 1_000, 0, 0, 0])).collect();
    let mut case = Case::new("offers-full-sheet").stops(18).measure("metres");
    for walk in 0..9 {
        case = case.path(2 * walk, 2 * walk + 1, 10);
    }
    for trip in 0..7 {
        let departure = start + 10 + trip * 110;
        let ride = hop(trip, 2 * trip + 1, 2 * trip + 2, departure, departure + 100);
        case = case.hop(Hop { metres: 0, ..ride });
    }
    for last in 0..32 {
        let ride = hop(7 + last, 15, 16, start + 800, 0x01_11_01 + last);
        case = case.hop(Hop { metres: (31 - last) * 1_000, ..ride });
    }
    let case = case.table([0; 4], &prices).rules(&rules).room(4_096, 256, 225, 544);
    case.ask(0, 17, start, 8).ask(0, 17, start, 7).ask(0, 17, start + 1, 8).cancel(20).ask(0, 17, start, 8)
}

fn ties(rng: &mut Rng) -> Vec<Case> {
    let start = rng.between(0, 9_000);
    let direct = |trip, late, zone_stop| {
        [hop(trip, 0, zone_stop, start, start + 50), hop(trip, zone_stop, 1, start + 50, start + 100 + late)]
    };
    let mut cases = Vec::new();
    // Two trips with the same or nearly the same arrival, through the same zone or another one.
    for late in [0, 1] {
        for (first, second) in [(2, 2), (2, 3), (3, 2)] {
            let case = Case::new(format!("tie-{late}-{first}-{second}")).zones(&[0, 0, 0, 1]);
            let case = case.hops(&direct(0, 0, first)).hops(&direct(1, late, second));
            let case = case.measure("zones").ladder(100, 50);
            cases.push(case.ask(0, 1, start, 1).ask(0, 1, start, 3).delay(0, 1).ask(0, 1, start, 1));
        }
    }
    // The same arrival by walking and riding; a free ride at the price of a walk.
    for (first, seconds) in [(100, 99), (100, 100), (100, 101), (0, 99), (0, 100), (0, 101)] {
        let case = Case::new(format!("tie-walk-{first}-{seconds}")).stops(2).path(0, 1, seconds);
        let case = case.hop(hop(0, 0, 1, start, start + 100)).ladder(first, 0);
        cases.push(case.ask(0, 1, start, 1).ask(1, 0, start, 1));
    }
    // Two footpaths between the same stops, the same hop twice, and equal prices on two tickets.
    let case = Case::new("tie-doubles").stops(3).path(0, 1, 60).path(0, 1, 60).path(0, 1, 59);
    let case = case.hop(hop(0, 1, 2, start + 60, start + 90)).hop(hop(1, 1, 2, start + 60, start + 90));
    let case = case.table([0; 4], &[300, 300]).rule(rule(0, 1, [0, 1, 0, 0]));
    cases.push(case.ask(0, 2, start, 1).ask(0, 1, start, 1).ask(0, 2, start + 1, 1).ask(0, 2, start + 2, 1));
    // A marked ticket held at the highest price ties with the highest price itself.
    let late = Hop { event: 2, ..hop(0, 0, 1, start, start + 50) };
    let dear = Hop { level: 1, ..hop(1, 0, 1, start, start + 60) };
    let case = Case::new("tie-held").stops(2).hop(late).hop(dear).measure("level").surcharge(2, 99_999);
    let case = case.table([0; 4], &[PRICE_MOST - 9, PRICE_MOST]).rule(rule(0, 1, [0, 0, 0, 1]));
    cases.push(case.ask(0, 1, start, 1).cancel(0).ask(0, 1, start, 1));
    cases
}

/// A way that is dearer or later so far, and cheaper or earlier in the end.
fn detours(rng: &mut Rng) -> Vec<Case> {
    let start = rng.between(0, 9_000);
    let mut cases = Vec::new();
    // Through stop 1 by event 3 one gets a day ticket that no longer rises.
    let day = Hop { event: 3, ..hop(0, 0, 1, start, start + 100) };
    let hops = [
        day,
        hop(1, 0, 1, start, start + 100),
        hop(2, 1, 2, start + 100, start + 200),
        hop(2, 2, 3, start + 200, start + 300),
    ];
    let to_day = Rule { events: 1 << 3, ..rule(0, 1, [0; 4]) };
    for day_price in [299, 300, 301] {
        let case = Case::new(format!("detour-day-ticket-{day_price}")).zones(&[0, 1, 2, 3]).hops(&hops);
        let case = case.measure("zones").table([0; 4], &[200, day_price, 300, 400]);
        let rules = [to_day, rule(0, 2, [0, 0, 3, 0]), rule(2, 3, [0, 0, 4, 0])];
        let case = if day_price > 300 { case.rules(&rules[..2]) } else { case.rules(&rules) };
        cases.push(case.ask(0, 1, start, 2).ask(0, 2, start, 2).ask(0, 3, start, 2));
    }
    // A higher level early on skips the rule that would cost more later.
    let hops = [
        Hop { level: 1, ..hop(0, 0, 1, start, start + 100) },
        Hop { level: 2, ..hop(1, 0, 1, start, start + 100) },
        Hop { event: 4, ..hop(2, 1, 2, start + 100, start + 200) },
    ];
    let skip = [rule(0, 1, [0, 0, 0, 2]), Rule { events: 1 << 4, ..rule(0, 2, [0; 4]) }];
    let case = Case::new("detour-skip").stops(3).hops(&hops).measure("level");
    let case = case.table([0; 4], &[100, 150, 900]).rules(&skip);
    cases.push(case.ask(0, 1, start, 1).ask(0, 2, start, 2).cancel(1).ask(0, 2, start, 2));
    // One ride less now leaves a ride for later.
    let hops = [
        hop(0, 0, 2, start, start + 50),
        hop(1, 2, 1, start + 50, start + 100),
        hop(2, 0, 1, start, start + 120),
        hop(3, 1, 3, start + 130, start + 200),
    ];
    let mut case = Case::new("detour-rides").stops(4).path(0, 1, 125).hops(&hops).ladder(100, 0);
    for rides in 1..=3 {
        case = case.ask(0, 3, start, rides).ask(0, 1, start, rides);
    }
    cases.push(case);
    // Not being on foot at stop 1 leaves the walk on to stop 2.
    let case = Case::new("detour-on-foot").stops(3).path(0, 1, 50).path(1, 2, 50).ladder(100, 0);
    let case = case.hop(hop(0, 0, 1, start, start + 60));
    cases.push(case.ask(0, 1, start, 1).ask(0, 2, start, 1).cancel(0).ask(0, 2, start, 1));
    cases
}

/// Tables whose tickets are neither free nor fixed, so that nothing is dropped for them.
fn uncovered_tickets(rng: &mut Rng) -> Vec<Case> {
    let start = rng.between(0, 9_000);
    let hops = [
        Hop { metres: 500, ..hop(0, 0, 1, start, start + 100) },
        Hop { metres: 1_500, ..hop(1, 0, 1, start, start + 90) },
        Hop { metres: 2_500, ..hop(2, 0, 1, start, start + 80) },
        Hop { metres: 700, event: 3, ..hop(3, 1, 2, start + 100, start + 200) },
        Hop { metres: 100, ..hop(4, 1, 2, start + 100, start + 190) },
    ];
    let gap = vec![rule(0, 2, [1_000, 0, 0, 0]), rule(0, 1, [500, 0, 0, 0])];
    let once = vec![Rule { events: 1 << 3, ..rule(0, 2, [1_200, 0, 0, 0]) }, rule(0, 1, [2_000, 0, 0, 0])];
    let mut cross = vec![rule(0, 1, [2_000, 0, 0, 0]), rule(1, 3, [2_600, 0, 0, 0])];
    cross.push(rule(0, 2, [600, 0, 0, 0]));
    cross.push(Rule { events: 2, ..rule(1, 2, [0; 4]) });
    let mut cases = Vec::new();
    for (name, rules) in [("gap", gap), ("once", once), ("cross", cross)] {
        let case =
            Case::new(format!("uncovered-{name}")).stops(3).path(1, 2, 95).hops(&hops).measure("metres");
        let case = case.table([0; 4], &[100, 150, 200, 250]).rules(&rules);
        let case = case.ask(0, 2, start, 1).ask(0, 2, start, 2).ask(0, 1, start, 2);
        cases.push(case.cancel(2).ask(0, 2, start, 2).delay(4, 20).ask(0, 2, start, 2));
    }
    cases
}

fn walks(rng: &mut Rng) -> Vec<Case> {
    let start = rng.between(0, 9_000);
    let seconds = rng.between(1, 3_600);
    let mut cases = Vec::new();
    let two = Case::new("walk-two-in-a-row").stops(3).path(0, 1, seconds).path(1, 2, seconds).ladder(1, 1);
    cases.push(two.ask(0, 1, start, 1).ask(0, 2, start, 8).ask(1, 2, start, 1));
    // Before, between and after rides; the second trip is just caught or just missed.
    for wait in [0, 1] {
        let hops = [
            hop(0, 1, 2, start + seconds, start + seconds + 100),
            hop(1, 3, 4, start + 2 * seconds + 100 - wait, start + 2 * seconds + 200),
        ];
        let case = Case::new(format!("walk-around-{wait}")).zones(&[0, 1, 2, 3, 4, 5]);
        let case = case.path(0, 1, seconds).path(2, 3, seconds).path(4, 5, seconds).hops(&hops);
        let case = case.measure("zones").ladder(100, 50);
        cases.push(case.ask(0, 5, start, 2).ask(0, 5, start, 1).ask(0, 3, start, 1).ask(0, 5, start + 1, 2));
    }
    // Walking there and back again is two walks; with a ride between it is not.
    let back = Case::new("walk-back").stops(2).path(0, 1, 60).path(1, 0, 60).ladder(10, 0);
    let back = back.hop(hop(0, 1, 1, start + 60, start + 70));
    cases.push(back.ask(0, 0, start, 1).ask(0, 1, start, 1).ask(1, 1, start, 2));
    let here = Case::new("walk-none").zones(&[5, 6]).hop(hop(0, 0, 1, start, start + 1));
    let here = here.hop(hop(1, 1, 0, start + 1, start + 2)).ladder(0, 0);
    cases.push(here.ask(0, 0, start, 1).ask(0, 0, 0, 8).ask(1, 1, 172_800, 1).line("ask 0 0 0 1 = 01 00"));
    cases
}

/// Rules that only a change of vehicle meets: also getting off and on the same trip again.
fn changes(rng: &mut Rng) -> Vec<Case> {
    let start = rng.between(0, 9_000);
    let hops = [
        hop(0, 0, 1, start, start + 100),
        hop(0, 1, 2, start + 100, start + 200),
        hop(1, 1, 2, start + 100, start + 150),
    ];
    let change = |ticket, target| Rule { events: 2, ..rule(ticket, target, [0; 4]) };
    let mut cases = Vec::new();
    for event in [0, 1, 2] {
        let mut ridden = hops;
        ridden[2].event = event;
        let case = Case::new(format!("change-event-{event}")).zones(&[0, 1, 2]).hops(&ridden).measure("all");
        let case = case.table([0; 4], &[100, 200, 300]).rules(&[change(0, 1), change(1, 2)]);
        cases.push(case.ask(0, 2, start, 1).ask(0, 2, start, 2).ask(1, 2, start, 8));
    }
    // A change gives a ticket that rises less than the one without a change.
    let split = Case::new("change-pays").zones(&[0, 1, 2]).hops(&hops[..2]).measure("zones");
    let split = split.table([0; 4], &[100, 150, 400]).rules(&[change(0, 1), rule(0, 2, [0, 0, 3, 0])]);
    cases.push(split.ask(0, 2, start, 1).ask(0, 2, start, 2).ask(0, 2, start, 8));
    // Each class has a start ticket of its own.
    let mut classes = Case::new("change-classes").lines((0..4).map(|class| format!("stop 0 {class}")));
    for trip in 0..4 {
        classes = classes.hop(hop(trip, trip, (trip + 1) % 4, start, start + 10 + trip));
    }
    classes = classes.measure("metres").table([3, 2, 1, 0], &[10, 20, 30, 40]);
    for stop in 0..4 {
        classes = classes.ask(stop, (stop + 1) % 4, start, 1).ask(stop, stop, start, 1);
    }
    cases.push(classes);
    cases
}

/// Minima that are just missed, just reached and passed, on each gauge and measure.
fn gauges(rng: &mut Rng) -> Vec<Case> {
    let start = rng.between(0, 9_000);
    let far = hop(0, 0, 1, start, start + 100);
    let hops = [
        Hop { metres: 1_200, level: 3, ..far },
        Hop { metres: 800, level: 1, ..hop(0, 1, 2, start + 100, start + 200) },
    ];
    let mut cases = Vec::new();
    for measure in ["metres", "stops", "zones", "level", "all"] {
        for (gauge, at) in [(0, 2_000), (1, 2), (2, 3), (3, 3)] {
            for minimum in [at - 1, at, at + 1] {
                let mut minima = [0; 4];
                minima[gauge] = minimum;
                let case = Case::new(format!("gauge-{measure}-{gauge}-{minimum}")).zones(&[0, 1, 63]);
                let case = case.hops(&hops).measure(measure).table([0; 4], &[100, 200]);
                cases.push(case.rule(rule(0, 1, minima)).ask(0, 1, start, 1).ask(0, 2, start, 1));
            }
        }
    }
    // A ladder up to its top and past it: 15, 16 and 17 zones.
    let zones: Vec<u32> = (0..18).map(|at| at * 3).collect();
    let hops: Vec<Hop> =
        (0..17).map(|at| hop(0, at, at + 1, start + at * 10, start + at * 10 + 10)).collect();
    let case = Case::new("gauge-ladder-top").zones(&zones).hops(&hops).measure("zones").ladder(7, 11);
    let case = case.ask(0, 13, start, 1).ask(0, 14, start, 1).ask(0, 15, start, 1);
    cases.push(case.ask(0, 16, start, 1).ask(0, 17, start, 1));
    let blind = Case::new("gauge-ladder-blind").zones(&zones).hops(&hops).measure("stops").ladder(7, 11);
    cases.push(blind.ask(0, 17, start, 1));
    cases
}

/// Working lists of each small length, of which some are just enough.
fn rooms(rng: &mut Rng) -> Vec<Case> {
    let start = rng.between(0, 9_000);
    let mut cases = Vec::new();
    for labels in 0..12 {
        for aboard in [0, 1, 2, 3] {
            let case =
                ferry_network(&format!("room-{labels}-{aboard}"), start).room(labels, aboard, 225, 544);
            cases.push(ferry_log(case, start));
        }
    }
    cases
}

fn ferry(name: &str, start: u32) -> Case {
    ferry_log(ferry_network(name, start), start)
}

/// The worked case of the ferry, at any time of the day.
fn ferry_network(name: &str, start: u32) -> Case {
    let hops = [
        Hop { event: 2, ..hop(0, 0, 1, start, start + 300) },
        hop(1, 0, 2, start, start + 100),
        hop(1, 2, 1, start + 100, start + 300),
        Hop { event: 2, ..hop(2, 1, 3, start + 600, start + 900) },
        hop(3, 1, 3, start + 600, start + 1_200),
    ];
    let rules = [rule(0, 1, [0, 0, 2, 0]), rule(0, 2, [0, 0, 3, 0]), rule(1, 2, [0, 0, 3, 0])];
    let case = Case::new(name).zones(&[1, 1, 2, 1]).hops(&hops).measure("zones");
    case.table([0; 4], &[200, 300, 450]).rules(&rules).surcharge(2, 150)
}

fn ferry_log(case: Case, start: u32) -> Case {
    let case = case.ask(0, 3, start, 2).ask(0, 1, start, 2).ask(0, 0, start, 2).ask(0, 3, start, 1);
    let case = case.delay(0, 300).ask(0, 3, start, 2).delay(0, 301).ask(0, 3, start, 2).delay(0, 0);
    case.cancel(1).ask(0, 3, start, 2).reinstate(1).line(format!("ask 0 3 {start} 2 = 00"))
}
