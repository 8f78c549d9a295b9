//! Refusals 1 to 4: timetables, tables, ladders and surcharges at their limits.

use crate::fares::{Rule, PRICE_MOST};
use crate::generate::case::{hop, rule, Case};
use crate::generate::rng::Rng;
use crate::timetable::{Hop, DAY_END};

pub fn cases(rng: &mut Rng) -> Vec<Case> {
    let mut cases = hop_lists(rng);
    cases.extend(interval_lines(rng));
    cases.extend(table_sizes(rng));
    cases.extend(table_rules(rng));
    cases.extend(ladders_and_surcharges(rng));
    cases.extend(orders());
    cases
}

/// Two questions over a list that may not open.
fn list_case(name: &str, hops: &[Hop], start: u32) -> Case {
    Case::new(format!("rule-{name}"))
        .zones(&[0, 1, 2, 3])
        .hops(hops)
        .measure("zones")
        .ladder(100, 50)
        .ask(0, 1, start, 2)
        .ask(0, 2, start, 2)
}

fn hop_lists(rng: &mut Rng) -> Vec<Case> {
    let start = rng.between(0, 5_000);
    let first = hop(0, 0, 1, start, start + 300);
    let second = hop(0, 1, 2, start + 300, start + 400);
    let still = Hop { runs: false, ..hop(0, 9, 9, 9, 0) };
    let mut cases = vec![list_case("no-hops", &[], start)];
    for trip in 0..=2 {
        cases.push(list_case(&format!("first-trip-{trip}"), &[Hop { trip, ..first }], start));
        let next = Hop { trip, ..second };
        cases.push(list_case(&format!("second-trip-{trip}"), &[first, next], start));
        let third = Hop { trip, ..hop(0, 0, 2, start, start + 9) };
        let between = Hop { trip: 1, ..still };
        cases.push(list_case(&format!("third-trip-{trip}"), &[first, between, third], start));
    }
    for arrival in [start, start + 1] {
        cases.push(list_case(&format!("arrives-{arrival}"), &[Hop { arrival, ..first }], start));
    }
    for arrival in [DAY_END - 1, DAY_END, DAY_END + 1] {
        cases.push(list_case(&format!("day-end-{arrival}"), &[Hop { arrival, ..first }], start));
    }
    for metres in [99_999, 100_000, 100_001] {
        cases.push(list_case(&format!("metres-{metres}"), &[first, Hop { metres, ..second }], start));
    }
    for level in [6, 7, 8] {
        cases.push(list_case(&format!("level-{level}"), &[first, Hop { level, ..second }], start));
    }
    for event in [14, 15, 16] {
        cases.push(list_case(&format!("event-{event}"), &[first, Hop { event, ..second }], start));
    }
    for departure in [start + 299, start + 300, start + 301] {
        let name = format!("meets-at-{}", departure - start);
        cases.push(list_case(&name, &[first, Hop { departure, ..second }], start));
    }
    for from in [0, 1, 2] {
        cases.push(list_case(&format!("meets-from-{from}"), &[first, Hop { from, ..second }], start));
        let apart = Hop { from, departure: start, ..second };
        cases.push(list_case(&format!("still-between-from-{from}"), &[first, still, apart], start));
    }
    let later_still = Hop { trip: 2, ..still };
    cases.push(list_case("still-hop-jumps", &[first, later_still], start));
    let broken = Hop { level: 8, ..first };
    cases.push(list_case(
        "first-of-two",
        &[first, Hop { from: 3, ..second }, Hop { trip: 1, ..broken }],
        start,
    ));
    cases.push(list_case("range-and-pair", &[broken, Hop { from: 3, ..second }], start));
    cases
}

fn line_case(name: &str, pattern: &[Hop], interval: u32, trips: u32) -> Case {
    Case::new(format!("line-{name}"))
        .zones(&[0, 1, 2, 3])
        .line(format!("line {interval} {trips}"))
        .hops(pattern)
        .measure("stops")
        .table([0; 4], &[100, 200])
        .rule(rule(0, 1, [0, 2, 0, 0]))
        .cancel(trips)
        .ask(0, 1, 0, 2)
        .cancel(trips.saturating_sub(1))
        .ask(0, 1, DAY_END, 1)
}

/// Hops there and back, one after another.
fn shuttle(count: u32, start: u32) -> Vec<Hop> {
    (0..count).map(|at| hop(0, at % 2, (at + 1) % 2, start + at * 2, start + at * 2 + 1)).collect()
}

fn interval_lines(rng: &mut Rng) -> Vec<Case> {
    let start = rng.between(0, 500);
    let pattern = shuttle(2, start);
    let mut cases = Vec::new();
    for interval in [59, 60, 61, 7_199, 7_200, 7_201] {
        cases.push(line_case(&format!("interval-{interval}"), &pattern, interval, 3));
    }
    for trips in [0, 1, 199, 200, 201] {
        cases.push(line_case(&format!("trips-{trips}"), &pattern[..1], 60, trips));
    }
    for count in [0, 1, 15, 16, 17] {
        cases.push(line_case(&format!("pattern-{count}"), &shuttle(count, start), 60, 2));
    }
    let interval = rng.between(60, 7_200);
    let trips = rng.between(2, 20);
    for over in [0, 1, 2] {
        let arrival = DAY_END - (trips - 1) * interval - 1 + over;
        let last = [Hop { departure: arrival - 1, arrival, ..pattern[0] }];
        cases.push(line_case(&format!("day-end-{over}"), &last, interval, trips));
    }
    cases.push(line_case("still-hop", &[pattern[0], Hop { runs: false, ..pattern[1] }], 60, 2));
    cases.push(line_case("second-trip", &[pattern[0], Hop { trip: 1, ..pattern[1] }], 60, 2));
    cases.push(line_case("all-of-trip-1", &[Hop { trip: 1, ..pattern[0] }], 60, 2));
    cases.push(line_case("apart", &[pattern[0], Hop { from: 0, ..pattern[1] }], 60, 2));
    cases
}

/// A short ride and a longer one, so that the rules of a table that opens show.
fn tariff_case(name: &str) -> Case {
    Case::new(format!("tariff-{name}"))
        .zones(&[0, 1, 2])
        .hop(hop(0, 0, 1, 600, 700))
        .hop(Hop { event: 2, ..hop(0, 1, 2, 700, 800) })
        .measure("all")
}

fn two_questions(case: Case) -> Case {
    case.ask(0, 1, 600, 1).ask(0, 2, 600, 2)
}

fn table_sizes(rng: &mut Rng) -> Vec<Case> {
    let mut cases = Vec::new();
    let price = rng.between(0, 1_000);
    for count in [0, 1, 2, 31, 32, 33] {
        let prices: Vec<u32> = (0..count).map(|ticket| price + ticket).collect();
        let case = tariff_case(&format!("tickets-{count}")).table([0; 4], &prices);
        cases.push(two_questions(case));
    }
    for count in [0, 127, 128, 129] {
        let rules = vec![rule(0, 1, [0, 2, 0, 0]); count];
        let case = tariff_case(&format!("rules-{count}")).table([0; 4], &[price, price]).rules(&rules);
        cases.push(two_questions(case));
    }
    for most in [PRICE_MOST - 1, PRICE_MOST, PRICE_MOST + 1] {
        let case = tariff_case(&format!("price-{most}")).table([0; 4], &[price, most]);
        cases.push(two_questions(case.rule(rule(0, 1, [0, 2, 0, 0]))));
    }
    for class in 0..4 {
        for start in [1, 2] {
            let mut starts = [0; 4];
            starts[class] = start;
            let case =
                tariff_case(&format!("class-{class}-starts-{start}")).table(starts, &[price, price + 5]);
            cases.push(two_questions(case));
        }
    }
    let both = tariff_case("price-and-rule").table([0; 4], &[PRICE_MOST + 1]).rule(rule(0, 0, [0; 4]));
    cases.push(two_questions(both));
    cases
}

fn table_rules(rng: &mut Rng) -> Vec<Case> {
    let good = rule(0, 1, [0, 2, 0, 0]);
    let price = rng.between(100, 1_000);
    let before = rng.between(0, 5) as usize;
    let mut cases = Vec::new();
    let mut add = |name: String, prices: &[u32], bad: Rule| {
        let mut rules = vec![good; before];
        rules.extend([bad, rule(3, 0, [0; 4])]);
        // With and without a second bad rule behind the first.
        let table = |name: String| tariff_case(&name).table([0; 4], prices);
        cases.push(two_questions(table(format!("{name}-then-bad")).rules(&rules)));
        rules.pop();
        cases.push(two_questions(table(name).rules(&rules)));
    };
    let prices = [price, price, price + 1];
    for (ticket, target) in [(1, 0), (1, 1), (1, 2), (1, 3), (2, 3), (3, 4), (255, 255), (0, 255)] {
        add(format!("rule-{ticket}-to-{target}"), &prices, rule(ticket, target, [0, 1, 0, 0]));
    }
    for target_price in [price - 1, price, price + 1] {
        add(
            format!("cheaper-{}", target_price + 1 - price),
            &[price, price, target_price],
            rule(1, 2, [0; 4]),
        );
    }
    add("no-event".to_string(), &prices, Rule { events: 0, ..rule(0, 2, [0; 4]) });
    cases
}

fn ladders_and_surcharges(rng: &mut Rng) -> Vec<Case> {
    let mut cases = Vec::new();
    for (first, step) in [(0, 0), (999_999, 0), (1_000_000, 0), (0, 99_999), (0, 100_000), (999_999, 99_999)]
    {
        let case = tariff_case(&format!("ladder-{first}-{step}")).ladder(first, step);
        cases.push(two_questions(case));
    }
    let first = rng.between(0, 500);
    for (event, amount) in
        [(0, 1), (1, 1), (2, 0), (2, 1), (2, 99_999), (2, 100_000), (15, 1), (16, 1), (255, 1), (3, 75)]
    {
        let name = format!("surcharge-{event}-{amount}");
        cases.push(two_questions(tariff_case(&name).ladder(first, 50).surcharge(event, amount)));
        // The surcharge may stand before what it is over.
        let table = tariff_case(&format!("{name}-table")).surcharge(event, amount).table([0; 4], &[first]);
        cases.push(two_questions(table));
    }
    for price in [PRICE_MOST - 76, PRICE_MOST - 75, PRICE_MOST - 74] {
        let case = tariff_case(&format!("held-{price}")).table([0; 4], &[price]).surcharge(2, 75);
        cases.push(two_questions(case));
    }
    cases
}

/// Of several causes the timetable comes first, then the tariff, then the surcharge; a board that
/// does not open says nothing of its log.
fn orders() -> Vec<Case> {
    let log = |case: Case| two_questions(case.cancel(0).cancel(99).line("ask 0 1 600 1 = 00"));
    let broken = hop(1, 0, 1, 600, 700);
    vec![
        log(tariff_case("order-1-3-4").hop(hop(9, 0, 1, 600, 700)).table([0; 4], &[]).surcharge(1, 1)),
        log(Case::new("tariff-order-1-4").stops(2).hop(broken).ladder(1_000_000, 0).surcharge(0, 0)),
        log(Case::new("tariff-order-2-3").line("line 60 1").table([1; 4], &[1]).surcharge(0, 0)),
        log(tariff_case("order-3-4").table([0; 4], &[1, 1]).rule(rule(1, 1, [0; 4])).surcharge(0, 0)),
        log(tariff_case("order-4-4").ladder(1_000_000, 0).surcharge(0, 0)),
        log(tariff_case("order-4").ladder(0, 0).surcharge(0, 0)),
        tariff_case("no-log").ladder(1, 1),
        tariff_case("no-log-refused").ladder(1_000_000, 0),
    ]
}
