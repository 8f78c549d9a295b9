//! Refusals 9 to 11: questions, lists and outputs at their limits, and their order.

use crate::generate::case::{hop, Case};
use crate::generate::rng::Rng;
use crate::timetable::{Hop, DAY_END};

pub fn cases(rng: &mut Rng) -> Vec<Case> {
    let mut cases = questions(rng);
    cases.extend(stops_and_paths(rng));
    cases.extend(stops_of_hops(rng));
    cases.extend(outputs());
    cases.extend(orders());
    cases
}

fn small(name: &str) -> Case {
    Case::new(format!("limits-{name}"))
        .zones(&[0, 1, 2])
        .hop(hop(0, 0, 1, 600, 700))
        .hop(hop(0, 1, 2, 700, 800))
        .measure("zones")
        .ladder(100, 50)
}

fn questions(rng: &mut Rng) -> Vec<Case> {
    let mut case = small("questions");
    for stop in [2, 3, 4, u32::MAX] {
        case = case.ask(stop, 0, 600, 1).ask(0, stop, 600, 1).ask(stop, stop, 600, 1);
    }
    for departure in [DAY_END - 1, DAY_END, DAY_END + 1, u32::MAX] {
        case = case.ask(0, 0, departure, 1).ask(0, 1, departure, 1);
    }
    for rides in [0, 1, 7, 8, 9, u32::MAX] {
        case = case.ask(0, 2, 600, rides).ask(0, 0, 600, rides);
    }
    case = case.ask(3, 3, DAY_END + 1, 0).ask(0, 3, DAY_END + 1, 9).ask(0, 0, DAY_END + 1, 0);
    let stop = rng.between(0, 9);
    let empty = Case::new("limits-no-stops").hop(hop(0, 0, 1, 600, 700)).ladder(1, 1);
    let empty = empty.ask(stop, 0, 0, 1).ask(0, 0, DAY_END + 1, 0).cancel(0).ask(0, 0, 0, 1);
    vec![case, empty.line("ask 0 0 0 1 = 00")]
}

fn stops_and_paths(rng: &mut Rng) -> Vec<Case> {
    let mut cases = Vec::new();
    let before = rng.between(0, 4) as usize;
    let ask = |case: Case| case.ladder(1, 1).ask(0, 1, 0, 1).ask(1, 0, 0, 1);
    for (zone, class) in [(62, 3), (63, 3), (64, 3), (255, 3), (63, 2), (63, 4), (64, 4), (63, 255)] {
        let case = Case::new(format!("limits-stop-{zone}-{class}")).stops(before.max(2));
        cases.push(ask(case.line(format!("stop {zone} {class}")).stops(1).line("stop 64 4").path(0, 0, 0)));
        let alone =
            Case::new(format!("limits-only-stop-{zone}-{class}")).line(format!("stop {zone} {class}"));
        cases.push(ask(alone.stops(2).path(0, 1, 60)));
    }
    let paths = [
        (1, 0, 0),
        (1, 0, 1),
        (1, 0, 3_599),
        (1, 0, 3_600),
        (1, 0, 3_601),
        (1, 0, u32::MAX),
        (1, 1, 60),
        (1, 2, 60),
        (1, 3, 60),
        (2, 1, 60),
        (3, 1, 60),
        (3, 3, 60),
        (u32::MAX, 0, 60),
    ];
    for (from, to, seconds) in paths {
        let case = Case::new(format!("limits-path-{from}-{to}-{seconds}")).stops(3);
        let good = vec!["path 0 1 100"; before];
        cases.push(ask(case.lines(good).path(from, to, seconds).path(0, 1, 3)));
    }
    cases
}

/// Only running hops are tested, and only those that run after the log so far.
fn stops_of_hops(rng: &mut Rng) -> Vec<Case> {
    let stops = rng.between(2, 5);
    let mut cases = Vec::new();
    for far in [stops - 1, stops, u32::MAX] {
        for (from, to) in [(0, far), (far, 0)] {
            let hops = [
                hop(0, 0, 1, 600, 700),
                Hop { runs: false, ..hop(1, far, far, 0, 0) },
                hop(2, from, to, 600, 800),
                hop(3, to, from, 900, DAY_END - 50),
            ];
            let case = Case::new(format!("limits-hop-{from}-{to}")).stops(stops as usize).hops(&hops);
            let case = case.ladder(100, 1).ask(0, 1, 600, 1).cancel(2).ask(0, 1, 600, 1);
            let case = case.delay(3, 50).ask(0, 1, 600, 1).delay(3, 51).ask(0, 1, 600, 1);
            cases.push(case.reinstate(2).ask(0, 1, 600, 1).cancel(2).cancel(3).ask(0, 1, 600, 1));
        }
    }
    cases
}

fn outputs() -> Vec<Case> {
    let mut cases = Vec::new();
    for (bytes, legs) in [
        (224, 544),
        (225, 544),
        (226, 545),
        (225, 543),
        (224, 543),
        (0, 0),
        (225, 0),
        (0, 544),
        (1_000, 1_000),
    ] {
        let case = small(&format!("room-{bytes}-{legs}")).room(4_096, 256, bytes, legs);
        cases.push(case.ask(0, 2, 600, 1).ask(0, 0, 600, 1).line("ask 2 0 0 8 = 00"));
    }
    for (labels, aboard) in [(0, 0), (0, 1), (1, 0), (1, 1), (2, 1), (3, 1), (4, 1), (3, 0)] {
        let case = small(&format!("lists-{labels}-{aboard}")).room(labels, aboard, 225, 544);
        cases.push(case.ask(0, 2, 600, 1).ask(0, 0, 600, 1).line("ask 2 0 0 8 = 00"));
    }
    cases
}

/// Of several causes the one that stands first on the refusal board comes.
fn orders() -> Vec<Case> {
    let case = |name: &str, stop: &str, path: &str, hop_stop: u32, bytes: u32| {
        let case = Case::new(format!("limits-order-{name}")).stops(2).line(stop).line(path);
        case.hop(hop(0, 0, hop_stop, 600, 700)).ladder(1, 1).room(0, 0, bytes, 543)
    };
    vec![
        case("9", "stop 64 0", "path 0 0 1", 7, 224).ask(3, 0, 0, 1),
        case("10-0", "stop 64 0", "path 0 0 1", 7, 224).ask(0, 0, 0, 1),
        case("10-1", "stop 63 0", "path 0 0 1", 7, 224).ask(0, 0, 0, 1),
        case("10-2", "stop 63 0", "path 0 1 1", 7, 224).ask(0, 0, 0, 1),
        case("11-0", "stop 63 0", "path 0 1 1", 1, 224).ask(0, 0, 0, 1),
        case("11-1", "stop 63 0", "path 0 1 1", 1, 225).ask(0, 0, 0, 1),
    ]
}
