//! Lists at the limits of their length. Their files are long, so they come once.

use crate::generate::case::{hop, Case};
use crate::timetable::Hop;

pub fn large_cases() -> Vec<Case> {
    let mut cases = Vec::new();
    for count in [4_095, 4_096, 4_097] {
        let stops = Case::new(format!("large-stops-{count}")).stops(count).ladder(1, 1);
        let last = count as u32 - 1;
        cases.push(stops.path(0, last, 60).ask(0, last, 0, 1).ask(0, last + 1, 0, 1));
        let mut paths = Case::new(format!("large-paths-{count}")).stops(2).ladder(1, 1);
        for at in 0..count as u32 {
            paths = paths.path(0, 1, 3_600 - at % 3_600);
        }
        cases.push(paths.ask(0, 1, 0, 1).ask(1, 0, 0, 1));
    }
    let long = Case::new("large-bad-stop-and-length").line("stop 64 0").stops(4_096).ladder(1, 1);
    cases.push(long.path(0, 0, 0).ask(0, 4_096, 0, 1));
    for count in [65_535, 65_536, 65_537] {
        cases.push(many_hops(count));
    }
    cases
}

/// Every hop is a trip of its own; only the first and the last few run.
fn many_hops(count: u32) -> Case {
    let mut case = Case::new(format!("large-hops-{count}")).zones(&[0, 1]).measure("zones").ladder(100, 50);
    for trip in 0..count {
        let runs = trip < 2 || trip + 3 > count;
        case = case.hop(Hop { runs, ..hop(trip, 0, 1, 600 + trip, 70_000 + trip) });
    }
    case.ask(0, 1, 600, 1)
        .ask(0, 1, 5_000, 1)
        .ask(0, 1, 600, 9)
        .cancel(65_534)
        .cancel(65_535)
        .cancel(65_536)
        .delay(65_535, 60)
        .delay(65_536, 0)
        .ask(0, 1, 5_000, 2)
}
