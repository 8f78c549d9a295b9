//! The ferry, exact sizes of both lists, and footpaths, in each kind of label store.

use reference::log::{self, End};

use crate::board::Kind;
use crate::city;
use crate::record::Recorder;

const FERRY: &str = "\
stop 1 0
stop 1 0
stop 2 0
stop 1 0
hop 0 0 1 600 900 0 0 2 1
hop 1 0 2 600 700 0 0 0 1
hop 1 2 1 700 900 0 0 0 1
hop 2 1 3 1200 1500 0 0 2 1
hop 3 1 3 1200 1800 0 0 0 1
measure zones
table 0 0 0 0 200 300 450
rule 0 1 65535 0 0 2 0
rule 0 2 65535 0 0 3 0
rule 1 2 65535 0 0 3 0
surcharge 2 150
";

/// At 1500 for 350 and at 1800 for 300.
const BOTH_WAYS: &str = "rows 2 labels 6 bytes 11 legs 4\n02 1b dc 05 5e 01 1b 08 07 2c 01\n\
                         0 1 0 0\n0 1 3 3\n1 1 1 2\n1 1 4 4\n";

/// The record, which each kind of store must come to.
fn record(cases: &str) -> String {
    let records = [Kind::Rows, Kind::Columns, Kind::Chains].map(|kind| {
        let mut out = Vec::new();
        log::run(cases, &mut Recorder::new(kind, &mut out, None)).expect("every line can be read");
        String::from_utf8(out).expect("text")
    });
    assert_eq!(records[0], records[1]);
    assert_eq!(records[0], records[2]);
    records[0].clone()
}

fn ferry(log: &str) -> String {
    record(&format!("{FERRY}{log}"))
}

#[test]
fn the_ferry() {
    assert_eq!(ferry("ask 0 3 600 2\n"), BOTH_WAYS);
    assert_eq!(ferry("ask 0 3 600 2 = 00\n"), format!("{BOTH_WAYS}differs\n"));
    assert_eq!(ferry("ask 0 3 600 1\n"), "rows 0 labels 4 bytes 1 legs 0\n00\n");
    assert_eq!(ferry("ask 0 0 600 2\n"), "rows 1 labels 6 bytes 4 legs 0\n01 03 58 02\n");
    let by_ferry = "rows 1 labels 3 bytes 6 legs 2\n01 1b dc 05 5e 01\n0 1 0 0\n0 1 3 3\n";
    assert_eq!(ferry("cancel 1\nask 0 3 600 2\n"), format!("ok\n{by_ferry}"));
}

#[test]
fn lists_with_exactly_room_enough() {
    let asked = |room: &str| ferry(&format!("room {room} 225 544\nask 0 3 600 2\n"));
    assert_eq!(asked("6 256"), BOTH_WAYS);
    assert_eq!(asked("5 256"), "refused 12 5\n");
    assert_eq!(asked("6 2"), BOTH_WAYS);
    // Two labels wait at stop 1, and neither covers the other.
    assert_eq!(asked("6 1"), "refused 13 3\n");
    assert_eq!(asked("0 0"), "refused 12 0\n");
    assert_eq!(asked("1 0"), "refused 13 0\n");
}

#[test]
fn a_store_full_of_covered_candidates_is_not_too_small() {
    // The second hop brings nothing better, so three labels are not needed.
    let hops = "hop 0 0 1 10 20 0 0 0 1\nhop 1 0 1 11 21 0 0 0 1\n";
    let cases =
        format!("stop 0 0\nstop 0 0\n{hops}measure level\nladder 5 0\nroom 2 1 225 544\nask 0 1 0 1\n");
    assert_eq!(record(&cases), "rows 1 labels 2 bytes 4 legs 1\n01 09 14 05\n0 1 0 0\n");
}

#[test]
fn walks_do_not_follow_walks() {
    let cases = "stop 0 0\nstop 0 0\nstop 0 0\npath 0 1 60\npath 1 2 60\nladder 5 0\nask 0 2 0 1\n";
    assert_eq!(record(cases), "rows 0 labels 2 bytes 1 legs 0\n00\n");
}

#[test]
fn one_on_foot_covers_only_such() {
    // One may walk to stop 1 by 60, for nothing; the ride arrives later, but may walk on to stop 2.
    let network = "stop 0 0\nstop 0 0\nstop 0 0\npath 0 1 60\npath 1 2 60\nhop 0 0 1 50 70 0 0 0 1\n";
    let record = record(&format!("{network}measure zones\nladder 0 0\nask 0 2 0 1\nask 0 1 0 1\n"));
    let expected = "rows 1 labels 4 bytes 3 legs 2\n01 01 82\n0 1 0 0\n0 0 1 1\n\
                    rows 1 labels 4 bytes 3 legs 1\n01 01 3c\n0 0 0 0\n";
    assert_eq!(record, expected);
}

#[test]
fn a_change_comes_before_somebody_aboard_covers() {
    // Tickets 1 and 0 come to stop 1. The change leads 0 to 1, and so the first aboard covers the second.
    let network = "stop 0 0\nstop 0 0\nstop 0 0\nhop 0 0 1 10 20 0 0 3 1\nhop 1 0 1 10 30 0 0 0 1\n";
    let tariff = "hop 2 1 2 40 50 0 0 0 1\nmeasure level\ntable 0 0 0 0 1 2\nrule 0 1 10 0 0 0 0\n";
    let asked = |room| record(&format!("{network}{tariff}room 64 {room} 225 544\nask 0 2 0 2\n"));
    assert_eq!(asked(2), "rows 1 labels 4 bytes 4 legs 2\n01 09 32 02\n0 1 0 0\n0 1 2 2\n");
    assert_eq!(asked(1), asked(2));
    assert_eq!(asked(0), "refused 13 0\n");
}

#[test]
fn a_line_that_cannot_be_read_ends_the_run() {
    let mut out = Vec::new();
    let cases = format!("{FERRY}ask 0 3 600 2\ncancel\nask 0 3 600 2\n");
    let end = log::run(&cases, &mut Recorder::new(Kind::Rows, &mut out, None));
    assert!(matches!(end, Err(End::BadLine { line: 17, .. })));
    assert_eq!(String::from_utf8(out).expect("text"), BOTH_WAYS);
}

#[test]
fn cities_are_within_limits_and_the_same_each_time() {
    for (kind, hops) in [("town", 300), ("city", 2_000)] {
        let size = city::Size::of(kind, hops).expect("a known kind");
        let text = city::text(&size, 1, 20, 3);
        assert_eq!(text, city::text(&size, 1, 20, 3));
        assert_ne!(text, city::text(&size, 2, 20, 3));
        let count = text.lines().filter(|line| line.starts_with("hop ")).count();
        assert!(count <= hops as usize && count + 100 > hops as usize);
        let record = record(&text);
        assert!(!record.contains("refused"));
        assert_eq!(record.lines().filter(|line| line.starts_with("rows ")).count(), 20);
        // Some riders may choose between offers.
        assert!(record.contains("rows 2"));
    }
}
