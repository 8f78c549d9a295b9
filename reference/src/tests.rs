//! Whole case files: the ferry, lines that cannot be read, refusals, and records held against them.

use crate::case_file::read_line;
use crate::record::Recorder;
use crate::replay::{replay, End};
use crate::verify::{verify, Verdict};

const FERRY: &str = "\
# the ferry
stop 1 0
stop 1 0
stop 2 0
stop 1 0
list
hop 0 0 1 600 900 0 0 2 1
hop 1 0 2 600 700 0 0 0 1
hop 1 2 1 700 900 0 0 0 1
hop 2 1 3 1200 1500 0 0 2 1
hop 3 1 3 1200 1800 0 0 0 1
measure zones
table 0 0 0 0 200 300 450
rule 0 1 65535 0 0 2 0
rule 0 2 65535 0 0 3 0
rule 1 2 65535 0 0 3 0
surcharge 2 150
";

const LADDER: &str = "stop 0 0\nstop 1 0\nhop 0 0 1 600 700 0 0 0 1\nladder 100 50\n";

/// The record and, where a line could not be read, its number.
fn run(cases: &str) -> (String, Option<usize>) {
    let mut recorder = Recorder::new(Vec::new());
    let bad = match replay(cases, &mut recorder) {
        Ok(()) => None,
        Err(End::BadLine { line, .. }) => Some(line),
        Err(other) => panic!("ended by {other:?}"),
    };
    let record = recorder.finish().expect("a list takes all bytes");
    (String::from_utf8(record).expect("text"), bad)
}

fn record(cases: &str) -> String {
    let (record, bad) = run(cases);
    assert_eq!(bad, None);
    record
}

fn ferry(log: &str) -> String {
    record(&format!("{FERRY}{log}"))
}

#[test]
fn the_ferry() {
    let answer = "rows 2 labels - bytes 11 legs 4\n02 1b dc 05 5e 01 1b 08 07 2c 01\n\
                  0 1 0 0\n0 1 3 3\n1 1 1 2\n1 1 4 4\n";
    assert_eq!(ferry("ask 0 3 600 2\n"), answer);
    assert_eq!(ferry("delay 0 300\nask 0 3 600 2\n"), format!("ok\n{answer}"));
    let printed = "ask 0 3 600 2 = 2 1b DC 05 5e 01 1b 08 07 2c 01\n";
    assert_eq!(ferry(printed), format!("{answer}same\n"));
    assert_eq!(ferry("ask 0 3 600 2 = 00\n"), format!("{answer}differs\n"));
}

#[test]
fn the_ferry_with_a_cancelled_trip() {
    let answer = "ok\nrows 1 labels - bytes 6 legs 2\n01 1b dc 05 5e 01\n0 1 0 0\n0 1 3 3\n";
    assert_eq!(ferry("cancel 1\nask 0 3 600 2\n"), answer);
}

#[test]
fn the_ferry_a_second_too_late() {
    // 1500 seconds for 450 cents and 1800 for 300.
    let sheet = "02 1b dc 05 c2 01 1b 08 07 2c 01";
    let answer =
        format!("ok\nrows 2 labels - bytes 11 legs 4\n{sheet}\n0 1 1 2\n0 1 3 3\n1 1 1 2\n1 1 4 4\n");
    assert_eq!(ferry("delay 0 301\nask 0 3 600 2\n"), answer);
}

#[test]
fn the_ferry_to_other_stops() {
    assert_eq!(ferry("ask 0 1 600 2\n"), "rows 1 labels - bytes 6 legs 1\n01 1b 84 03 2c 01\n0 1 1 2\n");
    assert_eq!(ferry("ask 0 0 600 2\n"), "rows 1 labels - bytes 4 legs 0\n01 03 58 02\n");
    assert_eq!(ferry("ask 0 3 600 1\n"), "rows 0 labels - bytes 1 legs 0\n00\n");
}

#[test]
fn the_log_and_its_refusals() {
    let log = "cancel 1\ncancel 1\ncancel 4\nreinstate 1\nreinstate 1\nreinstate 9\n\
               delay 2 7201\ndelay 2 7200\ndelay 4 0\ndelay 3 0\nask 4 9 0 1\nask 0 4 172801 1 = 00\n\
               ask 0 0 172801 0\nask 0 0 172800 9\n";
    let replies = "ok\nok\nrefused 5 4\nok\nrefused 7 1\nrefused 5 9\n\
                   refused 8 2\nok\nrefused 5 4\nok\nrefused 9 0\nrefused 9 1\ndiffers\n\
                   refused 9 2\nrefused 9 3\n";
    assert_eq!(ferry(log), replies);
}

#[test]
fn lists_and_outputs_at_their_limits() {
    let asked = |lines: &str| record(&format!("{LADDER}{lines}ask 0 1 600 1\n"));
    assert_eq!(asked("stop 63 3\n"), "rows 1 labels - bytes 5 legs 1\n01 0b bc 02 96\n0 1 0 0\n");
    assert_eq!(asked("stop 64 3\n"), "refused 10 0 2\n");
    assert_eq!(asked("stop 0 4\n"), "refused 10 0 2\n");
    assert_eq!(asked("path 0 1 1\npath 0 0 1\n"), "refused 10 1 1\n");
    assert_eq!(asked("path 0 2 1\n"), "refused 10 1 0\n");
    assert_eq!(asked("path 0 1 0\n"), "refused 10 1 0\n");
    assert_eq!(asked("path 0 1 3601\n"), "refused 10 1 0\n");
    assert_eq!(asked("hop 1 0 2 600 700 0 0 0 1\n"), "refused 10 2 1\n");
    assert_eq!(asked("room 9 9 224 543\n"), "refused 11 0\n");
    assert_eq!(asked("room 9 9 225 543\n"), "refused 11 1\n");
    let stops = "stop 0 0\n".repeat(4_095);
    assert_eq!(asked(&stops), "refused 10 0 4097\n");
    let paths = "path 0 1 5\n".repeat(4_097);
    assert_eq!(asked(&paths), "refused 10 1 4097\n");
}

#[test]
fn boards_that_do_not_open() {
    assert_eq!(record("hop 1 0 1 0 1 0 0 0 1\ntable 0 0 0 0\nsurcharge 0 0\n"), "refused 1 0\n");
    assert_eq!(record("line 59 1\nhop 0 0 1 0 1 0 0 0 1\nladder 1 1\ncancel 0\n"), "refused 2\n");
    assert_eq!(record("table 0 0 0 0\nask 0 0 0 1 = 00\n"), "refused 3 128\n");
    assert_eq!(record("table 0 0 0 0 5 4\nrule 0 1 1 0 0 0 0\n"), "refused 3 0\n");
    assert_eq!(record("ladder 1000000 0\n"), "refused 4\n");
    assert_eq!(record("surcharge 16 1\nladder 0 0\n"), "refused 4\n");
    // The log of such a board is still read.
    assert_eq!(run("ladder 1000000 0\ncancel 0\ncancel\n"), ("refused 4\n".to_string(), Some(3)));
}

#[test]
fn several_boards() {
    let cases = "ladder 0 0\nstop 0 0\nask 0 0 0 1\ncase one\nladder 1000000 0\ncase two\n\
                 ladder 0 0\nask 0 0 0 1\n";
    let expected = "rows 1 labels - bytes 2 legs 0\n01 00\ncase one\nrefused 4\ncase two\nrefused 9 0\n";
    assert_eq!(record(cases), expected);
    assert_eq!(record(""), "");
    assert_eq!(record("# nothing\n\n"), "");
    assert_eq!(record("case a\nladder 0 0\n"), "case a\n");
}

/// Whether the line itself cannot be read, wherever it stands.
fn is_bad(line: &str) -> bool {
    read_line(line).is_err()
}

#[test]
fn words_that_cannot_be_read() {
    let unknown =
        ["cansel 1", "measure feet", "ask 0 0 0 1 : 00", "Case a", " # note", "hop 0 0 1 6 7 0 0 0 yes"];
    let missing = [
        "line 60",
        "hop 0 0 1 600 700 0 0 0",
        "stop 0",
        "path 0 1",
        "measure",
        "table 0 0 0",
        "rule 0 1 1 0 0 0",
        "ladder 1",
        "surcharge 2",
        "room 1 1 1",
        "cancel",
        "reinstate",
        "delay 1",
        "ask 0 1 2",
        "case",
    ];
    let extra = [
        "list 1",
        "line 60 1 1",
        "hop 0 0 1 600 700 0 0 0 1 1",
        "stop 0 0 0",
        "path 0 1 1 1",
        "measure all all",
        "rule 0 1 1 0 0 0 0 0",
        "ladder 1 1 1",
        "surcharge 2 1 1",
        "room 1 1 1 1 1",
        "cancel 1 1",
        "reinstate 1 1",
        "delay 1 1 1",
        "ask 0 1 2 3 4",
        "case a b",
    ];
    for line in unknown.iter().chain(&missing).chain(&extra) {
        assert!(is_bad(line), "{line}");
    }
}

#[test]
fn numbers_above_the_largest_of_their_field() {
    let bytes =
        ["stop 256 0", "stop 0 256", "hop 0 0 1 6 7 0 256 0 1", "hop 0 0 1 6 7 0 0 256 1", "surcharge 256 1"];
    let starts = ["table 256 0 0 0 1", "table 0 256 0 0 1", "table 0 0 256 0 1", "table 0 0 0 256 1"];
    let large = [
        "line 4294967296 1",
        "line 60 4294967296",
        "hop 4294967296 0 1 6 7 0 0 0 1",
        "path 0 1 4294967296",
        "hop 0 0 1 6 7 99999999999999999999999 0 0 1",
        "table 0 0 0 0 4294967296",
        "ladder 4294967296 0",
        "surcharge 2 4294967296",
        "room 4294967296 1 1 1",
        "cancel 4294967296",
        "reinstate 4294967296",
        "delay 0 4294967296",
        "ask 0 0 0 4294967296",
    ];
    let no_numbers = ["cancel -1", "cancel +1", "cancel 0x1", "cancel 1.0", "cancel one", "stop 0\t0"];
    for line in bytes.iter().chain(&starts).chain(&large).chain(&no_numbers) {
        assert!(is_bad(line), "{line}");
    }
    for rule in [
        "rule 256 1 1 0 0 0 0",
        "rule 0 256 1 0 0 0 0",
        "rule 0 1 65536 0 0 0 0",
        "rule 0 1 1 0 0 0 4294967296",
    ] {
        assert_eq!(run(&format!("table 0 0 0 0 1\n{rule}\n")).1, Some(2), "{rule}");
    }
    assert!(is_bad("hop 0 0 1 6 7 0 0 0 2") && !is_bad("hop 0 0 1 6 7 0 0 0 1"));
    assert_eq!(run("ladder 0 0\nask 0 0 0 1 = 000\n").1, Some(2));
    assert_eq!(run("ladder 0 0\nask 0 0 0 1 = 0g\n").1, Some(2));
    assert_eq!(record("ladder 0 0\ncancel 4294967295\n"), "refused 5 4294967295\n");
    assert_eq!(record("ladder 0 0\ncancel 00000000000000000000000000000007\n"), "refused 5 7\n");
}

#[test]
fn a_bad_line_ends_the_run() {
    let cases = "ladder 0 0\nstop 0 0\ncancel 0\nask 0 0 0 1\ncansel 0\ncancel 0\n";
    let before = "refused 5 0\nrows 1 labels - bytes 2 legs 0\n01 00\n";
    assert_eq!(run(cases), (before.to_string(), Some(5)));
    // A board is not opened by an entry that cannot be read.
    assert_eq!(run("ladder 1000000 0\ncancel\n"), (String::new(), Some(2)));
    assert_eq!(run("ladder 1000000 0\ncase\n"), (String::new(), Some(2)));
}

#[test]
fn lines_in_the_wrong_place() {
    assert_eq!(run("rule 0 1 1 0 0 0 0\n").1, Some(1));
    assert_eq!(run("ladder 0 0\nrule 0 1 1 0 0 0 0\n").1, Some(2));
    let twice = [
        "list",
        "line 60 1",
        "table 0 0 0 0 1",
        "ladder 0 0",
        "surcharge 2 1",
        "measure all",
        "room 1 1 1 1",
    ];
    for line in twice {
        assert_eq!(run(&format!("{line}\n{line}\n")).1, Some(2), "{line}");
    }
    assert_eq!(run("table 0 0 0 0 1\nladder 0 0\n").1, Some(2));
    assert_eq!(run("ladder 0 0\ntable 0 0 0 0 1\n").1, Some(2));
    assert_eq!(run("stop 0 0\ncancel 0\n").1, Some(2));
    assert_eq!(run("stop 0 0\n\ncase b\nladder 0 0\n"), (String::new(), Some(3)));
    assert_eq!(run("case a\n"), ("case a\n".to_string(), Some(1)));
    for line in
        ["list", "stop 0 0", "path 0 1 1", "measure all", "surcharge 2 1", "room 1 1 1 1", "ladder 0 0"]
    {
        let cases = format!("ladder 0 0\nlist\ncancel 0\n{line}\ncancel 0\n");
        assert_eq!(run(&cases), ("refused 5 0\n".to_string(), Some(4)), "{line}");
    }
}

/// A record as a planner may write it: the labels are a number.
fn ferry_record(log: &str) -> (String, String) {
    let cases = format!("{FERRY}{log}");
    let record = record(&cases).replace("labels -", "labels 7");
    (cases, record)
}

fn disagrees(cases: &str, record: &str) -> bool {
    matches!(verify(cases, record), Verdict::Disagrees(_))
}

#[test]
fn records_that_agree() {
    let (cases, record) = ferry_record("ask 0 3 600 2\ncancel 9\ncase b\nladder 0 0\n");
    assert_eq!(verify(&cases, &record), Verdict::Agrees);
    let (cases, _) = ferry_record("ask 0 3 600 2 = 00\n");
    assert_eq!(verify(&cases, "refused 12 4096\ndiffers\n"), Verdict::Agrees);
    assert_eq!(verify(&cases, "refused 13 2\ndiffers\n"), Verdict::Agrees);
    assert_eq!(verify("ladder 0 0\ncancel 0\nbad\n", "refused 5 0\n"), Verdict::Agrees);
}

#[test]
fn records_that_disagree() {
    let (cases, record) = ferry_record("cancel 9\nask 0 3 600 2 = 00\n");
    let edits = [
        ("refused 5 9", "ok"),
        ("rows 2", "rows 1"),
        ("labels 7", "labels -"),
        ("bytes 11", "bytes 12"),
        ("legs 4", "legs 3"),
        ("legs 4", "legs 5"),
        ("02 1b dc", "02 1b dd"),
        ("2c 01\n", "2c 01 \n"),
        ("0 1 0 0", "0 1 1 2"),
        ("0 1 0 0", "0 0 0 0"),
        ("0 1 3 3", "0 1 2 3"),
        ("1 1 1 2", "1 1 1 1"),
        ("1 1 4 4", "0 1 4 4"),
        ("1 1 4 4", "2 1 4 4"),
        ("1 1 4 4\n", ""),
        ("differs", "same"),
        ("differs\n", ""),
        ("differs\n", "differs\nok\n"),
    ];
    assert_eq!(verify(&cases, &record), Verdict::Agrees);
    for (found, put) in edits {
        let damaged = record.replacen(found, put, 1);
        assert_ne!(damaged, record);
        assert!(disagrees(&cases, &damaged), "{found} -> {put}");
    }
    let (cases, _) = ferry_record("ask 0 3 600 2\n");
    assert!(disagrees(&cases, "refused 12 4095\n"));
    assert!(disagrees(&cases, "refused 13 5\n"));
    assert!(disagrees(&cases, "refused 14 33\n"));
    assert_eq!(
        verify(&cases, "ok\n"),
        Verdict::Disagrees(
            "line 1 of the record: 'ok'; expected 'rows 2 labels .. bytes 11 legs ..' \
             with the sheet '02 1b dc 05 5e 01 1b 08 07 2c 01'"
                .to_string()
        )
    );
    let (cases, _) = ferry_record("cancel 1\nask 4 0 600 2\nask 0 3 600 2\n");
    assert!(disagrees(&cases, "ok\nrefused 12 4096\nrefused 12 4096\n"));
    assert!(disagrees(&cases, "ok\nrefused 9 0\nrefused 13 1\n"));
    assert_eq!(verify(&cases, "ok\nrefused 9 0\nrefused 13 0\n"), Verdict::Agrees);
}

#[test]
fn walks_in_records() {
    let cases = "stop 0 0\nstop 0 0\nstop 0 0\npath 0 1 50\npath 1 2 50\nhop 0 0 1 600 700 0 0 0 1\n\
                 ladder 100 0\nask 0 2 600 1\n";
    let rows = "rows 1 labels 0 bytes 5 legs 2\n01 0b ee 02 64\n";
    assert_eq!(record(cases), format!("{}0 1 0 0\n0 0 1 1\n", rows.replace("labels 0", "labels -")));
    assert_eq!(verify(cases, &format!("{rows}0 1 0 0\n0 0 1 1\n")), Verdict::Agrees);
    assert!(disagrees(cases, &format!("{rows}0 0 0 0\n0 0 1 1\n")));
}

#[test]
fn another_journey_with_the_same_offer_is_as_good() {
    let cases = "stop 0 0\nstop 0 0\npath 0 1 50\npath 0 1 60\npath 0 1 50\nladder 1 1\nask 0 1 600 1\n";
    let rows = "rows 1 labels 9 bytes 4 legs 1\n01 03 8a 02\n";
    assert_eq!(verify(cases, &format!("{rows}0 0 0 0\n")), Verdict::Agrees);
    assert_eq!(verify(cases, &format!("{rows}0 0 2 2\n")), Verdict::Agrees);
    assert!(disagrees(cases, &format!("{rows}0 0 1 1\n")));
    assert!(disagrees(cases, &format!("{rows}0 0 0 2\n")));
    assert!(disagrees(cases, &format!("{rows}0 0 3 3\n")));
}
