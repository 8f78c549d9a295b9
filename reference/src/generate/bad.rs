//! Boards with a line that can mostly not be read. It ends the run, so a file has one such board.

use super::case::Case;
use super::rng::Rng;

/// Lines that are wrong wherever they stand.
const NEVER_READ: [&str; 9] = [
    "cansel 1",
    "measure feet",
    "cancel",
    "cancel 1 1",
    "delay 0 4294967296",
    "reinstate -1",
    "ask 0 0 0 1 = 000",
    "ask 0 0 0 1 = 0g",
    "hop 0 0 1 600 700 0 0 0 2",
];

/// Lines that are wrong at the wrong place, or a second time.
const MISPLACED: [&str; 9] = [
    "list",
    "stop 0 0",
    "path 0 1 60",
    "rule 0 1 1 0 0 0 0",
    "measure all",
    "surcharge 2 50",
    "room 4096 256 225 544",
    "ladder 0 0",
    "table 0 0 0 0 100",
];

pub fn spoiled(case: Case, rng: &mut Rng) -> Case {
    let count = case.len() as u32;
    let place = rng.between(0, count - 1) as usize;
    match rng.between(0, 6) {
        0 => case.insert(place, rng.one_of(&NEVER_READ)),
        1 => case.insert(place, rng.one_of(&MISPLACED)),
        2 => case.insert(count as usize, rng.one_of(&MISPLACED)),
        3 => case.altered(place, |words| {
            words.pop();
        }),
        4 => case.altered(place, |words| words.push("0".to_string())),
        5 => {
            let large = rng.one_of(&["256", "65536", "4294967296", "x"]);
            let word = rng.between(0, 9) as usize;
            case.altered(place, |words| {
                let word = word % words.len();
                words[word] = large.to_string();
            })
        }
        _ => case.without(&["table", "rule", "ladder"]),
    }
}
