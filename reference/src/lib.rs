//! What the reference consists of. Other programs that read case files use the same modules: lines,
//! timetables, the day's log, limits, refusals and sheets.

pub mod case_file;
pub mod day;
pub mod fares;
pub mod generate;
pub mod log;
pub mod network;
pub mod record;
pub mod refusal;
pub mod replay;
pub mod search;
pub mod self_check;
pub mod sheet;
#[cfg(test)]
mod tests;
pub mod timetable;
pub mod verify;

/// Bytes that are no text become signs that no line has a meaning for, so that they are named as
/// what they are: words that cannot be read.
pub fn text(bytes: &[u8]) -> String {
    String::from_utf8_lossy(bytes).into_owned()
}
