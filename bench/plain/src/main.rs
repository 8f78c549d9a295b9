//! The planner's scan in plain Rust: replays case files, times questions, and generates cities.

mod answer;
mod board;
mod city;
mod fares;
mod record;
mod scan;
#[cfg(test)]
mod tests;

use std::io::{self, BufWriter, Read, Write};
use std::process::ExitCode;

use board::Kind;
use record::Recorder;
use reference::log::{self, End};

const USAGE: &str =
    "usage: plain [--times] [STORE]      a case file on standard input; STORE: rows, columns, chains
       plain generate KIND HOPS SEED QUESTIONS RIDES     KIND: city, town";

/// A line that cannot be read.
const WRONG: u8 = 1;
/// What this program cannot do.
const UNABLE: u8 = 2;

fn main() -> ExitCode {
    let words: Vec<String> = std::env::args().skip(1).collect();
    let words: Vec<&str> = words.iter().map(String::as_str).collect();
    let result = match words.as_slice() {
        ["generate", kind, numbers @ ..] => generate(kind, numbers),
        ["--times", store @ ..] => store_kind(store).and_then(|kind| replay(kind, true)),
        store => store_kind(store).and_then(|kind| replay(kind, false)),
    };
    match result {
        Ok(()) => ExitCode::SUCCESS,
        Err((status, message)) => {
            eprintln!("{message}");
            ExitCode::from(status)
        }
    }
}

fn store_kind(words: &[&str]) -> Result<Kind, (u8, String)> {
    match words {
        [] | ["rows"] => Ok(Kind::Rows),
        ["columns"] => Ok(Kind::Columns),
        ["chains"] => Ok(Kind::Chains),
        _ => Err((UNABLE, USAGE.to_string())),
    }
}

/// What was recorded before a line that cannot be read stays written.
fn replay(kind: Kind, timed: bool) -> Result<(), (u8, String)> {
    let cases = read_input().map_err(unable)?;
    let mut out = BufWriter::new(io::stdout().lock());
    let mut times = io::stderr().lock();
    let times = if timed { Some(&mut times as &mut dyn Write) } else { None };
    let end = log::run(&cases, &mut Recorder::new(kind, &mut out, times));
    out.flush().map_err(unable)?;
    end.map_err(|end| match end {
        End::BadLine { line, what } => (WRONG, format!("line {line}: {what}")),
        End::TooLarge { line } => (UNABLE, format!("line {line}: too large")),
        End::Listener(what) => (UNABLE, what),
    })
}

fn unable(error: io::Error) -> (u8, String) {
    (UNABLE, error.to_string())
}

fn read_input() -> io::Result<String> {
    let mut bytes = Vec::new();
    io::stdin().lock().read_to_end(&mut bytes)?;
    Ok(reference::text(&bytes))
}

fn generate(kind: &str, numbers: &[&str]) -> Result<(), (u8, String)> {
    let numbers: Result<Vec<u32>, _> = numbers.iter().map(|word| word.parse()).collect();
    let Ok(&[hops, seed, questions, rides]) = numbers.as_deref() else {
        return Err((UNABLE, USAGE.to_string()));
    };
    let size = city::Size::of(kind, hops).ok_or((UNABLE, USAGE.to_string()))?;
    let mut out = BufWriter::new(io::stdout().lock());
    let text = city::text(&size, u64::from(seed), questions, rides);
    out.write_all(text.as_bytes()).and_then(|()| out.flush()).map_err(unable)
}
