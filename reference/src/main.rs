//! An exhaustive reference for the planner: replays case files, holds records of the planner
//! against them, and generates case files.

use std::io::{self, BufWriter, Read, Write};
use std::process::ExitCode;

use reference::replay::{replay, End};
use reference::verify::Verdict;
use reference::{generate, record, self_check, text, verify};

const USAGE: &str = "usage: reference                              a case file on standard input
       reference verify CASEFILE RECORDFILE
       reference self-check                   a case file on standard input
       reference generate KIND SEED COUNT     KIND: random, dense, pointed, bad";

/// A line that cannot be read, or a disagreement.
const WRONG: u8 = 1;
/// What this program cannot do: a question too large, a file that is not there, an unknown command.
const UNABLE: u8 = 2;

struct Failure {
    status: u8,
    message: String,
}

/// Messages without a status of their own are about what cannot be done.
impl From<String> for Failure {
    fn from(message: String) -> Failure {
        Failure { status: UNABLE, message }
    }
}

fn main() -> ExitCode {
    let words: Vec<String> = std::env::args().skip(1).collect();
    let words: Vec<&str> = words.iter().map(String::as_str).collect();
    let result = match words.as_slice() {
        [] => write_record(),
        ["verify", cases, record] => run_verify(cases, record),
        ["self-check"] => run_self_check(),
        ["generate", kind, seed, count] => run_generate(kind, seed, count),
        _ => Err(Failure::from(USAGE.to_string())),
    };
    match result {
        Ok(status) => ExitCode::from(status),
        Err(failure) => {
            eprintln!("{}", failure.message);
            ExitCode::from(failure.status)
        }
    }
}

fn read_input() -> Result<String, String> {
    let mut bytes = Vec::new();
    io::stdin().lock().read_to_end(&mut bytes).map_err(|error| error.to_string())?;
    Ok(text(&bytes))
}

fn read_file(name: &str) -> Result<String, String> {
    let bytes = std::fs::read(name).map_err(|error| format!("{name}: {error}"))?;
    Ok(text(&bytes))
}

/// What was recorded before a line that cannot be read stays written.
fn write_record() -> Result<u8, Failure> {
    let cases = read_input()?;
    let mut recorder = record::Recorder::new(BufWriter::new(io::stdout().lock()));
    let end = replay(&cases, &mut recorder);
    recorder.finish()?;
    end.map(|()| 0).map_err(failure)
}

fn failure(end: End) -> Failure {
    match end {
        End::BadLine { line, what } => Failure { status: WRONG, message: format!("line {line}: {what}") },
        End::TooLarge { line } => {
            Failure::from(format!("line {line}: this question is too large for an exhaustive search"))
        }
        End::Listener(what) => Failure { status: WRONG, message: what },
    }
}

/// A disagreement is the result of this command, so it goes to standard output.
fn run_verify(cases: &str, record: &str) -> Result<u8, Failure> {
    match verify::verify(&read_file(cases)?, &read_file(record)?) {
        Verdict::Agrees => say("ok").map(|()| 0),
        Verdict::Disagrees(disagreement) => say(&disagreement).map(|()| WRONG),
        Verdict::Unknown(message) => Err(Failure::from(message)),
    }
}

fn run_self_check() -> Result<u8, Failure> {
    let mut check = self_check::SelfCheck::default();
    replay(&read_input()?, &mut check).map_err(failure)?;
    say(&format!("ok: {} questions, {} by both searches", check.questions, check.by_both)).map(|()| 0)
}

fn run_generate(kind: &str, seed: &str, count: &str) -> Result<u8, Failure> {
    let seed = seed.parse().map_err(|_| format!("SEED is '{seed}', not a number"))?;
    let count = count.parse().map_err(|_| format!("COUNT is '{count}', not a number"))?;
    let mut out = BufWriter::new(io::stdout().lock());
    generate::write(kind, seed, count, &mut out)?;
    out.flush().map_err(|error| error.to_string())?;
    Ok(0)
}

fn say(line: &str) -> Result<(), Failure> {
    writeln!(io::stdout(), "{line}").map_err(|error| Failure::from(error.to_string()))
}
