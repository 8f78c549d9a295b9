//! Reads a case file board by board and entry by entry, and tells a listener what comes of each.

use crate::case_file::{read_line, Entry, Line, Loaded};
use crate::day::Day;
use crate::fares::Fares;
use crate::network::Question;
use crate::refusal::Refusal;
use crate::timetable::Timetable;

/// What ends a run before the end of the case file.
#[derive(Debug)]
pub enum End {
    BadLine { line: usize, what: String },
    TooLarge { line: usize },
    Listener(String),
}

/// A question that was read, and the board that it is put to, on the day so far.
pub struct Put<'a> {
    pub line: usize,
    pub question: Question,
    pub printed: Option<&'a [u8]>,
    pub loaded: &'a Loaded,
    pub timetable: &'a Timetable,
    pub fares: &'a Fares,
    pub day: &'a Day,
}

pub trait Listener {
    fn case(&mut self, name: &str) -> Result<(), String>;

    /// A board that has opened; its questions come with the same fares.
    fn opened(&mut self, _fares: &Fares) -> Result<(), String> {
        Ok(())
    }

    /// A board that does not open, or an entry that is no question.
    fn done(&mut self, outcome: Result<(), Refusal>) -> Result<(), String>;

    fn ask(&mut self, put: &Put) -> Result<(), End>;
}

pub fn run(text: &str, listener: &mut dyn Listener) -> Result<(), End> {
    let mut board: Option<Board> = None;
    let mut number = 0;
    for line in lines(text) {
        number += 1;
        let bad = |what| End::BadLine { line: number, what };
        match read_line(line).map_err(bad)? {
            Line::Nothing => {}
            Line::Case(name) => {
                close(board.take(), number, listener)?;
                listener.case(&name).map_err(End::Listener)?;
                board = Some(Board::default());
            }
            Line::Load(load) => match board.get_or_insert_with(Board::default) {
                Board::Loading(loaded) => loaded.take(load).map_err(bad)?,
                _ => return Err(bad("handed in after the first entry of the log".to_string())),
            },
            Line::Entry(entry) => {
                let opened = board.take().unwrap_or_default().open(number, listener)?;
                board = Some(opened.enter(entry, number, listener)?);
            }
        }
    }
    close(board, number, listener)
}

/// Only a line feed ends a line. What follows the last one is a line where it is not empty.
fn lines(text: &str) -> impl Iterator<Item = &str> {
    text.split_inclusive('\n').map(|line| line.strip_suffix('\n').unwrap_or(line))
}

/// A board without a log entry is opened at its end.
fn close(board: Option<Board>, line: usize, listener: &mut dyn Listener) -> Result<(), End> {
    match board {
        Some(board) => board.open(line, listener).map(|_| ()),
        None => Ok(()),
    }
}

enum Board {
    Loading(Loaded),
    Open { loaded: Loaded, timetable: Timetable, fares: Fares, day: Day },
    Refused,
}

impl Default for Board {
    fn default() -> Board {
        Board::Loading(Loaded::default())
    }
}

impl Board {
    fn open(self, line: usize, listener: &mut dyn Listener) -> Result<Board, End> {
        let Board::Loading(loaded) = self else {
            return Ok(self);
        };
        match loaded.open() {
            None => Err(End::BadLine { line, what: "neither a table nor a ladder".to_string() }),
            Some(Ok((timetable, fares))) => {
                listener.opened(&fares).map_err(End::Listener)?;
                Ok(Board::Open { loaded, timetable, fares, day: Day::default() })
            }
            Some(Err(refusal)) => {
                listener.done(Err(refusal)).map_err(End::Listener)?;
                Ok(Board::Refused)
            }
        }
    }

    /// A board that did not open takes no entries and says nothing of them.
    fn enter(mut self, entry: Entry, line: usize, listener: &mut dyn Listener) -> Result<Board, End> {
        if let Board::Open { loaded, timetable, fares, day } = &mut self {
            match entry {
                Entry::Cancel(trip) => tell(listener, day.cancel(timetable, trip))?,
                Entry::Reinstate(trip) => tell(listener, day.reinstate(timetable, trip))?,
                Entry::Delay { trip, seconds } => tell(listener, day.delay(timetable, trip, seconds))?,
                Entry::Ask { question, printed } => listener.ask(&Put {
                    line,
                    question,
                    printed: printed.as_deref(),
                    loaded,
                    timetable,
                    fares,
                    day,
                })?,
            }
        }
        Ok(self)
    }
}

fn tell(listener: &mut dyn Listener, outcome: Result<(), Refusal>) -> Result<(), End> {
    listener.done(outcome).map_err(End::Listener)
}
