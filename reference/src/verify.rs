//! Holds a planner's record against its case file.

use crate::network::Question;
use crate::record::compared;
use crate::refusal::Refusal;
use crate::replay::{replay, Asked, End, Listener};
use crate::search::{Answer, Kind, Leg, Search};
use crate::sheet::{hexadecimal, Offer};

#[derive(Debug, PartialEq, Eq)]
pub enum Verdict {
    Agrees,
    /// The first disagreement.
    Disagrees(String),
    /// A question too large for this program, before any disagreement.
    Unknown(String),
}

/// A line that cannot be read ends the case file, and then the record must end there, too.
pub fn verify(cases: &str, record: &str) -> Verdict {
    let mut verifier = Verifier { lines: record.split_terminator('\n').collect(), next: 0 };
    let ended = match replay(cases, &mut verifier) {
        Ok(()) | Err(End::BadLine { .. }) => verifier.finish(),
        Err(End::Listener(disagreement)) => Err(disagreement),
        Err(End::TooLarge { line }) => {
            return Verdict::Unknown(format!(
                "line {line} of the case file: too large for an exhaustive search"
            ));
        }
    };
    match ended {
        Ok(()) => Verdict::Agrees,
        Err(disagreement) => Verdict::Disagrees(disagreement),
    }
}

struct Verifier<'a> {
    lines: Vec<&'a str>,
    next: usize,
}

/// The line `rows R labels L bytes B legs G`.
struct Heading {
    rows: usize,
    bytes: usize,
    legs: usize,
}

impl<'a> Verifier<'a> {
    fn finish(&self) -> Result<(), String> {
        match self.lines.get(self.next) {
            Some(line) => Err(format!("line {} of the record: '{line}'; expected its end", self.next + 1)),
            None => Ok(()),
        }
    }

    /// Says that the line last taken is wrong.
    fn wrong<T>(&self, expected: &str) -> Result<T, String> {
        let line = self.lines[self.next - 1];
        Err(format!("line {} of the record: '{line}'; expected {expected}", self.next))
    }

    fn take(&mut self, expected: &str) -> Result<&'a str, String> {
        self.next += 1;
        match self.lines.get(self.next - 1) {
            Some(line) => Ok(line),
            None => Err(format!("line {} of the record: missing; expected {expected}", self.next)),
        }
    }

    fn exactly(&mut self, expected: &str) -> Result<(), String> {
        let quoted = format!("'{expected}'");
        if self.take(&quoted)? == expected {
            Ok(())
        } else {
            self.wrong(&quoted)
        }
    }

    /// Refusals 12 and 13 hang on the planner's working lists, so either may stand for an answer,
    /// and for too many best offers, which are counted later.
    fn is_full_list(&self, line: &str, asked: &Asked) -> Result<bool, String> {
        let words: Vec<&str> = line.split(' ').collect();
        match words.as_slice() {
            ["refused", "12", value] if plain_number(value) == Some(asked.room.labels as usize) => Ok(true),
            ["refused", "12", ..] => self.wrong(&format!("'refused 12 {}' if 12 at all", asked.room.labels)),
            ["refused", "13", value] => match plain_number(value).and_then(|place| asked.hops.get(place)) {
                Some(hop) if hop.runs => Ok(true),
                _ => self.wrong("the place of a running hop"),
            },
            ["refused", "13", ..] => self.wrong("'refused 13 HOP' if 13 at all"),
            _ => Ok(false),
        }
    }

    fn answer(&mut self, line: &str, answer: &Answer, asked: &Asked) -> Result<(), String> {
        let sheet = answer.sheet();
        let expected = format!("'rows {} labels .. bytes {} legs ..'", answer.rows.len(), sheet.len());
        let heading = match heading(line) {
            Some(heading) if heading.rows == answer.rows.len() && heading.bytes == sheet.len() => heading,
            _ => return self.wrong(&format!("{expected} with the sheet '{}'", hexadecimal(&sheet))),
        };
        self.exactly(&hexadecimal(&sheet))?;
        match &asked.search {
            Some(search) => self.journeys(heading.legs, answer, search, asked.question),
            None => self.wrong("a refusal"),
        }
    }

    /// The legs must spell out a journey for each row, one row after another.
    fn journeys(
        &mut self,
        legs: usize,
        answer: &Answer,
        search: &Search,
        question: Question,
    ) -> Result<(), String> {
        let mut row = 0;
        let mut rider = search.start();
        for _ in 0..legs {
            let line = self.take("a leg")?;
            let Some((leg_row, leg)) = leg(line) else {
                return self.wrong("'ROW KIND FIRST LAST'");
            };
            if leg_row >= answer.rows.len() || leg_row < row {
                return self.wrong("a leg of this row or a later one");
            }
            while row < leg_row {
                self.ended(row, answer, search.offer(&rider))?;
                row += 1;
                rider = search.start();
            }
            rider = match search.follow(&rider, &leg) {
                Some(next) => next,
                None => {
                    return self.wrong(&format!(
                        "a leg that can be taken from stop {} at {} after {} of {} rides{}",
                        rider.stop,
                        rider.time,
                        rider.rides,
                        question.rides,
                        if rider.on_foot { ", not a walk" } else { "" },
                    ))
                }
            };
        }
        while row < answer.rows.len() {
            self.ended(row, answer, search.offer(&rider))?;
            row += 1;
            rider = search.start();
        }
        Ok(())
    }

    fn ended(&self, row: usize, answer: &Answer, offer: Option<Offer>) -> Result<(), String> {
        let expected = answer.rows[row];
        if offer == Some(expected) {
            return Ok(());
        }
        let found = match offer {
            Some(offer) => format!("the legs of row {row} arrive at {} for {}", offer.arrival, offer.price),
            None => format!("the legs of row {row} do not end at the destination"),
        };
        self.wrong(&format!("legs that arrive at {} for {}, but {found}", expected.arrival, expected.price))
    }
}

impl Listener for Verifier<'_> {
    fn case(&mut self, name: &str) -> Result<(), String> {
        self.exactly(&format!("case {name}"))
    }

    fn done(&mut self, outcome: Result<(), Refusal>) -> Result<(), String> {
        match outcome {
            Ok(()) => self.exactly("ok"),
            Err(refusal) => self.exactly(&refusal.to_string()),
        }
    }

    fn asked(&mut self, asked: &Asked) -> Result<(), String> {
        let line = self.take("what became of a question")?;
        let sheet = match &asked.outcome {
            Err(refusal) => {
                let full = comes_late(refusal) && self.is_full_list(line, asked)?;
                let expected = refusal.to_string();
                if !full && line != expected {
                    return self.wrong(&format!("'{expected}'"));
                }
                None
            }
            Ok(_) if self.is_full_list(line, asked)? => None,
            Ok(answer) => {
                self.answer(line, answer, asked)?;
                Some(answer.sheet())
            }
        };
        match asked.printed {
            Some(printed) => self.exactly(compared(printed, sheet.as_deref())),
            None => Ok(()),
        }
    }
}

/// Whether the working lists may run full before this refusal is found.
fn comes_late(refusal: &Refusal) -> bool {
    matches!(refusal, Refusal::ManyOffers(_))
}

/// A number as a record writes it: decimal, without leading zeros.
fn plain_number(word: &str) -> Option<usize> {
    let number: usize = word.parse().ok()?;
    (number.to_string() == word).then_some(number)
}

fn heading(line: &str) -> Option<Heading> {
    let words: Vec<&str> = line.split(' ').collect();
    match words.as_slice() {
        ["rows", rows, "labels", labels, "bytes", bytes, "legs", legs] => {
            plain_number(labels)?;
            Some(Heading {
                rows: plain_number(rows)?,
                bytes: plain_number(bytes)?,
                legs: plain_number(legs)?,
            })
        }
        _ => None,
    }
}

fn leg(line: &str) -> Option<(usize, Leg)> {
    let words: Vec<&str> = line.split(' ').collect();
    let [row, kind, first, last] = words.as_slice() else {
        return None;
    };
    let kind = match *kind {
        "0" => Kind::Walk,
        "1" => Kind::Ride,
        _ => return None,
    };
    Some((plain_number(row)?, Leg { kind, first: plain_number(first)?, last: plain_number(last)? }))
}
