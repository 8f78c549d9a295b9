//! Writes the record of a case file.

use std::io::Write;

use crate::refusal::Refusal;
use crate::replay::{Asked, Listener};
use crate::search::{Answer, Kind, Leg};
use crate::sheet::hexadecimal;

pub struct Recorder<W: Write> {
    out: W,
}

impl<W: Write> Recorder<W> {
    pub fn new(out: W) -> Recorder<W> {
        Recorder { out }
    }

    pub fn finish(mut self) -> Result<W, String> {
        self.out.flush().map_err(|error| error.to_string())?;
        Ok(self.out)
    }

    fn line(&mut self, line: &str) -> Result<(), String> {
        writeln!(self.out, "{line}").map_err(|error| error.to_string())
    }

    /// How many labels a planner writes cannot be known here, so a dash stands for it.
    fn answer(&mut self, answer: &Answer) -> Result<(), String> {
        let sheet = answer.sheet();
        let legs: usize = answer.journeys.iter().map(Vec::len).sum();
        self.line(&format!("rows {} labels - bytes {} legs {legs}", answer.rows.len(), sheet.len()))?;
        self.line(&hexadecimal(&sheet))?;
        for (row, journey) in answer.journeys.iter().enumerate() {
            for leg in journey {
                self.line(&leg_line(row, leg))?;
            }
        }
        Ok(())
    }
}

pub fn leg_line(row: usize, leg: &Leg) -> String {
    let kind = match leg.kind {
        Kind::Walk => 0,
        Kind::Ride => 1,
    };
    format!("{row} {kind} {} {}", leg.first, leg.last)
}

/// What a question's last line says; a refused question has no sheet and differs from every one.
pub fn compared(printed: &[u8], sheet: Option<&[u8]>) -> &'static str {
    if sheet == Some(printed) {
        "same"
    } else {
        "differs"
    }
}

impl<W: Write> Listener for Recorder<W> {
    fn case(&mut self, name: &str) -> Result<(), String> {
        self.line(&format!("case {name}"))
    }

    fn done(&mut self, outcome: Result<(), Refusal>) -> Result<(), String> {
        match outcome {
            Ok(()) => self.line("ok"),
            Err(refusal) => self.line(&refusal.to_string()),
        }
    }

    fn asked(&mut self, asked: &Asked) -> Result<(), String> {
        match &asked.outcome {
            Ok(answer) => self.answer(answer)?,
            Err(refusal) => self.line(&refusal.to_string())?,
        }
        if let Some(printed) = asked.printed {
            let sheet = asked.outcome.as_ref().ok().map(Answer::sheet);
            self.line(compared(printed, sheet.as_deref()))?;
        }
        Ok(())
    }
}
