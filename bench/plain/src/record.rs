//! Replays a case file: writes its record, and if asked how long each question took.

use std::io::Write;
use std::time::Instant;

use reference::fares::Fares;
use reference::log::{End, Listener, Put};
use reference::record::{compared, leg_line};
use reference::refusal::Refusal;
use reference::sheet::{self, hexadecimal};

use crate::answer::{Answer, Refused};
use crate::board::{planner, Kind, Planner};

pub struct Recorder<'a> {
    out: &'a mut dyn Write,
    /// Where times are written, if they are.
    times: Option<&'a mut dyn Write>,
    kind: Kind,
    planner: Option<Box<dyn Planner>>,
}

impl<'a> Recorder<'a> {
    pub fn new(kind: Kind, out: &'a mut dyn Write, times: Option<&'a mut dyn Write>) -> Recorder<'a> {
        Recorder { out, times, kind, planner: None }
    }

    fn line(&mut self, line: &str) -> Result<(), String> {
        writeln!(self.out, "{line}").map_err(|error| error.to_string())
    }

    fn outcome(&mut self, outcome: &Result<Answer, Refused>, printed: Option<&[u8]>) -> Result<(), String> {
        let sheet = match outcome {
            Ok(answer) => Some(self.answer(answer)?),
            Err(refused) => {
                self.line(&refused.to_string())?;
                None
            }
        };
        match printed {
            Some(printed) => self.line(compared(printed, sheet.as_deref())),
            None => Ok(()),
        }
    }

    /// The bytes of the sheet.
    fn answer(&mut self, answer: &Answer) -> Result<Vec<u8>, String> {
        let sheet = sheet::write(&answer.rows);
        let legs: usize = answer.legs.iter().map(Vec::len).sum();
        let (rows, labels, bytes) = (answer.rows.len(), answer.labels, sheet.len());
        self.line(&format!("rows {rows} labels {labels} bytes {bytes} legs {legs}"))?;
        self.line(&hexadecimal(&sheet))?;
        for (row, legs) in answer.legs.iter().enumerate() {
            for leg in legs {
                self.line(&leg_line(row, leg))?;
            }
        }
        Ok(sheet)
    }

    fn time(&mut self, line: usize, begin: Instant, outcome: &Result<Answer, Refused>) -> Result<(), String> {
        let Some(times) = &mut self.times else {
            return Ok(());
        };
        let labels = match outcome {
            Ok(answer) => answer.labels,
            Err(_) => 0,
        };
        let microseconds = begin.elapsed().as_micros();
        writeln!(times, "line {line}: {microseconds} microseconds, {labels} labels")
            .map_err(|error| error.to_string())
    }
}

impl Listener for Recorder<'_> {
    fn case(&mut self, name: &str) -> Result<(), String> {
        self.line(&format!("case {name}"))
    }

    fn opened(&mut self, fares: &Fares) -> Result<(), String> {
        self.planner = Some(planner(fares, self.kind));
        Ok(())
    }

    fn done(&mut self, outcome: Result<(), Refusal>) -> Result<(), String> {
        match outcome {
            Ok(()) => self.line("ok"),
            Err(refusal) => self.line(&refusal.to_string()),
        }
    }

    fn ask(&mut self, put: &Put) -> Result<(), End> {
        let begin = Instant::now();
        let Some(planner) = &mut self.planner else {
            return Err(End::Listener("a question before its board has opened".to_string()));
        };
        let hops = put.day.hops(put.timetable);
        let outcome = planner.answer(&hops, &put.loaded.network, put.question, put.loaded.room());
        self.outcome(&outcome, put.printed).map_err(End::Listener)?;
        self.time(put.line, begin, &outcome).map_err(End::Listener)
    }
}
