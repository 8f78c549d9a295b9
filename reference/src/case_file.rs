//! The lines of a case file, and what a board was loaded with.

use crate::fares::{BaseTariff, Fares, Measure, Rule, Surcharge};
use crate::network::{Footpath, Network, Question, Room, Stop};
use crate::refusal::Refusal;
use crate::timetable::{Hop, Timetable};

const BYTE_MOST: u32 = 255;
const EVENTS_MOST: u32 = 65_535;
const NUMBER_MOST: u32 = u32::MAX;

#[derive(Debug)]
pub enum Line {
    Nothing,
    Case(String),
    Load(Load),
    Entry(Entry),
}

/// A line of what the board was loaded with.
#[derive(Debug)]
pub enum Load {
    List,
    Line { interval: u32, trips: u32 },
    Hop(Hop),
    Stop(Stop),
    Path(Footpath),
    Measure(Measure),
    Table { starts: [u8; 4], prices: Vec<u32> },
    Rule(Rule),
    Ladder { first: u32, step: u32 },
    Surcharge(Surcharge),
    Room(Room),
}

/// A line of the log.
#[derive(Debug)]
pub enum Entry {
    Cancel(u32),
    Reinstate(u32),
    Delay { trip: u32, seconds: u32 },
    Ask { question: Question, printed: Option<Vec<u8>> },
}

pub fn read_line(text: &str) -> Result<Line, String> {
    if text.starts_with('#') {
        return Ok(Line::Nothing);
    }
    let mut words = Words { rest: text };
    let Some(word) = words.next() else {
        return Ok(Line::Nothing);
    };
    let line = match word {
        "case" => Line::Case(words.word("NAME")?.to_string()),
        "cancel" => Line::Entry(Entry::Cancel(words.number("TRIP")?)),
        "reinstate" => Line::Entry(Entry::Reinstate(words.number("TRIP")?)),
        "delay" => {
            Line::Entry(Entry::Delay { trip: words.number("TRIP")?, seconds: words.number("SECONDS")? })
        }
        "ask" => Line::Entry(read_ask(&mut words)?),
        _ => Line::Load(read_load(word, &mut words)?),
    };
    match words.next() {
        Some(extra) => Err(format!("extra word '{extra}'")),
        None => Ok(line),
    }
}

fn read_load(word: &str, words: &mut Words) -> Result<Load, String> {
    Ok(match word {
        "list" => Load::List,
        "line" => Load::Line { interval: words.number("INTERVAL")?, trips: words.number("TRIPS")? },
        "hop" => Load::Hop(read_hop(words)?),
        "stop" => Load::Stop(Stop { zone: words.byte("ZONE")?, class: words.byte("CLASS")? }),
        "path" => Load::Path(Footpath {
            from: words.number("FROM")?,
            to: words.number("TO")?,
            seconds: words.number("SECONDS")?,
        }),
        "measure" => Load::Measure(read_measure(words.word("NAME")?)?),
        "table" => read_table(words)?,
        "rule" => Load::Rule(read_rule(words)?),
        "ladder" => Load::Ladder { first: words.number("FIRST")?, step: words.number("STEP")? },
        "surcharge" => {
            Load::Surcharge(Surcharge { event: words.byte("EVENT")?, amount: words.number("AMOUNT")? })
        }
        "room" => Load::Room(Room {
            labels: words.number("LABELS")?,
            aboard: words.number("ABOARD")?,
            bytes: words.number("BYTES")?,
            legs: words.number("LEGS")?,
        }),
        _ => return Err(format!("unknown word '{word}'")),
    })
}

fn read_hop(words: &mut Words) -> Result<Hop, String> {
    Ok(Hop {
        trip: words.number("TRIP")?,
        from: words.number("FROM")?,
        to: words.number("TO")?,
        departure: words.number("DEPARTURE")?,
        arrival: words.number("ARRIVAL")?,
        metres: words.number("METRES")?,
        level: words.byte("LEVEL")?,
        event: words.byte("EVENT")?,
        runs: match words.number("RUNS")? {
            0 => false,
            1 => true,
            other => return Err(format!("RUNS is {other}, neither 0 nor 1")),
        },
    })
}

fn read_measure(name: &str) -> Result<Measure, String> {
    match name {
        "metres" => Ok(Measure::Metres),
        "stops" => Ok(Measure::Stops),
        "zones" => Ok(Measure::Zones),
        "level" => Ok(Measure::Level),
        "all" => Ok(Measure::All),
        _ => Err(format!("unknown measure '{name}'")),
    }
}

fn read_table(words: &mut Words) -> Result<Load, String> {
    let mut starts = [0; 4];
    for start in &mut starts {
        *start = words.byte("START")?;
    }
    let mut prices = Vec::new();
    while let Some(word) = words.next() {
        prices.push(decimal(word, "PRICE", NUMBER_MOST)?);
    }
    Ok(Load::Table { starts, prices })
}

fn read_rule(words: &mut Words) -> Result<Rule, String> {
    Ok(Rule {
        ticket: words.byte("TICKET")?,
        target: words.byte("TARGET")?,
        events: words.at_most("EVENTS", EVENTS_MOST)? as u16,
        minima: [words.number("MIN0")?, words.number("MIN1")?, words.number("MIN2")?, words.number("MIN3")?],
    })
}

fn read_ask(words: &mut Words) -> Result<Entry, String> {
    let question = Question {
        origin: words.number("ORIGIN")?,
        destination: words.number("DESTINATION")?,
        departure: words.number("DEPARTURE")?,
        rides: words.number("RIDES")?,
    };
    let printed = match words.next() {
        None => None,
        Some("=") => Some(read_bytes(words)?),
        Some(extra) => return Err(format!("extra word '{extra}'")),
    };
    Ok(Entry::Ask { question, printed })
}

fn read_bytes(words: &mut Words) -> Result<Vec<u8>, String> {
    let mut bytes = Vec::new();
    while let Some(word) = words.next() {
        if word.len() > 2 || !word.chars().all(|digit| digit.is_ascii_hexdigit()) {
            return Err(format!("'{word}' is no byte of one or two hexadecimal digits"));
        }
        bytes.push(u8::from_str_radix(word, 16).map_err(|_| format!("'{word}' is no byte"))?);
    }
    Ok(bytes)
}

struct Words<'a> {
    rest: &'a str,
}

impl<'a> Words<'a> {
    fn next(&mut self) -> Option<&'a str> {
        let rest = self.rest.trim_start_matches(' ');
        if rest.is_empty() {
            return None;
        }
        let (word, after) = rest.split_at(rest.find(' ').unwrap_or(rest.len()));
        self.rest = after;
        Some(word)
    }

    fn word(&mut self, name: &str) -> Result<&'a str, String> {
        self.next().ok_or_else(|| format!("{name} is missing"))
    }

    fn at_most(&mut self, name: &str, most: u32) -> Result<u32, String> {
        decimal(self.word(name)?, name, most)
    }

    fn number(&mut self, name: &str) -> Result<u32, String> {
        self.at_most(name, NUMBER_MOST)
    }

    fn byte(&mut self, name: &str) -> Result<u8, String> {
        Ok(self.at_most(name, BYTE_MOST)? as u8)
    }
}

/// The value is held as soon as it is above the most, so that no number of digits is too long.
fn decimal(word: &str, name: &str, most: u32) -> Result<u32, String> {
    let mut value: u64 = 0;
    for digit in word.chars() {
        let digit = digit.to_digit(10).ok_or_else(|| format!("{name} is '{word}', not a number"))?;
        value = (value * 10 + u64::from(digit)).min(u64::from(u32::MAX) + 1);
    }
    if value > u64::from(most) {
        return Err(format!("{name} is {word}, above {most}"));
    }
    Ok(value as u32)
}

/// All that was handed in for one board.
#[derive(Default)]
pub struct Loaded {
    is_list: bool,
    line: Option<(u32, u32)>,
    hops: Vec<Hop>,
    pub network: Network,
    measure: Option<Measure>,
    base: Option<BaseTariff>,
    surcharge: Option<Surcharge>,
    room: Option<Room>,
}

impl Loaded {
    pub fn take(&mut self, load: Load) -> Result<(), String> {
        match load {
            Load::List => self.take_list(),
            Load::Line { interval, trips } => self.take_interval_line(interval, trips),
            Load::Hop(hop) => {
                self.hops.push(hop);
                Ok(())
            }
            Load::Stop(stop) => {
                self.network.stops.push(stop);
                Ok(())
            }
            Load::Path(path) => {
                self.network.paths.push(path);
                Ok(())
            }
            Load::Measure(measure) => once(&mut self.measure, measure, "measure"),
            Load::Table { starts, prices } => {
                self.take_base(BaseTariff::Table { starts, prices, rules: Vec::new() })
            }
            Load::Rule(rule) => self.take_rule(rule),
            Load::Ladder { first, step } => self.take_base(BaseTariff::Ladder { first, step }),
            Load::Surcharge(surcharge) => once(&mut self.surcharge, surcharge, "surcharge"),
            Load::Room(room) => once(&mut self.room, room, "room"),
        }
    }

    fn take_list(&mut self) -> Result<(), String> {
        if self.is_list || self.line.is_some() {
            return Err("a second 'list' or 'line'".to_string());
        }
        self.is_list = true;
        Ok(())
    }

    fn take_interval_line(&mut self, interval: u32, trips: u32) -> Result<(), String> {
        if self.is_list || self.line.is_some() {
            return Err("a second 'list' or 'line'".to_string());
        }
        self.line = Some((interval, trips));
        Ok(())
    }

    fn take_base(&mut self, base: BaseTariff) -> Result<(), String> {
        once(&mut self.base, base, "table or ladder")
    }

    fn take_rule(&mut self, rule: Rule) -> Result<(), String> {
        match &mut self.base {
            Some(BaseTariff::Table { rules, .. }) => {
                rules.push(rule);
                Ok(())
            }
            _ => Err("a rule before a table".to_string()),
        }
    }

    pub fn room(&self) -> Room {
        self.room.unwrap_or_default()
    }

    /// The timetable first, then the table or the ladder, then the surcharge. Nothing without a
    /// table or a ladder.
    pub fn open(&self) -> Option<Result<(Timetable, Fares), Refusal>> {
        let base = self.base.as_ref()?;
        Some(self.open_timetable().and_then(|timetable| {
            base.open()?;
            if let Some(surcharge) = &self.surcharge {
                surcharge.open()?;
            }
            let measure = self.measure.unwrap_or(Measure::All);
            Ok((timetable, Fares { measure, base: base.clone(), surcharge: self.surcharge }))
        }))
    }

    fn open_timetable(&self) -> Result<Timetable, Refusal> {
        match self.line {
            Some((interval, trips)) => Timetable::open_line(&self.hops, interval, trips),
            None => Timetable::open_list(&self.hops),
        }
    }
}

fn once<T>(place: &mut Option<T>, value: T, name: &str) -> Result<(), String> {
    if place.is_some() {
        return Err(format!("a second {name}"));
    }
    *place = Some(value);
    Ok(())
}
