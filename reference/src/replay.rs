//! Runs a case file, searches each question, and tells a listener what comes of each entry.

use crate::log::{self, Put};
use crate::network::{Question, Room};
use crate::refusal::Refusal;
use crate::search::{Answer, Search, Shortfall};
use crate::timetable::Hop;

pub use crate::log::End;

/// A question with what came of it, and all that it was put over.
pub struct Asked<'a> {
    pub question: Question,
    pub printed: Option<&'a [u8]>,
    pub room: Room,
    pub hops: &'a [Hop],
    pub search: Option<Search<'a>>,
    pub outcome: Result<Answer, Refusal>,
}

pub trait Listener {
    fn case(&mut self, name: &str) -> Result<(), String>;
    /// A board that does not open, or an entry that is no question.
    fn done(&mut self, outcome: Result<(), Refusal>) -> Result<(), String>;
    fn asked(&mut self, asked: &Asked) -> Result<(), String>;
}

pub fn replay(text: &str, listener: &mut dyn Listener) -> Result<(), End> {
    log::run(text, &mut Searching { listener })
}

/// Searches the questions of a log.
struct Searching<'a> {
    listener: &'a mut dyn Listener,
}

impl log::Listener for Searching<'_> {
    fn case(&mut self, name: &str) -> Result<(), String> {
        self.listener.case(name)
    }

    fn done(&mut self, outcome: Result<(), Refusal>) -> Result<(), String> {
        self.listener.done(outcome)
    }

    fn ask(&mut self, put: &Put) -> Result<(), End> {
        let hops = put.day.hops(put.timetable);
        let asked = ask(put, &hops).map_err(|Shortfall::TooManyStates| End::TooLarge { line: put.line })?;
        self.listener.asked(&asked).map_err(End::Listener)
    }
}

fn ask<'a>(put: &Put<'a>, hops: &'a [Hop]) -> Result<Asked<'a>, Shortfall> {
    let network = &put.loaded.network;
    let room = put.loaded.room();
    let (search, outcome) = match network.admit(hops, &put.question, &room) {
        Err(refusal) => (None, Err(refusal)),
        Ok(()) => {
            let search = Search::new(hops, network, put.fares, put.question);
            let outcome = search.answer()?;
            (Some(search), outcome)
        }
    };
    Ok(Asked { question: put.question, printed: put.printed, room, hops, search, outcome })
}
