//! Puts each question to both searches and compares what they find.

use crate::refusal::Refusal;
use crate::replay::{Asked, Listener};

const JOURNEYS_MOST: usize = 300_000;
const STATES_MOST: usize = 300_000;

#[derive(Debug, Default)]
pub struct SelfCheck {
    pub questions: usize,
    pub by_both: usize,
}

impl Listener for SelfCheck {
    fn case(&mut self, _name: &str) -> Result<(), String> {
        Ok(())
    }

    fn done(&mut self, _outcome: Result<(), Refusal>) -> Result<(), String> {
        Ok(())
    }

    fn asked(&mut self, asked: &Asked) -> Result<(), String> {
        self.questions += 1;
        let Some(search) = &asked.search else {
            return Ok(());
        };
        let journeys = search.by_journeys(JOURNEYS_MOST);
        let states = search.by_states(STATES_MOST);
        if let (Some(journeys), Some(states)) = (journeys, states) {
            self.by_both += 1;
            if journeys != states {
                return Err(format!("question {} of the file: the searches disagree", self.questions));
            }
        }
        Ok(())
    }
}
