//! Rule tables, ladders and surcharges, with what covers what.

use reference::fares::{Rule, PRICE_MOST};

use super::measures::Gauges;

pub trait Tariff {
    type Ticket: Copy;

    fn start(&self, class: u8) -> Self::Ticket;
    fn next(&self, ticket: Self::Ticket, gauges: &Gauges, event: u8) -> Self::Ticket;
    fn price(&self, ticket: Self::Ticket) -> u32;
    fn covers(&self, ticket: Self::Ticket, other: Self::Ticket) -> bool;
}

const TICKETS: usize = 32;
const EVENTS: usize = 16;

/// Where a rule leads, and from which gauges on.
#[derive(Clone, Copy)]
struct Step {
    minima: Gauges,
    target: u8,
}

impl Step {
    fn is_met(&self, gauges: &Gauges) -> bool {
        self.minima.iter().zip(gauges).all(|(minimum, gauge)| gauge >= minimum)
    }
}

/// A rule table that has been opened.
pub struct Table {
    starts: [u8; 4],
    prices: [u32; TICKETS],
    /// The steps of each ticket at each event, by falling target: the first one met is taken.
    steps: Vec<Step>,
    /// Where the steps of a ticket at an event begin; those of the next one begin where they end.
    begins: [u16; TICKETS * EVENTS + 1],
    /// What each ticket covers, a bit for each.
    covered: [u32; TICKETS],
}

impl Table {
    pub fn new(starts: [u8; 4], prices: &[u32], rules: &[Rule]) -> Table {
        let mut table = Table {
            starts,
            prices: [0; TICKETS],
            steps: Vec::new(),
            begins: [0; TICKETS * EVENTS + 1],
            covered: [0; TICKETS],
        };
        table.prices[..prices.len()].copy_from_slice(prices);
        for ticket in 0..TICKETS {
            for event in 0..EVENTS {
                table.push_steps(rules, ticket, event);
            }
        }
        table.covered = covered(&table, prices.len(), rules);
        table
    }

    fn push_steps(&mut self, rules: &[Rule], ticket: usize, event: usize) {
        let begin = self.steps.len();
        let led = |rule: &&Rule| usize::from(rule.ticket) == ticket && rule.events & (1 << event) != 0;
        self.steps
            .extend(rules.iter().filter(led).map(|rule| Step { minima: rule.minima, target: rule.target }));
        self.steps[begin..].sort_by_key(|step| std::cmp::Reverse(step.target));
        self.begins[ticket * EVENTS + event + 1] = self.steps.len() as u16;
    }

    fn steps(&self, ticket: usize, event: usize) -> &[Step] {
        let at = ticket * EVENTS + event;
        &self.steps[usize::from(self.begins[at])..usize::from(self.begins[at + 1])]
    }
}

impl Tariff for Table {
    type Ticket = u8;

    fn start(&self, class: u8) -> u8 {
        self.starts.get(usize::from(class)).copied().unwrap_or(0)
    }

    fn next(&self, ticket: u8, gauges: &Gauges, event: u8) -> u8 {
        let steps = self.steps(usize::from(ticket), usize::from(event));
        steps.iter().find(|step| step.is_met(gauges)).map_or(ticket, |step| step.target)
    }

    fn price(&self, ticket: u8) -> u32 {
        self.prices[usize::from(ticket)]
    }

    fn covers(&self, ticket: u8, other: u8) -> bool {
        self.covered[usize::from(ticket)] & (1 << other) != 0
    }
}

/// Free tickets cover all that they reach, fixed ones themselves, others none.
fn covered(table: &Table, count: usize, rules: &[Rule]) -> [u32; TICKETS] {
    let reached = reached(rules);
    let mut covered = [0; TICKETS];
    for ticket in 0..count {
        if is_free(table, &reached, rules, ticket) {
            covered[ticket] = reached[ticket];
        } else if is_fixed(table, reached[ticket]) {
            covered[ticket] = 1 << ticket;
        }
    }
    covered
}

/// Rules lead to higher tickets, so those are done first.
fn reached(rules: &[Rule]) -> [u32; TICKETS] {
    let mut reached = [0; TICKETS];
    for ticket in (0..TICKETS).rev() {
        reached[ticket] = 1 << ticket;
        for rule in rules.iter().filter(|rule| usize::from(rule.ticket) == ticket) {
            reached[ticket] |= reached[usize::from(rule.target)];
        }
    }
    reached
}

fn tickets(mask: u32) -> impl Iterator<Item = usize> {
    (0..TICKETS).filter(move |ticket| mask & (1 << ticket) != 0)
}

fn is_free(table: &Table, reached: &[u32; TICKETS], rules: &[Rule], ticket: usize) -> bool {
    let line: Vec<usize> = tickets(reached[ticket]).collect();
    let has_rule = |from, to| {
        rules.iter().any(|rule| usize::from(rule.ticket) == from && usize::from(rule.target) == to)
    };
    line.windows(2).all(|pair| has_rule(pair[0], pair[1]))
        && line
            .iter()
            .enumerate()
            .all(|(at, &low)| line[at..].iter().all(|&high| !overtakes(table, low, high)))
}

/// Whether the low ticket's next is above the high one's at some gauges that are no larger.
///
/// All these tickets stand in one line, and next tickets rise with the gauges. So it is enough to
/// look at the least gauges at which each step of the low ticket is met.
fn overtakes(table: &Table, low: usize, high: usize) -> bool {
    (0..EVENTS).any(|event| {
        table
            .steps(low, event)
            .iter()
            .any(|step| table.next(high as u8, &step.minima, event as u8) < step.target)
    })
}

/// Next tickets rise with the gauges, so the lowest and the highest gauges speak for all.
fn is_fixed(table: &Table, reached: u32) -> bool {
    tickets(reached).all(|ticket| {
        (0..EVENTS as u8).all(|event| {
            let next = |gauges| table.next(ticket as u8, &gauges, event);
            next([0; 4]) == next([u32::MAX; 4])
        })
    })
}

pub struct Ladder {
    pub first: u32,
    pub step: u32,
}

const LADDER_TOP: u32 = 15;

impl Tariff for Ladder {
    type Ticket = u8;

    fn start(&self, _class: u8) -> u8 {
        0
    }

    fn next(&self, ticket: u8, gauges: &Gauges, _event: u8) -> u8 {
        ticket.max(gauges[2].saturating_sub(1).min(LADDER_TOP) as u8)
    }

    fn price(&self, ticket: u8) -> u32 {
        self.first + u32::from(ticket) * self.step
    }

    fn covers(&self, ticket: u8, other: u8) -> bool {
        ticket <= other
    }
}

/// A surcharge over a tariff; its tickets are those below with a mark.
pub struct Surcharge<T> {
    pub below: T,
    pub event: u8,
    pub amount: u32,
}

impl<T: Tariff> Tariff for Surcharge<T> {
    type Ticket = (T::Ticket, bool);

    fn start(&self, class: u8) -> Self::Ticket {
        (self.below.start(class), false)
    }

    fn next(&self, (ticket, marked): Self::Ticket, gauges: &Gauges, event: u8) -> Self::Ticket {
        (self.below.next(ticket, gauges, event), marked || event == self.event)
    }

    fn price(&self, (ticket, marked): Self::Ticket) -> u32 {
        let price = self.below.price(ticket);
        if marked {
            (price + self.amount).min(PRICE_MOST)
        } else {
            price
        }
    }

    fn covers(&self, (ticket, marked): Self::Ticket, (other, other_marked): Self::Ticket) -> bool {
        (!marked || other_marked) && self.below.covers(ticket, other)
    }
}

#[cfg(test)]
mod tests {
    use super::*;

    fn rule(ticket: u8, target: u8, zones: u32) -> Rule {
        Rule { ticket, target, events: 0xffff, minima: [0, 0, zones, 0] }
    }

    fn covered(rules: &[Rule]) -> Vec<u32> {
        Table::new([0; 4], &[200, 300, 450], rules).covered[..3].to_vec()
    }

    #[test]
    fn free_tickets_cover_all_that_they_reach() {
        let graded = [rule(0, 1, 2), rule(0, 2, 3), rule(1, 2, 3)];
        assert_eq!(covered(&graded), [0b111, 0b110, 0b100]);
        // A rule with no event still leads on.
        let silent = Rule { events: 0, ..rule(0, 1, 0) };
        assert_eq!(covered(&[silent]), [0b011, 0b010, 0b100]);
    }

    #[test]
    fn tickets_that_overtake_are_not_free() {
        // From three zones on ticket 0 leads to 2, but ticket 1 only from four on.
        let overtaking = [rule(0, 1, 2), rule(0, 2, 3), rule(1, 2, 4)];
        assert_eq!(covered(&overtaking), [0, 0b110, 0b100]);
        // Without a rule from 1 to 2 the tickets reached are no line; at fixed gauges 0 covers itself.
        assert_eq!(covered(&[rule(0, 1, 0), rule(0, 2, 0)]), [0b001, 0b010, 0b100]);
        assert_eq!(covered(&[rule(0, 1, 0), rule(0, 2, 1)]), [0, 0b010, 0b100]);
    }

    #[test]
    fn the_highest_target_met_is_next() {
        let table = Table::new([1; 4], &[1, 2, 3], &[rule(0, 1, 0), rule(0, 2, 2)]);
        assert_eq!((table.start(0), table.start(9)), (1, 0));
        assert_eq!(table.next(0, &[0, 0, 1, 0], 0), 1);
        assert_eq!(table.next(0, &[0, 0, 2, 0], 15), 2);
        assert_eq!(table.next(2, &[0, 0, 2, 0], 0), 2);
    }

    #[test]
    fn a_mark_covers_only_marks() {
        let tariff = Surcharge { below: Ladder { first: 100, step: 50 }, event: 2, amount: 75 };
        let marked = tariff.next(tariff.start(0), &[0, 0, 3, 0], 2);
        assert_eq!((marked, tariff.price(marked)), ((2, true), 275));
        assert!(tariff.covers((1, false), (1, true)) && tariff.covers((1, true), (2, true)));
        assert!(!tariff.covers((1, true), (1, false)) && !tariff.covers((2, false), (1, true)));
        let dear = Surcharge { below: Ladder { first: 9_999_990, step: 0 }, event: 2, amount: 75 };
        assert_eq!(dear.price((0, true)), PRICE_MOST);
    }
}
