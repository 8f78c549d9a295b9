//! Label stores. All hold the same labels in the same order; they differ in how those at a stop are
//! found.

use super::Label;

pub trait Store<S>: Default {
    /// Nothing is written any more; labels will be at so many stops.
    fn clear(&mut self, stops: usize);
    fn push(&mut self, label: Label<S>);
    /// All that were written, in order.
    fn labels(&self) -> &[Label<S>];
    /// Those at a stop with their places, in order.
    fn at<'a>(&'a self, stop: u32) -> impl Iterator<Item = (usize, &'a Label<S>)>
    where
        S: 'a;
}

/// One list of labels; each search looks at all of them.
pub struct Rows<S> {
    labels: Vec<Label<S>>,
}

impl<S> Default for Rows<S> {
    fn default() -> Rows<S> {
        Rows { labels: Vec::new() }
    }
}

impl<S> Store<S> for Rows<S> {
    fn clear(&mut self, _stops: usize) {
        self.labels.clear();
    }

    fn push(&mut self, label: Label<S>) {
        self.labels.push(label);
    }

    fn labels(&self) -> &[Label<S>] {
        &self.labels
    }

    fn at<'a>(&'a self, stop: u32) -> impl Iterator<Item = (usize, &'a Label<S>)>
    where
        S: 'a,
    {
        self.labels.iter().enumerate().filter(move |(_, label)| label.stop == stop)
    }
}

/// The stops of all labels stand in a list of their own, too: of most labels no more is looked at.
/// Each search looks at all stops, many at once.
pub struct Columns<S> {
    labels: Vec<Label<S>>,
    stops: Vec<u32>,
}

impl<S> Default for Columns<S> {
    fn default() -> Columns<S> {
        Columns { labels: Vec::new(), stops: Vec::new() }
    }
}

/// So many stops are compared at once.
const BLOCK: usize = 32;

/// Without a way out of the loop, so that it is compiled to wide comparisons.
fn has(block: &[u32], stop: u32) -> bool {
    block.iter().fold(false, |found, &at| found | (at == stop))
}

impl<S> Store<S> for Columns<S> {
    fn clear(&mut self, _stops: usize) {
        self.labels.clear();
        self.stops.clear();
    }

    fn push(&mut self, label: Label<S>) {
        self.stops.push(label.stop);
        self.labels.push(label);
    }

    fn labels(&self) -> &[Label<S>] {
        &self.labels
    }

    fn at<'a>(&'a self, stop: u32) -> impl Iterator<Item = (usize, &'a Label<S>)>
    where
        S: 'a,
    {
        let blocks = self.stops.chunks(BLOCK).enumerate();
        blocks.filter(move |(_, block)| has(block, stop)).flat_map(move |(number, block)| {
            let first = number * BLOCK;
            let there = block.iter().enumerate().filter(move |(_, at)| **at == stop);
            there.map(move |(at, _)| (first + at, &self.labels[first + at]))
        })
    }
}

/// The labels at each stop are chained, so a search looks at no others.
pub struct Chains<S> {
    labels: Vec<Label<S>>,
    /// The place of the next label at the same stop.
    next: Vec<u32>,
    /// The first and the last place of each stop's labels.
    ends: Vec<(u32, u32)>,
}

/// No place: a store of so many labels is larger than any machine has room for.
const NONE: u32 = u32::MAX;

impl<S> Default for Chains<S> {
    fn default() -> Chains<S> {
        Chains { labels: Vec::new(), next: Vec::new(), ends: Vec::new() }
    }
}

impl<S> Store<S> for Chains<S> {
    fn clear(&mut self, stops: usize) {
        self.labels.clear();
        self.next.clear();
        self.ends.clear();
        self.ends.resize(stops, (NONE, NONE));
    }

    fn push(&mut self, label: Label<S>) {
        let place = self.labels.len() as u32;
        let (first, last) = &mut self.ends[label.stop as usize];
        match *last {
            NONE => *first = place,
            last => self.next[last as usize] = place,
        }
        *last = place;
        self.next.push(NONE);
        self.labels.push(label);
    }

    fn labels(&self) -> &[Label<S>] {
        &self.labels
    }

    fn at<'a>(&'a self, stop: u32) -> impl Iterator<Item = (usize, &'a Label<S>)>
    where
        S: 'a,
    {
        let place = |place: u32| (place != NONE).then_some(place as usize);
        let first = place(self.ends[stop as usize].0);
        std::iter::successors(first, move |&at| place(self.next[at])).map(|at| (at, &self.labels[at]))
    }
}
